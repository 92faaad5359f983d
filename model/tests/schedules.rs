//! The example schedules: each file prints what stands beside it, and its text stands for it.

use model::file::report;
use std::fs;
use std::path::{Path, PathBuf};

const FOLDER: &str = concat!(env!("CARGO_MANIFEST_DIR"), "/../schedules");

fn files() -> Vec<PathBuf> {
    let entries = fs::read_dir(FOLDER).expect("the folder of the example schedules");
    let paths = entries.map(|entry| entry.expect("a file").path());
    let mut files: Vec<_> = paths
        .filter(|path| path.extension().is_some_and(|e| e == "bin"))
        .collect();
    files.sort();
    files
}

fn read(path: &Path, extension: &str) -> Vec<u8> {
    fs::read(path.with_extension(extension)).expect("a file beside the schedule")
}

#[test]
fn each_example_prints_what_it_should() {
    assert!(files().len() >= 10, "the examples are missing");
    for path in files() {
        let mut printed = Vec::new();
        report(&read(&path, "bin"), &mut printed);
        let expected = read(&path, "txt");
        assert!(printed == expected, "{} prints otherwise", path.display());
    }
}

#[test]
fn each_text_stands_for_its_file() {
    for path in files() {
        let text = String::from_utf8(read(&path, "hex")).expect("text");
        let lines = text
            .lines()
            .map(|line| line.split('#').next().unwrap_or(""));
        let pairs = lines.flat_map(|line| line.split_whitespace());
        let bytes: Result<Vec<u8>, _> = pairs.map(|pair| u8::from_str_radix(pair, 16)).collect();
        assert_eq!(
            bytes.expect("two digits"),
            read(&path, "bin"),
            "{}",
            path.display()
        );
    }
}
