//! The command as it is called: what it prints, and with which status it ends.

use std::io::Write;
use std::process::{Command, Output, Stdio};

fn model(words: &[&str], input: &[u8]) -> Output {
    let mut child = Command::new(env!("CARGO_BIN_EXE_model"))
        .args(words)
        .stdin(Stdio::piped())
        .stdout(Stdio::piped())
        .stderr(Stdio::piped())
        .spawn()
        .expect("the command starts");
    let mut stdin = child.stdin.take().expect("an input");
    stdin.write_all(input).expect("the input is read");
    drop(stdin);
    child.wait_with_output().expect("the command ends")
}

fn status(words: &[&str]) -> Option<i32> {
    let output = model(words, &[]);
    if output.status.code() == Some(2) {
        let told = String::from_utf8_lossy(&output.stderr).into_owned();
        assert!(told.contains("usage: model play"), "{words:?}: {told}");
        assert!(output.stdout.is_empty());
    }
    output.status.code()
}

#[test]
fn play_prints_the_report() {
    let file = [1, 0, 0, 1, 1, 1, 0, 0, 2, 0xBC];
    let output = model(&["play"], &file);
    assert_eq!(output.stdout, b"1 0\n1 W 1 700\n");
    assert_eq!(output.status.code(), Some(0));
    assert_eq!(model(&["play"], &[9]).stdout, b"refused 2\n");
}

#[test]
fn gen_writes_a_file() {
    let words = [
        "gen", "--kind", "living", "--seed", "5", "--n", "3", "--events", "40",
    ];
    let file = model(&words, &[]).stdout;
    assert_eq!((file[0], file.len()), (3, 1 + 3 + 2 + 40 * 6));
    assert_eq!(model(&words, &[]).stdout, file);
    let printed = model(&["play"], &file).stdout;
    assert_eq!(printed.iter().filter(|&&byte| byte == b'\n').count(), 43);
}

#[test]
fn bad_usage_ends_with_2() {
    let lines = [
        "",
        "plays",
        "play FILE",
        "gen --kind living",
        "gen --kind lively --seed 1",
        "gen --kind living --seed 1 --n 8",
        "gen --kind living --seed 1 --n 0",
        "gen --kind living --seed 1 --events 4097",
        "gen --kind living --seed -1",
        "compare --schedules",
        "compare --schedules many",
        "compare --runs 3",
        "check --require-coverage",
        "time --runs 0",
        "time --runs 1 --runs 2",
        "time --count --runs 3",
        "time --count 3",
        "stack --runs 3",
        "counted",
    ];
    for line in lines {
        let words: Vec<_> = line.split_whitespace().collect();
        assert_eq!(status(&words), Some(2), "{line}");
    }
    assert_eq!(status(&["help"]), Some(0));
}

#[test]
fn compare_ends_with_a_count() {
    let output = model(&["compare", "--schedules", "40", "--seed", "7"], &[]);
    let told = String::from_utf8_lossy(&output.stdout).into_owned();
    let last = told.lines().last().unwrap_or("");
    assert!(
        last.starts_with("40 schedules, ") && last.ends_with(" events, 0 differences"),
        "{told}"
    );
    assert_eq!(output.status.code(), Some(0));
}

#[test]
fn missing_coverage_is_told_and_may_be_an_error() {
    let words = [
        "compare",
        "--schedules",
        "2",
        "--kind",
        "bytes",
        "--require-coverage",
    ];
    let output = model(&words, &[]);
    assert!(String::from_utf8_lossy(&output.stdout).contains("never reached: "));
    assert_eq!(output.status.code(), Some(1));
    assert_eq!(status(&words[..5]), Some(0));
}

#[test]
fn check_ends_with_a_count() {
    let output = model(&["check", "--schedules", "40"], &[]);
    let told = String::from_utf8_lossy(&output.stdout).into_owned();
    assert!(told.ends_with(" events, 0 violations\n"), "{told}");
    assert_eq!(output.status.code(), Some(0));
}

/// The lines of a table that have a cost of this sort in each of their columns.
fn rows(output: &Output, cost: &str) -> usize {
    let told = String::from_utf8_lossy(&output.stdout).into_owned();
    let rows = told.lines().filter(|line| line.starts_with("| "));
    rows.filter(|line| line.matches(cost).count() == 2).count()
}

#[test]
fn time_prints_a_table() {
    let output = model(&["time", "--runs", "1"], &[]);
    assert_eq!(rows(&output, " ns per "), 18, "{output:?}");
    assert_eq!(output.status.code(), Some(0));
}

/// Where there is valgrind, and where there is none.
#[test]
fn count_prints_a_table_or_says_what_it_lacks() {
    let output = model(&["time", "--count"], &[]);
    if output.status.code() == Some(0) {
        assert_eq!(rows(&output, " instructions per "), 18, "{output:?}");
    }
    let mut without = Command::new(env!("CARGO_BIN_EXE_model"));
    let output = without.args(["time", "--count"]).env("PATH", "").output();
    let output = output.expect("the command ends");
    let told = String::from_utf8_lossy(&output.stderr).into_owned();
    assert!(
        told.contains("needs valgrind") && output.stdout.is_empty(),
        "{told}"
    );
    assert_eq!(output.status.code(), Some(2));
}

/// A valgrind that fails is told of, and the files that were made for it are gone.
#[cfg(unix)]
#[test]
fn a_valgrind_that_fails_is_told_of() {
    use std::fs;
    let name = format!("model-valgrind-{}", std::process::id());
    let folder = std::env::temp_dir().join(name);
    let (path, files) = (folder.join("path"), folder.join("files"));
    for made in [&path, &files] {
        fs::create_dir_all(made).expect("a folder");
    }
    // A shell that is called as valgrind is does not know what it is asked.
    std::os::unix::fs::symlink("/bin/sh", path.join("valgrind")).expect("a link");
    let output = Command::new(env!("CARGO_BIN_EXE_model"))
        .args(["time", "--count"])
        .env("PATH", &path)
        .env("TMPDIR", &files)
        .output()
        .expect("the command ends");
    let left = fs::read_dir(&files).expect("a folder").count();
    fs::remove_dir_all(&folder).expect("the folders can be removed");
    let told = String::from_utf8_lossy(&output.stderr).into_owned();
    assert!(told.contains("valgrind failed: exit status: "), "{told}");
    assert_eq!((output.status.code(), left), (Some(1), 0));
}

#[test]
fn stack_prints_a_table() {
    let output = model(&["stack"], &[]);
    let told = String::from_utf8_lossy(&output.stdout).into_owned();
    assert_eq!(
        told.lines().filter(|line| line.starts_with("| ")).count(),
        4,
        "{told}"
    );
    assert_eq!(output.status.code(), Some(0));
}
