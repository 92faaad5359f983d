//! How many instructions the two sides take, counted by valgrind.
//!
//! The cases are made here and handed over in a file. This program is started once more, under
//! callgrind, and calls `model_counted` once on each side for each part of a case. Only what is
//! done in there is counted, and each call leaves a file with a total.

use super::cases::{self, Case};
use super::sides::{Library, Model, Side, Way};
use super::{line, Cost, HEAD};
use std::env;
use std::fs;
use std::io;
use std::path::{Path, PathBuf};
use std::process::{self, Command};

/// The command that this program is started with under callgrind.
pub const COMMAND: &str = "counted";
/// The name of the function below, as a linker has it.
const COUNTED: &str = "model_counted";
/// The file that the parts are handed over in, and the stem of the files with totals.
const PARTS: &str = "parts";
const TOTALS: &str = "totals";

/// Has memcpy and memset copy by vectors, however much there is. Valgrind counts each byte of a
/// `rep movsb` as an instruction, which a processor takes in steps of 32 or more.
const PLAIN_COPIES: &str = "glibc.cpu.x86_rep_movsb_threshold=0x7fffffff:\
     glibc.cpu.x86_rep_stosb_threshold=0x7fffffff";

/// Why nothing was counted.
#[derive(Debug)]
pub enum Uncounted {
    NoValgrind,
    /// Valgrind was there and failed; it said this.
    Failed(String),
    Io(io::Error),
}

impl From<io::Error> for Uncounted {
    fn from(error: io::Error) -> Uncounted {
        Uncounted::Io(error)
    }
}

/// What is counted at a time: what is asked for of these files.
type Part<'a> = (Way, &'a [Vec<u8>]);

/// Counts all cases and gives a table in Markdown.
pub fn table() -> Result<String, Uncounted> {
    look_for_valgrind()?;
    let cases = cases::all();
    let folder = Folder::new()?;
    let parts: Vec<Part> = cases.iter().flat_map(parts_of).collect();
    fs::write(folder.0.join(PARTS), packed(&parts))?;
    run_counted(&folder.0)?;
    let totals = totals(&folder.0, 2 * parts.len())?;
    let mut text = String::from("Instructions, as valgrind's callgrind counts them.\n\n");
    text += HEAD;
    for (case, totals) in cases.iter().zip(totals.chunks_exact(4)) {
        text += &line(case, "instructions", &cost(case, totals));
    }
    Ok(text)
}

/// The files with a unit, and those without it.
fn parts_of(case: &Case) -> [Part<'_>; 2] {
    [(case.way, &case.with), (case.way, &case.without)]
}

/// What a unit costs, from the totals of the library and the model, with it and then without it.
fn cost(case: &Case, totals: &[f64]) -> Cost {
    let unit = |side: usize| (totals[side] - totals[side + 2]) / case.units as f64;
    Cost {
        library: unit(0),
        model: unit(1),
    }
}

fn look_for_valgrind() -> Result<(), Uncounted> {
    match Command::new("valgrind").arg("--version").output() {
        Ok(_) => Ok(()),
        Err(error) if error.kind() == io::ErrorKind::NotFound => Err(Uncounted::NoValgrind),
        Err(error) => Err(error.into()),
    }
}

/// Starts this program under callgrind, and waits for its end.
fn run_counted(folder: &Path) -> Result<(), Uncounted> {
    let mut totals = folder.join(TOTALS).into_os_string();
    // A % has a meaning in the name of such a file, and a folder's name may have one.
    totals = totals.to_string_lossy().replace('%', "%%").into();
    let mut option = std::ffi::OsString::from("--callgrind-out-file=");
    option.push(totals);
    let output = Command::new("valgrind")
        .env("GLIBC_TUNABLES", PLAIN_COPIES)
        .args(["--tool=callgrind", "--collect-atstart=no"])
        .arg(format!("--toggle-collect={COUNTED}"))
        .arg(format!("--dump-after={COUNTED}"))
        .arg(option)
        .arg(env::current_exe()?)
        .args([COMMAND, "--folder"])
        .arg(folder)
        .output()?;
    if output.status.success() {
        return Ok(());
    }
    let told = String::from_utf8_lossy(&output.stderr).into_owned();
    Err(Uncounted::Failed(format!("{}\n{told}", output.status)))
}

/// The totals of so many calls, in the order in which they were made.
fn totals(folder: &Path, calls: usize) -> Result<Vec<f64>, Uncounted> {
    let total = |call| {
        let name = format!("{TOTALS}.{call}");
        let text = fs::read_to_string(folder.join(&name))?;
        total_in(&text).ok_or(Uncounted::Failed(format!("{name} has no total")))
    };
    (1..=calls).map(total).collect()
}

/// The total in a file of callgrind's: the number in its line `totals:`.
fn total_in(text: &str) -> Option<f64> {
    let mut found = text.lines().filter_map(|line| line.strip_prefix("totals:"));
    found.next()?.trim().parse().ok()
}

/// What is done under callgrind: the parts of a folder are played, on each side.
pub fn play_parts(folder: &Path) -> io::Result<()> {
    let bytes = fs::read(folder.join(PARTS))?;
    let parts = unpacked(&bytes).ok_or(io::Error::other("these are no parts"))?;
    let (mut library, mut model) = (Library::new(), Model::new());
    for (way, files) in &parts {
        model_counted(&mut library, *way, files);
        model_counted(&mut model, *way, files);
    }
    Ok(())
}

/// The part that is counted. It keeps its name, and is a call wherever it is called.
#[no_mangle]
#[inline(never)]
fn model_counted(side: &mut dyn Side, way: Way, files: &[Vec<u8>]) {
    for file in files {
        side.play(way, file);
    }
}

fn packed(parts: &[Part]) -> Vec<u8> {
    let mut bytes = Vec::new();
    for (way, files) in parts {
        bytes.push(*way as u8);
        bytes.extend((files.len() as u32).to_be_bytes());
        for file in *files {
            bytes.extend((file.len() as u32).to_be_bytes());
            bytes.extend(file);
        }
    }
    bytes
}

fn unpacked(mut bytes: &[u8]) -> Option<Vec<(Way, Vec<Vec<u8>>)>> {
    let mut parts = Vec::new();
    while let Some((&way, rest)) = bytes.split_first() {
        bytes = rest;
        let way = Way::ALL.into_iter().find(|&it| it as u8 == way)?;
        let mut files = Vec::new();
        for _ in 0..number(&mut bytes)? {
            let length = number(&mut bytes)?;
            let (file, rest) = bytes.split_at_checked(length)?;
            files.push(file.to_vec());
            bytes = rest;
        }
        parts.push((way, files));
    }
    Some(parts)
}

/// Takes a number from the front of some bytes.
fn number(bytes: &mut &[u8]) -> Option<usize> {
    let (four, rest) = bytes.split_first_chunk()?;
    *bytes = rest;
    Some(u32::from_be_bytes(*four) as usize)
}

/// A new folder for files that are not kept. It is removed with all that is in it.
struct Folder(PathBuf);

impl Folder {
    fn new() -> io::Result<Folder> {
        let folder = env::temp_dir().join(format!("model-counted-{}", process::id()));
        match fs::create_dir(&folder) {
            Ok(()) => Ok(Folder(folder)),
            Err(error) => Err(io::Error::other(format!("{}: {error}", folder.display()))),
        }
    }
}

impl Drop for Folder {
    fn drop(&mut self) {
        // Nobody is told if it stays: there is nothing more to be done about it.
        let _ = fs::remove_dir_all(&self.0);
    }
}

#[cfg(test)]
mod tests {
    use super::*;

    #[test]
    fn a_total_is_read() {
        let text = "# callgrind format\npart: 3\nevents: Ir\nfn=(1)\n16 400\ntotals: 1234\n";
        assert_eq!(total_in(text), Some(1234.0));
        assert_eq!(total_in("totals: many\n"), None);
        assert_eq!(total_in("summary: 12\n"), None);
    }

    #[test]
    fn totals_are_read_in_order() {
        let folder = Folder::new().expect("a folder");
        for call in 1..=12 {
            let path = folder.0.join(format!("{TOTALS}.{call}"));
            fs::write(path, format!("totals: {}\n", 10 * call)).expect("a file");
        }
        let read = totals(&folder.0, 12).expect("totals");
        assert_eq!(
            read,
            (1..=12).map(|call| 10.0 * call as f64).collect::<Vec<_>>()
        );
        assert!(matches!(totals(&folder.0, 13), Err(Uncounted::Io(_))));
        fs::write(folder.0.join("totals.2"), "part: 2\n").expect("a file");
        let missing = totals(&folder.0, 12).expect_err("no total");
        assert!(matches!(missing, Uncounted::Failed(told) if told.contains("totals.2")));
        let path = folder.0.clone();
        drop(folder);
        assert!(!path.exists());
    }

    #[test]
    fn a_unit_is_what_it_adds() {
        let case = &cases::all()[4];
        let units = case.units as f64;
        let cost = cost(case, &[50.0 + 8.0 * units, 90.0 + 4.0 * units, 50.0, 90.0]);
        assert_eq!((cost.library, cost.model), (8.0, 4.0));
    }

    #[test]
    fn parts_are_handed_over() {
        let files = vec![vec![1, 2, 3], Vec::new()];
        let parts: [Part; 3] = [
            (Way::Trace, &files),
            (Way::Report, &[]),
            (Way::ByValue, &files[..1]),
        ];
        let bytes = packed(&parts);
        let read = unpacked(&bytes).expect("parts");
        assert_eq!(read.len(), parts.len());
        for ((way, files), part) in read.iter().zip(&parts) {
            assert_eq!((*way, &files[..]), *part);
        }
        assert!((1..bytes.len()).any(|end| unpacked(&bytes[..end]).is_none()));
        assert!(unpacked(&[9, 0, 0, 0, 0]).is_none());
    }
}
