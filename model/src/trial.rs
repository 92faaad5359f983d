//! Many schedules put to a trial, one after another, and what is kept of one that fails.

use crate::coverage::Coverage;
use crate::generate::{file, Kind, Wish};
use crate::shorten::shorten;
use crate::text::text;
use std::fs;
use std::io;
use std::path::{Path, PathBuf};
use std::time::{Duration, Instant};

/// Something that a schedule can fail.
pub trait Trial {
    /// What a failure is called; its files are named so.
    fn name(&self) -> &'static str;
    /// What is wrong with this file, in words, if anything is.
    fn trouble(&mut self, file: &[u8], coverage: &mut Coverage) -> Option<String>;
    /// Told before the file of each seed.
    fn next_seed(&mut self, _seed: u64) {}
}

/// Which schedules are tried: so many, from this seed on, of one kind or of all.
#[derive(Clone, Debug)]
pub struct Corpus {
    pub schedules: u64,
    pub seed: u64,
    pub kind: Option<Kind>,
    /// The folder for schedules that fail.
    pub save: PathBuf,
    /// Whether a line is written to standard error now and then.
    pub progress: bool,
}

/// The first failure: what it is, what it is once shortened, and the files that show it.
#[derive(Debug)]
pub struct Failure {
    pub kind: Kind,
    pub seed: u64,
    pub trouble: String,
    pub short_trouble: String,
    pub saved: Vec<PathBuf>,
}

/// Tries the schedules in turn, up to the first failure.
pub fn run(corpus: &Corpus, trial: &mut impl Trial) -> io::Result<(Coverage, Option<Failure>)> {
    let mut coverage = Coverage::default();
    let start = Instant::now();
    let mut told = start;
    for seed in (0..corpus.schedules).map(|i| corpus.seed.wrapping_add(i)) {
        let kind = corpus.kind.unwrap_or(Kind::mixed(seed));
        let bytes = file(kind, seed, Wish::default());
        trial.next_seed(seed);
        if let Some(trouble) = trial.trouble(&bytes, &mut coverage) {
            let failure = keep(corpus, trial, kind, seed, &bytes, trouble)?;
            return Ok((coverage, Some(failure)));
        }
        if corpus.progress && told.elapsed() > Duration::from_secs(5) {
            told = Instant::now();
            tell(&coverage, start);
        }
    }
    Ok((coverage, None))
}

fn tell(coverage: &Coverage, start: Instant) {
    eprintln!(
        "{} schedules, {} events, {:.0} seconds",
        coverage.schedules,
        coverage.events,
        start.elapsed().as_secs_f64()
    );
}

/// Saves a schedule that fails, shortens it, and saves that too.
fn keep(
    corpus: &Corpus,
    trial: &mut impl Trial,
    kind: Kind,
    seed: u64,
    bytes: &[u8],
    trouble: String,
) -> io::Result<Failure> {
    let stem = format!("{}-{}-{seed}", trial.name(), kind.name());
    let mut saved = vec![save(&corpus.save, &format!("{stem}.bin"), bytes)?];
    let mut unused = Coverage::default();
    let short = shorten(bytes, &mut |file| {
        trial.trouble(file, &mut unused).is_some()
    });
    let short_trouble = trial.trouble(&short, &mut unused).unwrap_or_default();
    saved.push(save(&corpus.save, &format!("{stem}-short.bin"), &short)?);
    let title = format!("{} of {} {seed}, shortened", trial.name(), kind.name());
    let written = text(&short, &format!("{title}: {short_trouble}"));
    saved.push(save(
        &corpus.save,
        &format!("{stem}-short.hex"),
        written.as_bytes(),
    )?);
    Ok(Failure {
        kind,
        seed,
        trouble,
        short_trouble,
        saved,
    })
}

fn save(folder: &Path, name: &str, bytes: &[u8]) -> io::Result<PathBuf> {
    let path = folder.join(name);
    fs::write(&path, bytes)?;
    Ok(path)
}
