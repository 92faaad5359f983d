//! The command line: plays, makes, compares, checks and times schedules, and measures stack.

mod arguments;

use arguments::Arguments;
use model::compare::Comparison;
use model::file::report;
use model::generate::{file, Kind, Wish};
use model::limits::{BOARDS, EVENTS};
use model::proved::Proved;
use model::record::Check;
use model::timing::{self, count, stack, Uncounted};
use model::trial::{run, Corpus, Failure, Trial};
use std::io::{self, Read, Write};
use std::process::ExitCode;

const USAGE: &str = "\
usage: model play < FILE
       model gen --seed SEED [--kind KIND] [--n BOARDS] [--events EVENTS] > FILE
       model compare [--schedules NUMBER] [--seed SEED] [--kind KIND] [--save FOLDER]
                     [--require-coverage]
       model check [--schedules NUMBER] [--seed SEED] [--kind KIND] [--save FOLDER]
       model time [--runs NUMBER]
       model time --count
       model stack
KIND is bytes, fields, living, stubborn or damaged; without one the seed draws it.
";

/// What can go wrong: the command was not understood, needs what is not here, or failed.
enum Trouble {
    Usage(String),
    Lacking(String),
    Failed(String),
    Io(io::Error),
}

impl From<String> for Trouble {
    fn from(message: String) -> Trouble {
        Trouble::Usage(message)
    }
}

impl From<io::Error> for Trouble {
    fn from(error: io::Error) -> Trouble {
        Trouble::Io(error)
    }
}

impl From<Uncounted> for Trouble {
    fn from(why: Uncounted) -> Trouble {
        match why {
            Uncounted::NoValgrind => Trouble::Lacking(
                "--count needs valgrind, which is not on the PATH; nothing was counted".into(),
            ),
            Uncounted::Failed(told) => Trouble::Failed(format!("valgrind failed: {told}")),
            Uncounted::Io(error) => Trouble::Io(error),
        }
    }
}

fn main() -> ExitCode {
    let words: Vec<String> = std::env::args().skip(1).collect();
    match command(&words) {
        Ok(code) => code,
        Err(Trouble::Usage(message)) => {
            eprint!("model: {message}\n{USAGE}");
            ExitCode::from(2)
        }
        Err(Trouble::Lacking(message)) => {
            eprintln!("model: {message}");
            ExitCode::from(2)
        }
        Err(Trouble::Failed(message)) => {
            eprintln!("model: {message}");
            ExitCode::from(1)
        }
        Err(Trouble::Io(error)) => {
            eprintln!("model: {error}");
            ExitCode::from(1)
        }
    }
}

fn command(words: &[String]) -> Result<ExitCode, Trouble> {
    let Some((name, rest)) = words.split_first() else {
        return Err(Trouble::Usage("a command is missing".into()));
    };
    match name.as_str() {
        "play" => play(Arguments::read(rest, &[], &[])?),
        "gen" => gen(Arguments::read(
            rest,
            &["kind", "seed", "n", "events"],
            &[],
        )?),
        "compare" => {
            let known = ["schedules", "seed", "kind", "save"];
            compare(Arguments::read(rest, &known, &["require-coverage"])?)
        }
        "check" => check(Arguments::read(
            rest,
            &["schedules", "seed", "kind", "save"],
            &[],
        )?),
        "time" => time(Arguments::read(rest, &["runs"], &["count"])?),
        "stack" => stack(Arguments::read(rest, &[], &[])?),
        count::COMMAND => counted(Arguments::read(rest, &["folder"], &[])?),
        "help" | "--help" => {
            print!("{USAGE}");
            Ok(ExitCode::SUCCESS)
        }
        other => Err(Trouble::Usage(format!("there is no command {other}"))),
    }
}

fn play(_: Arguments) -> Result<ExitCode, Trouble> {
    let mut bytes = Vec::new();
    io::stdin().read_to_end(&mut bytes)?;
    let mut printed = Vec::new();
    report(&bytes, &mut printed);
    io::stdout().write_all(&printed)?;
    Ok(ExitCode::SUCCESS)
}

fn gen(arguments: Arguments) -> Result<ExitCode, Trouble> {
    let seed = arguments.number("seed", 0, u64::MAX)?;
    let seed = seed.ok_or("gen needs --seed".to_string())?;
    let kind = arguments.kind()?.unwrap_or(Kind::mixed(seed));
    let boards = arguments.number("n", 1, BOARDS as u64)?;
    let events = arguments.number("events", 0, EVENTS as u64)?;
    let wish = Wish {
        boards: boards.map(|n| n as u8),
        events: events.map(|events| events as usize),
    };
    io::stdout().write_all(&file(kind, seed, wish))?;
    Ok(ExitCode::SUCCESS)
}

fn compare(arguments: Arguments) -> Result<ExitCode, Trouble> {
    let corpus = corpus(&arguments, 10_000)?;
    let required = arguments.flag("require-coverage");
    try_all(
        &corpus,
        &mut Comparison::new(Proved),
        required,
        "differences",
    )
}

fn check(arguments: Arguments) -> Result<ExitCode, Trouble> {
    let corpus = corpus(&arguments, 10_000)?;
    try_all(&corpus, &mut Check::of_model(), false, "violations")
}

fn time(arguments: Arguments) -> Result<ExitCode, Trouble> {
    let runs = arguments.number("runs", 1, 1_000_000)?;
    if arguments.flag("count") {
        if runs.is_some() {
            return Err(Trouble::Usage(
                "--count counts one run, and goes without --runs".into(),
            ));
        }
        print!("{}", count::table()?);
    } else {
        print!("{}", timing::table(runs.unwrap_or(51) as usize));
    }
    Ok(ExitCode::SUCCESS)
}

fn stack(_: Arguments) -> Result<ExitCode, Trouble> {
    print!("{}", stack::table()?);
    Ok(ExitCode::SUCCESS)
}

/// What `time --count` starts under valgrind; it is of no use otherwise.
fn counted(arguments: Arguments) -> Result<ExitCode, Trouble> {
    let folder = arguments.text("folder");
    let folder = folder.ok_or("counted needs --folder".to_string())?;
    count::play_parts(folder.as_ref())?;
    Ok(ExitCode::SUCCESS)
}

fn corpus(arguments: &Arguments, schedules: u64) -> Result<Corpus, Trouble> {
    Ok(Corpus {
        schedules: arguments
            .number("schedules", 1, u64::MAX)?
            .unwrap_or(schedules),
        seed: arguments.number("seed", 0, u64::MAX)?.unwrap_or(1),
        kind: arguments.kind()?,
        save: arguments.text("save").unwrap_or(".").into(),
        progress: true,
    })
}

/// Puts the corpus to the trial and prints what came of it.
fn try_all(
    corpus: &Corpus,
    trial: &mut impl Trial,
    coverage_required: bool,
    failures: &str,
) -> Result<ExitCode, Trouble> {
    let (coverage, failure) = run(corpus, trial)?;
    if let Some(failure) = failure {
        print!("{}", told(&failure));
        return Ok(ExitCode::from(1));
    }
    print!("{}", coverage.table());
    println!(
        "{} schedules, {} events, 0 {failures}",
        coverage.schedules, coverage.events
    );
    if coverage_required && !coverage.missing().is_empty() {
        return Ok(ExitCode::from(1));
    }
    Ok(ExitCode::SUCCESS)
}

fn told(failure: &Failure) -> String {
    let mut text = format!(
        "{} {}: {}\n",
        failure.kind.name(),
        failure.seed,
        failure.trouble
    );
    text += &format!("shortened: {}\n", failure.short_trouble);
    for path in &failure.saved {
        text += &format!("saved: {}\n", path.display());
    }
    text
}
