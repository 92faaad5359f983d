//! Planted differences are found, told, saved and shortened.

use super::*;
use crate::file::Opened;
use crate::machine::{Bench, Effect, DELIVER};
use crate::trial::{run, Corpus};
use std::path::PathBuf;

/// Plays as the model does, with one thing changed.
struct Altered {
    /// Done instead of the event call.
    event: fn(&mut Bench, Event) -> Effect,
    /// Done to the report.
    report: fn(&mut Vec<u8>),
    /// Whether buffers that are too short are written to.
    careless: bool,
}

const FAITHFUL: Altered = Altered {
    event: Bench::event,
    report: |_| {},
    careless: false,
};

impl Altered {
    fn rows(&self, opened: &Opened) -> Vec<u32> {
        let mut bench = opened.bench();
        let mut row = Box::new([0; ROW]);
        write_row(&bench, 0, &mut row);
        let mut rows = row.to_vec();
        for e in opened.events() {
            let effect = (self.event)(&mut bench, e);
            write_row(&bench, effect.answer, &mut row);
            rows.extend_from_slice(&row[..]);
        }
        rows
    }

    fn lend<T: Copy>(&self, made: &[T], out: &mut [T]) -> usize {
        if made.len() <= out.len() {
            out[..made.len()].copy_from_slice(made);
        } else if self.careless {
            out.copy_from_slice(&made[..out.len()]);
        }
        made.len()
    }
}

impl Player for Altered {
    fn report(&mut self, file: &[u8], out: &mut [u8]) -> usize {
        let mut printed = Vec::new();
        file::report(file, &mut printed);
        (self.report)(&mut printed);
        self.lend(&printed, out)
    }

    fn trace(&mut self, file: &[u8], out: &mut [u32]) -> usize {
        let rows = open(file).map_or(Vec::new(), |opened| self.rows(&opened));
        self.lend(&rows, out)
    }
}

/// Delivers, and passes nothing on.
fn without_echo(bench: &mut Bench, e: Event) -> Effect {
    let before = bench.owed;
    let effect = bench.event(e);
    if e.kind == DELIVER && effect.answer == 0 {
        let (s, i) = (e.b as usize - 1, e.id as usize - 1);
        bench.owed[s][i] = before[s][i].without(e.a);
    }
    effect
}

/// Answers 19 where 17 is due.
fn with_another_answer(bench: &mut Bench, e: Event) -> Effect {
    let mut effect = bench.event(e);
    if effect.answer == 17 {
        effect.answer = 19;
    }
    effect
}

fn folder(name: &str) -> PathBuf {
    let folder = std::env::temp_dir().join(format!("model-{}-{name}", std::process::id()));
    std::fs::create_dir_all(&folder).expect("a folder for the test");
    folder
}

fn corpus(name: &str) -> Corpus {
    Corpus {
        schedules: 200,
        seed: 1,
        kind: None,
        save: folder(name),
        progress: false,
    }
}

/// Runs a corpus that fails; gives what is told of it and the shortened schedule.
fn failing(name: &str, player: Altered) -> (String, Schedule) {
    let corpus = corpus(name);
    let mut trial = Comparison::new(player);
    let (_, failure) = run(&corpus, &mut trial).expect("files can be written");
    let failure = failure.expect("the difference is found");
    let saved: Vec<_> = failure
        .saved
        .iter()
        .map(|p| std::fs::read(p).expect("saved"))
        .collect();
    let stem = format!("difference-{}-{}", failure.kind.name(), failure.seed);
    let ends = [".bin", "-short.bin", "-short.hex"];
    let paths = ends.map(|end| corpus.save.join(format!("{stem}{end}")));
    assert_eq!(failure.saved, paths);
    let whole = crate::generate::file(failure.kind, failure.seed, Default::default());
    assert_eq!(saved[0], whole);
    assert!(saved[1].len() < saved[0].len());
    assert!(trial
        .difference(&saved[1], &mut Coverage::default())
        .is_some());
    std::fs::remove_dir_all(corpus.save).expect("the folder of the test");
    (
        failure.short_trouble,
        Schedule::read(&saved[1]).expect("a schedule"),
    )
}

#[test]
fn a_faithful_player_does_not_differ() {
    let corpus = corpus("faithful");
    let (coverage, failure) = run(&corpus, &mut Comparison::new(FAITHFUL)).expect("no files");
    assert!(failure.is_none());
    assert_eq!(coverage.schedules, 200);
    std::fs::remove_dir_all(corpus.save).expect("the folder of the test");
}

/// A forgotten echo needs two events to show: something signed, and a delivery of it.
#[test]
fn a_forgotten_echo_is_found_and_shortened() {
    let player = Altered {
        event: without_echo,
        ..FAITHFUL
    };
    let (told, short) = failing("echo", player);
    assert!(
        told.contains("the boards that are owed what speaker"),
        "{told}"
    );
    assert_eq!(short.events.last().map(|e| e.kind), Some(DELIVER));
    assert!(short.events.len() <= 3, "{short:?}");
}

#[test]
fn an_answer_that_is_off_is_found_and_shortened() {
    let player = Altered {
        event: with_another_answer,
        ..FAITHFUL
    };
    let (told, short) = failing("answer", player);
    assert_eq!(short.events.len(), 1);
    let Event {
        a, b, id, value, ..
    } = short.events[0];
    let expected = format!(
        "after event 1 (kind 3, a {a}, b {b}, id {id}, value {value}): \
         the answer (word 0): the model has 17, the library 19"
    );
    assert_eq!(told, expected);
}

/// The difference that a player shows on one small file.
fn on_small_file(player: Altered) -> Option<Difference> {
    let file = [1, 0, 0, 1, 1, 1, 0, 0, 0, 9];
    Comparison::new(player).difference(&file, &mut Coverage::default())
}

#[test]
fn reports_are_compared() {
    assert_eq!(on_small_file(FAITHFUL), None);
    let changed = Altered {
        report: |printed| printed[4] = b'2',
        ..FAITHFUL
    };
    let line = |line, model: &str, player: &str| Difference::Line {
        line,
        model: model.into(),
        player: player.into(),
    };
    assert_eq!(on_small_file(changed), Some(line(2, "1 W 1 9", "2 W 1 9")));
    let longer = Altered {
        report: |printed| printed.extend(b"more\n"),
        ..FAITHFUL
    };
    assert_eq!(on_small_file(longer), Some(line(3, "no line", "more")));
    let shorter = Altered {
        report: |printed| printed.truncate(printed.len() - 1),
        ..FAITHFUL
    };
    let lengths = Difference::Length {
        model: 12,
        player: 11,
    };
    assert_eq!(on_small_file(shorter), Some(lengths));
}

#[test]
fn careless_writing_is_found() {
    let player = Altered {
        careless: true,
        ..FAITHFUL
    };
    assert_eq!(
        on_small_file(player),
        Some(Difference::Touched("the trace"))
    );
    let player = Altered {
        careless: true,
        ..FAITHFUL
    };
    let refused = Comparison::new(player).difference(&[9], &mut Coverage::default());
    assert_eq!(refused, Some(Difference::Touched("the report")));
}

/// Every word of a row is compared: a change of any one of them is found.
#[test]
fn each_word_counts() {
    struct OneWord(usize);
    impl Player for OneWord {
        fn report(&mut self, _file: &[u8], _out: &mut [u8]) -> usize {
            0
        }
        fn trace(&mut self, file: &[u8], out: &mut [u32]) -> usize {
            let mut faithful = FAITHFUL;
            let words = faithful.trace(file, out);
            if words <= out.len() {
                out[words - ROW + self.0] ^= 1;
            }
            words
        }
    }
    let file = [2, 0, 1, 0, 1, 7, 2, 0, 5, 0, 0];
    for word in (0..ROW).step_by(13).chain([ROW - 1]) {
        let found = Comparison::new(OneWord(word)).difference(&file, &mut Coverage::default());
        let place = match found {
            Some(Difference::Word { row, word, .. }) => Some((row, word)),
            _ => None,
        };
        assert_eq!(place, Some((1, word)));
    }
}

#[test]
fn a_trace_of_another_length_is_found() {
    struct Short;
    impl Player for Short {
        fn report(&mut self, _file: &[u8], _out: &mut [u8]) -> usize {
            0
        }
        fn trace(&mut self, _file: &[u8], _out: &mut [u32]) -> usize {
            ROW
        }
    }
    let file = [1, 0, 0, 1, 1, 1, 0, 0, 0, 9];
    let found = Comparison::new(Short).difference(&file, &mut Coverage::default());
    let expected = Difference::Words {
        model: 2 * ROW,
        player: ROW,
    };
    assert_eq!(found, Some(expected));
}
