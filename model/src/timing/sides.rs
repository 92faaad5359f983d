//! The two that are measured, the proved library and the model, and what both are asked for.

use crate::compare::{Player, LONGEST_REPORT};
use crate::file::{open, report};
use crate::limits::EVENTS;
use crate::machine::{Bench, Event};
use crate::proved::Proved;
use crate::words::{trace, ROW};
use std::hint::black_box;

/// What is asked for of a file.
#[derive(Clone, Copy, PartialEq, Eq, Debug)]
pub enum Way {
    /// What is printed of it.
    Report,
    /// A row of words for the fresh bench, and one after each event.
    Trace,
    /// The answers, where each event is a call that is handed a bench and hands one back.
    ByValue,
}

impl Way {
    pub const ALL: [Way; 3] = [Way::Report, Way::Trace, Way::ByValue];

    pub fn name(self) -> &'static str {
        match self {
            Way::Report => "a report",
            Way::Trace => "a trace",
            Way::ByValue => "the answers by `apply`",
        }
    }
}

/// Something that can be measured.
pub trait Side {
    fn play(&mut self, way: Way, file: &[u8]);
}

/// The proved library, with the buffers that it writes to.
pub struct Library {
    printed: Vec<u8>,
    words: Vec<u32>,
    numbers: Vec<u8>,
}

/// The model, with buffers of its own.
pub struct Model {
    printed: Vec<u8>,
    words: Vec<u32>,
    numbers: Vec<u8>,
}

impl Library {
    pub fn new() -> Library {
        Library {
            printed: vec![0; LONGEST_REPORT],
            words: vec![0; (EVENTS + 1) * ROW],
            numbers: vec![0; EVENTS],
        }
    }
}

impl Model {
    pub fn new() -> Model {
        Model {
            printed: Vec::with_capacity(LONGEST_REPORT),
            words: vec![0; (EVENTS + 1) * ROW],
            numbers: vec![0; EVENTS],
        }
    }
}

impl Side for Library {
    fn play(&mut self, way: Way, file: &[u8]) {
        let file = black_box(file);
        black_box(match way {
            Way::Report => Proved.report(file, &mut self.printed),
            Way::Trace => Proved.trace(file, &mut self.words),
            Way::ByValue => Proved.apply(file, &mut self.numbers),
        });
    }
}

impl Side for Model {
    fn play(&mut self, way: Way, file: &[u8]) {
        let file = black_box(file);
        match way {
            Way::Report => report(file, &mut self.printed),
            Way::Trace => _ = black_box(trace(file, &mut self.words)),
            Way::ByValue => _ = black_box(answers_by_value(file, &mut self.numbers)),
        }
        black_box(&*self);
    }
}

/// Writes the answers to a file's events to the start of `out`, and says how many there are. If
/// that is more than `out` holds, it stays.
fn answers_by_value(file: &[u8], out: &mut [u8]) -> usize {
    let Ok(opened) = open(file) else {
        return 0;
    };
    let count = opened.events().len();
    if count <= out.len() {
        let mut bench = opened.bench();
        for (place, e) in out.iter_mut().zip(opened.events()) {
            (bench, *place) = event_by_value(bench, e);
        }
    }
    count
}

/// An event of a bench that is handed over and handed back. It is a call, so the bench is copied.
#[inline(never)]
fn event_by_value(mut bench: Bench, e: Event) -> (Bench, u8) {
    let answer = bench.event(e).answer;
    (bench, answer)
}

#[cfg(test)]
mod tests {
    use super::*;
    use crate::generate::{file, Kind, Wish};

    /// Both sides give the same for a file, in each way; what is timed is what it should be.
    #[test]
    fn both_sides_give_the_same() {
        let (mut library, mut model) = (Library::new(), Model::new());
        for seed in 0..30 {
            let file = file(Kind::mixed(seed), seed, Wish::default());
            for way in Way::ALL {
                library.play(way, &file);
                model.play(way, &file);
            }
            assert_eq!(library.printed[..model.printed.len()], model.printed);
            assert!(library.words == model.words, "the trace of seed {seed}");
            assert_eq!(library.numbers, model.numbers);
        }
    }

    #[test]
    fn by_value_answers_as_in_place() {
        let file = [1, 0, 0, 2, 2, 1, 0, 0, 0, 0, 1, 1, 0, 0, 2, 0xBC];
        let mut out = [9; 3];
        assert_eq!(answers_by_value(&file, &mut out), 2);
        assert_eq!(out, [15, 0, 9]);
        assert_eq!(answers_by_value(&file, &mut out[..1]), 2);
        assert_eq!(out, [15, 0, 9]);
        assert_eq!(answers_by_value(&[9], &mut out), 0);
    }
}
