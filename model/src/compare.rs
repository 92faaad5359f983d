//! Holds another player of schedules against the model, word for word.

use crate::coverage::Coverage;
use crate::file::{self, open, Schedule};
use crate::limits::{BOARDS, EVENTS};
use crate::machine::Event;
use crate::trial::Trial;
use crate::words::{meaning, name, write_row, ROW};

/// No report is longer: a line of an event has up to nine bytes, one of a board up to fourteen.
pub const LONGEST_REPORT: usize = EVENTS * 9 + BOARDS * 14;

/// Stands in lent buffers where nothing is written yet. It is no word of any row.
const UNWRITTEN: u32 = u32::MAX;
/// The same for a report, which is plain text.
const UNPRINTED: u8 = 0xFF;

/// Something that plays schedule files as the proved library does.
///
/// Both calls write to the start of the lent buffer and return how much there is to write. If
/// that is more than the buffer holds, they leave the buffer alone.
pub trait Player {
    fn report(&mut self, file: &[u8], out: &mut [u8]) -> usize;
    fn trace(&mut self, file: &[u8], out: &mut [u32]) -> usize;
}

/// The first thing in which a player differs from the model.
#[derive(Clone, PartialEq, Eq, Debug)]
pub enum Difference {
    /// A word of a row; row 0 is that of the fresh bench.
    Word {
        row: usize,
        word: usize,
        model: u32,
        player: u32,
    },
    /// How many words there are.
    Words { model: usize, player: usize },
    /// A line of the report, counted from 1.
    Line {
        line: usize,
        model: String,
        player: String,
    },
    /// The length of the report, though its lines are the same.
    Length { model: usize, player: usize },
    /// A buffer was written to that was too short, or behind its end.
    Touched(&'static str),
}

/// Compares a player with the model, file by file, in buffers that are used again.
pub struct Comparison<P> {
    player: P,
    /// Whether buffers that are too short are tried too.
    pub strict: bool,
    row: Box<[u32; ROW]>,
    words: Vec<u32>,
    printed: Vec<u8>,
    report: Vec<u8>,
}

impl<P: Player> Comparison<P> {
    pub fn new(player: P) -> Comparison<P> {
        Comparison {
            player,
            strict: true,
            row: Box::new([0; ROW]),
            words: Vec::new(),
            printed: Vec::new(),
            report: Vec::new(),
        }
    }

    /// The first difference on this file, if there is any.
    pub fn difference(&mut self, file: &[u8], coverage: &mut Coverage) -> Option<Difference> {
        let rows = open(file).map_or(0, |opened| opened.events().len() + 1);
        let wrong = self.trace(file, rows * ROW);
        let differing = self.compare_rows(file, rows, coverage);
        wrong.or(differing).or_else(|| self.compare_reports(file))
    }

    /// Has the player lay its rows into `words`, of which there should be `due`.
    fn trace(&mut self, file: &[u8], due: usize) -> Option<Difference> {
        self.words.clear();
        self.words.resize(due + 1, UNWRITTEN);
        if self.strict && due > 0 {
            self.player.trace(file, &mut self.words[..due - 1]);
            if self.words.iter().any(|&word| word != UNWRITTEN) {
                return Some(Difference::Touched("the trace"));
            }
        }
        let player = self.player.trace(file, &mut self.words[..due]);
        if player != due {
            return Some(Difference::Words { model: due, player });
        }
        (self.words[due] != UNWRITTEN).then_some(Difference::Touched("the trace"))
    }

    /// Plays the file in the model, and compares the state after each event.
    fn compare_rows(
        &mut self,
        file: &[u8],
        rows: usize,
        coverage: &mut Coverage,
    ) -> Option<Difference> {
        let opened = coverage.open(file)?;
        let mut bench = opened.bench();
        let mut events = opened.events();
        let mut answer = 0;
        for row in 0..rows {
            if row > 0 {
                let e = events.next()?;
                let effect = coverage.play(&mut bench, e);
                answer = effect.answer;
            }
            write_row(&bench, answer, &mut self.row);
            let player = &self.words[row * ROW..(row + 1) * ROW];
            if self.row[..] != *player {
                return first_word(row, &self.row[..], player);
            }
        }
        coverage.note_end(&bench);
        None
    }

    fn compare_reports(&mut self, file: &[u8]) -> Option<Difference> {
        file::report(file, &mut self.report);
        let model = self.report.len();
        self.printed.clear();
        self.printed.resize(LONGEST_REPORT + 1, UNPRINTED);
        if self.strict {
            let length = self.player.report(file, &mut self.printed[..model - 1]);
            if length > model - 1 && self.printed.iter().any(|&byte| byte != UNPRINTED) {
                return Some(Difference::Touched("the report"));
            }
        }
        let player = self
            .player
            .report(file, &mut self.printed[..LONGEST_REPORT]);
        if player > LONGEST_REPORT {
            return Some(Difference::Length { model, player });
        }
        if self.printed[player..].iter().any(|&byte| byte != UNPRINTED) {
            return Some(Difference::Touched("the report"));
        }
        let printed = &self.printed[..player];
        if printed == self.report {
            return None;
        }
        first_line(&self.report, printed).or(Some(Difference::Length { model, player }))
    }
}

fn first_word(row: usize, model: &[u32], player: &[u32]) -> Option<Difference> {
    let mut pairs = model.iter().zip(player).enumerate();
    let (word, (&model, &player)) = pairs.find(|(_, (model, player))| model != player)?;
    Some(Difference::Word {
        row,
        word,
        model,
        player,
    })
}

fn first_line(model: &[u8], player: &[u8]) -> Option<Difference> {
    let lines = |text: &[u8]| -> Vec<String> {
        let text = String::from_utf8_lossy(text);
        text.lines().map(String::from).collect()
    };
    let (model, player) = (lines(model), lines(player));
    let longest = model.len().max(player.len());
    let line = (0..longest).find(|&line| model.get(line) != player.get(line))?;
    let shown = |lines: &[String]| lines.get(line).cloned().unwrap_or("no line".into());
    Some(Difference::Line {
        line: line + 1,
        model: shown(&model),
        player: shown(&player),
    })
}

impl Difference {
    /// The difference in words; the file is the one that it was found on.
    pub fn describe(&self, file: &[u8]) -> String {
        match self {
            Difference::Word {
                row,
                word,
                model,
                player,
            } => format!(
                "{}: {} (word {word}): the model has {}, the library {}",
                place(file, *row),
                name(*word),
                meaning(*word, *model),
                meaning(*word, *player)
            ),
            Difference::Words { model, player } => {
                format!("the trace should have {model} words, and the library counts {player}")
            }
            Difference::Line {
                line,
                model,
                player,
            } => format!(
                "line {line} of the report: the model prints \"{model}\", the library \"{player}\""
            ),
            Difference::Length { model, player } => {
                format!("the report should have {model} bytes, and the library counts {player}")
            }
            Difference::Touched(what) => {
                format!("the library wrote where it should not while it made {what}")
            }
        }
    }
}

/// Names the event that a row stands for, with its fields.
fn place(file: &[u8], row: usize) -> String {
    let events = Schedule::read(file).map_or(Vec::new(), |schedule| schedule.events);
    match row.checked_sub(1).and_then(|place| events.get(place)) {
        None => "the fresh bench".into(),
        Some(Event {
            kind,
            a,
            b,
            id,
            value,
        }) => format!("after event {row} (kind {kind}, a {a}, b {b}, id {id}, value {value})"),
    }
}

impl<P: Player> Trial for Comparison<P> {
    fn name(&self) -> &'static str {
        "difference"
    }

    fn trouble(&mut self, file: &[u8], coverage: &mut Coverage) -> Option<String> {
        let difference = self.difference(file, coverage)?;
        Some(difference.describe(file))
    }

    fn next_seed(&mut self, seed: u64) {
        self.strict = seed % 16 == 3;
    }
}

#[cfg(test)]
#[path = "compare_tests.rs"]
mod tests;
