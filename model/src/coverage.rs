//! What a number of schedules has reached, and what it has missed.

use crate::board::Status;
use crate::file::{open, standing, Opened};
use crate::limits::ROUNDS;
use crate::machine::{Bench, Effect, Event, ANNOUNCE, SIGN};

/// The answers an event can have, in the order of the columns.
const ANSWERS: [u8; 14] = [0, 10, 11, 12, 13, 14, 15, 16, 17, 18, 19, 20, 21, 22];
const LETTERS: [u8; 5] = *b"FNWXD";
const KINDS: [&str; 8] = [
    "none", "propose", "turn", "deliver", "announce", "suspect", "trust", "sign",
];

/// The answers that each kind of event can get; row 0 is for what is no kind.
const POSSIBLE: [&[u8]; 8] = [
    &[10],
    &[0, 11, 12, 13, 15],
    &[0, 11, 12, 13, 15, 16, 22],
    &[0, 11, 12, 13, 17, 19],
    &[0, 11, 12, 13, 14, 15, 16, 20, 21],
    &[0, 11, 12, 13, 14],
    &[0, 11, 12, 13, 14],
    &[0, 11, 12, 13, 18],
];

#[derive(Clone, Default)]
pub struct Coverage {
    pub schedules: u64,
    pub events: u64,
    answers: [[u64; ANSWERS.len()]; KINDS.len()],
    files: [u64; 6],
    letters: [u64; LETTERS.len()],
    rounds: [Round; ROUNDS],
    /// Spent boards that an announcement made decide.
    revived: u64,
    owing: u64,
    settled: u64,
}

/// What happened in one round, over all schedules.
#[derive(Clone, Copy, Default)]
struct Round {
    /// Boards that ended in this round.
    ended: u64,
    /// Decisions of this round by a turn.
    turns: u64,
    /// Decisions of this round by an announcement.
    announcements: u64,
}

impl Coverage {
    /// Opens a file and counts it, under 0 or the number of its fault.
    pub fn open<'a>(&mut self, file: &'a [u8]) -> Option<Opened<'a>> {
        let opened = open(file);
        let fault = *opened.as_ref().err().unwrap_or(&0);
        self.schedules += 1;
        self.files[fault as usize] += 1;
        opened.ok()
    }

    /// Plays an event and counts what came of it.
    pub fn play(&mut self, bench: &mut Bench, e: Event) -> Effect {
        self.play_by(bench, e, Bench::event)
    }

    /// The same with another call in place of the bench's own.
    pub fn play_by(
        &mut self,
        bench: &mut Bench,
        e: Event,
        event: impl FnOnce(&mut Bench, Event) -> Effect,
    ) -> Effect {
        let board = 1..=bench.sizes().n;
        let spent = board.contains(&e.a) && bench.board(e.a).status == Status::Spent;
        let effect = event(bench, e);
        self.revived += (spent && effect.decided.is_some()) as u64;
        self.note_event(e, effect);
        effect
    }

    fn note_event(&mut self, e: Event, effect: Effect) {
        self.events += 1;
        let kind = if e.kind <= SIGN { e.kind as usize } else { 0 };
        if let Some(column) = ANSWERS.iter().position(|&answer| answer == effect.answer) {
            self.answers[kind][column] += 1;
        }
        if let Some((round, _)) = effect.decided {
            let round = &mut self.rounds[round as usize - 1];
            if e.kind == ANNOUNCE {
                round.announcements += 1;
            } else {
                round.turns += 1;
            }
        }
    }

    /// Counts how the boards of a bench stand when its schedule has ended.
    pub fn note_end(&mut self, bench: &Bench) {
        for k in 1..=bench.sizes().n {
            let (letter, _, _) = standing(bench, k);
            if let Some(place) = LETTERS.iter().position(|&known| known == letter) {
                self.letters[place] += 1;
            }
            let round = bench.board(k).round as usize;
            if round > 0 {
                self.rounds[round - 1].ended += 1;
            }
        }
        let n = bench.sizes().n;
        let owing =
            (1..=n).any(|k| (1..=bench.signer(k).last()).any(|id| !bench.owed(k, id).is_empty()));
        self.owing += owing as u64;
        self.settled += !owing as u64;
    }

    /// How many boards were in each round: those that ended there or in a later one.
    fn reached(&self, round: usize) -> u64 {
        self.rounds[round..].iter().map(|round| round.ended).sum()
    }

    /// Names everything that can happen and never did.
    pub fn missing(&self) -> Vec<String> {
        let mut missing = Vec::new();
        for (kind, possible) in POSSIBLE.iter().enumerate() {
            let met = self.answers[kind];
            let never = ANSWERS
                .iter()
                .zip(met)
                .filter(|&(answer, times)| times == 0 && possible.contains(answer));
            missing.extend(never.map(|(answer, _)| format!("{} answered {answer}", KINDS[kind])));
        }
        let files = (0..).zip(self.files).filter(|&(_, times)| times == 0);
        missing.extend(files.map(|(number, _): (u8, u64)| format!("file number {number}")));
        let letters = LETTERS
            .iter()
            .zip(self.letters)
            .filter(|&(_, times)| times == 0);
        missing.extend(letters.map(|(&letter, _)| format!("letter {}", letter as char)));
        let rounds = (0..ROUNDS).filter(|&round| self.reached(round) == 0);
        missing.extend(rounds.map(|round| format!("round {}", round + 1)));
        self.missing_ends(&mut missing);
        missing
    }

    fn missing_ends(&self, missing: &mut Vec<String>) {
        let turns: u64 = self.rounds.iter().map(|round| round.turns).sum();
        let announcements: u64 = self.rounds.iter().map(|round| round.announcements).sum();
        let ends = [
            (turns, "a decision by turn"),
            (announcements, "a decision by announcement"),
            (self.revived, "a decision of a spent board"),
            (self.owing, "copies owed at the end"),
            (self.settled, "no copies owed at the end"),
        ];
        let never = ends.iter().filter(|&&(times, _)| times == 0);
        missing.extend(never.map(|&(_, what)| what.to_string()));
    }

    /// The tables, and a line that names what was never reached, if anything.
    pub fn table(&self) -> String {
        let mut text = self.answer_table();
        text += "\nfiles:";
        for (number, times) in self.files.iter().enumerate() {
            text += &format!("  {number}: {times}");
        }
        text += "\nboards at the end:";
        for (letter, times) in LETTERS.iter().zip(self.letters) {
            text += &format!("  {}: {times}", *letter as char);
        }
        text += &format!(
            "\ncopies at the end:  owed: {}  none owed: {}\nspent boards that decided: {}\n",
            self.owing, self.settled, self.revived
        );
        text += &self.round_table();
        let missing = self.missing();
        if !missing.is_empty() {
            text += &format!("never reached: {}\n", missing.join(", "));
        }
        text
    }

    /// How often each kind of event had each answer; a dash where it never can.
    fn answer_table(&self) -> String {
        let mut text = format!("{:<9}", "answer");
        for answer in ANSWERS {
            text += &format!("{answer:>10}");
        }
        for (kind, name) in KINDS.iter().enumerate() {
            text += &format!("\n{name:<9}");
            for (column, times) in self.answers[kind].iter().enumerate() {
                let cell = if *times == 0 && !POSSIBLE[kind].contains(&ANSWERS[column]) {
                    "-".to_string()
                } else {
                    times.to_string()
                };
                text += &format!("{cell:>10}");
            }
        }
        text
    }

    fn round_table(&self) -> String {
        let mut text = format!(
            "{:<7}{:>12}{:>12}{:>16}{:>24}\n",
            "round", "boards in", "ended in", "decided by turn", "decided by announcement"
        );
        for (place, round) in self.rounds.iter().enumerate() {
            text += &format!(
                "{:<7}{:>12}{:>12}{:>16}{:>24}\n",
                place + 1,
                self.reached(place),
                round.ended,
                round.turns,
                round.announcements
            );
        }
        text
    }
}

#[cfg(test)]
mod tests {
    use super::*;
    use crate::generate::{file, Kind, Wish};

    fn cover(coverage: &mut Coverage, bytes: &[u8]) {
        let Some(opened) = coverage.open(bytes) else {
            return;
        };
        let mut bench = opened.bench();
        for e in opened.events() {
            coverage.play(&mut bench, e);
        }
        coverage.note_end(&bench);
    }

    #[test]
    fn what_is_missing_is_named() {
        let mut coverage = Coverage::default();
        cover(&mut coverage, &[9]);
        cover(&mut coverage, &[1, 0, 0, 1, 8, 0, 0, 0, 0, 0]);
        let missing = coverage.missing();
        let has = |name: &str| missing.iter().any(|known| known == name);
        assert!(has("deliver answered 19") && has("file number 1") && has("letter X"));
        assert!(has("round 1") && has("a decision by turn") && has("copies owed at the end"));
        assert!(!has("none answered 10") && !has("file number 2") && !has("letter N"));
        assert!(!has("no copies owed at the end") && !has("propose answered 22"));
        assert!(coverage
            .table()
            .contains("never reached: propose answered 0, "));
    }

    /// The usual mixture of kinds misses nothing, and counts what it should.
    #[test]
    fn a_mixed_corpus_reaches_everything() {
        let mut coverage = Coverage::default();
        for seed in 0..1000 {
            cover(
                &mut coverage,
                &file(Kind::mixed(seed), seed, Wish::default()),
            );
        }
        assert_eq!(coverage.missing(), Vec::<String>::new());
        assert!(!coverage.table().contains("never reached"));
        assert_eq!(coverage.schedules, 1000);
        let counted: u64 = coverage.answers.iter().flatten().sum();
        assert_eq!(coverage.events, counted);
    }
}
