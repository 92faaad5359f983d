//! What a board accepts, found by tallies.
//!
//! Instead of looking for a choice of q ballots, the accepted ballots of a round are counted by
//! value, and the counts tell whether a fitting choice exists. The rounds are judged from the
//! first one up, since what counts in a round rests on the rounds below it alone.

use crate::boards::Boards;
use crate::limits::{ballot_of, opening_of, Sizes, BOARDS, ROUNDS};
use crate::store::{Slate, Store};

/// The accepted ballots of one round, counted by value.
#[derive(Clone, Copy)]
pub struct Tally {
    speakers: Boards,
    blanks: u8,
    kinds: u8,
    values: [u16; BOARDS],
    counts: [u8; BOARDS],
}

impl Tally {
    const EMPTY: Tally = Tally {
        speakers: Boards::NONE,
        blanks: 0,
        kinds: 0,
        values: [0; BOARDS],
        counts: [0; BOARDS],
    };

    /// Counts the blanks of a slate, and its ballots with a value whose opening is accepted.
    fn of(slate: &Slate, opening_accepted: impl Fn(u16) -> bool) -> Tally {
        let mut tally = Tally::EMPTY;
        for speaker in slate.speakers().iter() {
            let value = slate.value(speaker);
            if value == 0 {
                tally.blanks += 1;
            } else if opening_accepted(value) {
                tally.add(value);
            } else {
                continue;
            }
            tally.speakers = tally.speakers.with(speaker);
        }
        tally
    }

    fn add(&mut self, value: u16) {
        let kinds = self.kinds as usize;
        match self.values[..kinds].iter().position(|&v| v == value) {
            Some(i) => self.counts[i] += 1,
            None => {
                self.values[kinds] = value;
                self.counts[kinds] = 1;
                self.kinds += 1;
            }
        }
    }

    /// Each value other than the blank, with how many ballots it has.
    pub fn counted(&self) -> impl Iterator<Item = (u16, u8)> + '_ {
        let kinds = self.kinds as usize;
        let counts = self.counts[..kinds].iter().copied();
        self.values[..kinds].iter().copied().zip(counts)
    }

    /// The boards whose ballot is accepted.
    pub fn speakers(&self) -> Boards {
        self.speakers
    }

    /// How many accepted ballots have this value, which is not the blank.
    pub fn count(&self, value: u16) -> u8 {
        let found = self.counted().find(|&(v, _)| v == value);
        found.map_or(0, |(_, count)| count)
    }

    /// A value other than the blank that has `least` ballots or more.
    pub fn with_at_least(&self, least: u8) -> Option<u16> {
        let found = self.counted().find(|&(_, count)| count >= least);
        found.map(|(value, _)| value)
    }

    /// Whether q of these ballots can be chosen so that e or more have this value.
    fn carries(&self, sizes: Sizes, value: u16) -> bool {
        self.speakers.count() >= sizes.q && self.count(value) >= sizes.e
    }

    /// Whether q of these ballots can be chosen so that no value has e of them.
    fn leaves_open(&self, sizes: Sizes) -> bool {
        let few: u8 = self
            .counted()
            .map(|(_, count)| count.min(sizes.e - 1))
            .sum();
        self.blanks + few >= sizes.q
    }
}

/// The tallies of the rounds from 1 to `judged`.
struct Rounds {
    sizes: Sizes,
    judged: u8,
    tallies: [Tally; ROUNDS],
    open: [bool; ROUNDS],
}

impl Rounds {
    /// Judges the rounds 1 to `last`, each after all below it.
    fn judge(sizes: Sizes, store: &Store, last: u8) -> Rounds {
        let mut rounds = Rounds {
            sizes,
            judged: 0,
            tallies: [Tally::EMPTY; ROUNDS],
            open: [false; ROUNDS],
        };
        for round in 1..=last {
            let opening = stated_opening(sizes, store, round);
            let opening = opening.filter(|&value| rounds.allows(value));
            let slate = store.slate(ballot_of(round));
            let tally = Tally::of(slate, |value| opening == Some(value));
            rounds.open[round as usize - 1] = tally.leaves_open(sizes);
            rounds.tallies[round as usize - 1] = tally;
            rounds.judged = round;
        }
        rounds
    }

    /// Whether a value is allowed in the round after those judged.
    fn allows(&self, value: u16) -> bool {
        for round in (0..self.judged as usize).rev() {
            if self.tallies[round].carries(self.sizes, value) {
                return true;
            }
            if !self.open[round] {
                return false;
            }
        }
        true
    }
}

/// The value that the coordinator opened the round with, if that is delivered and no blank.
fn stated_opening(sizes: Sizes, store: &Store, round: u8) -> Option<u16> {
    let opening = store.get(sizes.coordinator(round), opening_of(round));
    opening.filter(|&value| value != 0)
}

/// Whether a value is allowed in a round.
pub fn allowed(sizes: Sizes, store: &Store, round: u8, value: u16) -> bool {
    Rounds::judge(sizes, store, round - 1).allows(value)
}

/// The value of the opening of a round, if the board accepts one.
pub fn accepted_opening(sizes: Sizes, store: &Store, round: u8) -> Option<u16> {
    stated_opening(sizes, store, round).filter(|&value| allowed(sizes, store, round, value))
}

/// The ballots of a round that the board accepts.
pub fn accepted_ballots(sizes: Sizes, store: &Store, round: u8) -> Tally {
    let opening = accepted_opening(sizes, store, round);
    Tally::of(store.slate(ballot_of(round)), |value| {
        opening == Some(value)
    })
}

#[cfg(test)]
#[path = "acceptance_tests.rs"]
mod tests;
