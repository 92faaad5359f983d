//! Demand 3, tested by a record of its own.
//!
//! The record is kept from the events and their answers: who proposed, signed, delivered and
//! decided what, and which copies are owed by that. It never looks into the bench, except to see
//! at last whether the bench shows the same.

use crate::board::Status;
use crate::boards::Boards;
use crate::coverage::Coverage;
use crate::limits::{opening_of, Sizes, BOARDS, IDENTIFIERS, ROUNDS};
use crate::machine::{Bench, Effect, Event, ANNOUNCE, DELIVER, PROPOSE, SIGN, TURN};
use crate::trial::Trial;
use std::collections::BTreeSet;

/// Speaker, identifier, value.
type Statement = (u8, u8, u16);

/// Board, round, value.
type Decision = (u8, u8, u16);

/// What the events so far add up to.
pub struct Record {
    sizes: Sizes,
    sound: Boards,
    proposed: BTreeSet<(u8, u16)>,
    signed: BTreeSet<Statement>,
    delivered: [BTreeSet<Statement>; BOARDS],
    owed: [BTreeSet<Statement>; BOARDS],
    decisions: Vec<Decision>,
}

impl Record {
    pub fn new(n: u8, faulty: Boards) -> Record {
        Record {
            sizes: Sizes::of(n),
            sound: Boards::up_to(n).minus(faulty),
            proposed: BTreeSet::new(),
            signed: BTreeSet::new(),
            delivered: Default::default(),
            owed: Default::default(),
            decisions: Vec::new(),
        }
    }

    /// Takes down an event and its answer, and what a turn signed or decided.
    pub fn note(&mut self, e: Event, effect: Effect) {
        if effect.answer != 0 {
            return;
        }
        match e.kind {
            PROPOSE => {
                self.proposed.insert((e.a, e.value));
            }
            TURN => self.note_turn(e.a, effect),
            DELIVER => self.note_delivery(e.a, (e.b, e.id, e.value)),
            ANNOUNCE => self.decisions.push((e.a, e.id, e.value)),
            SIGN => {
                self.signed.insert((e.a, e.id, e.value));
            }
            _ => {}
        }
    }

    fn note_turn(&mut self, a: u8, effect: Effect) {
        if let Some((id, value)) = effect.signed {
            self.signed.insert((a, id, value));
            self.note_delivery(a, (a, id, value));
        }
        if let Some((round, value)) = effect.decided {
            self.decisions.push((a, round, value));
        }
    }

    /// A board delivers: it is owed no copy any more, and the other sound boards may be.
    fn note_delivery(&mut self, k: u8, statement: Statement) {
        self.delivered[k as usize - 1].insert(statement);
        self.owed[k as usize - 1].remove(&statement);
        for other in self
            .sound
            .iter()
            .filter(|&other| other != k && other != statement.0)
        {
            if !self.delivered[other as usize - 1].contains(&statement) {
                self.owed[other as usize - 1].insert(statement);
            }
        }
    }

    /// What is wrong by the record, or by the bench beside it, if anything is.
    pub fn violation(&self, bench: &Bench) -> Option<String> {
        self.disagreement()
            .or_else(|| self.foreign_value())
            .or_else(|| self.wrong_debt())
            .or_else(|| self.wrong_bench(bench))
    }

    /// Two decisions with different values.
    fn disagreement(&self) -> Option<String> {
        let &(a, r, v) = self.decisions.first()?;
        let &(b, s, w) = self.decisions.iter().find(|decision| decision.2 != v)?;
        Some(format!(
            "board {a} decided {v} in round {r}, and board {b} decided {w} in round {s}"
        ))
    }

    /// A decided value that came from nobody who may bring one in.
    fn foreign_value(&self) -> Option<String> {
        let known = |value: u16| {
            self.proposed
                .iter()
                .any(|&(a, v)| v == value && self.sound.has(a))
                || self
                    .signed
                    .iter()
                    .any(|&s| s.2 == value && self.brings_in(s))
        };
        let &(a, _, v) = self.decisions.iter().find(|decision| !known(decision.2))?;
        Some(format!(
            "board {a} decided {v}, which no sound board proposed and no faulty coordinator opened with"
        ))
    }

    /// Whether this is a faulty board's opening of a round that it coordinates.
    fn brings_in(&self, (speaker, id, _): Statement) -> bool {
        let mut rounds = 1..=ROUNDS as u8;
        !self.sound.has(speaker)
            && rounds.any(|r| opening_of(r) == id && self.sizes.coordinator(r) == speaker)
    }

    /// Copies owed though all delivered the same, or none owed though they did not.
    fn wrong_debt(&self) -> Option<String> {
        let nothing_owed = self.owed.iter().all(BTreeSet::is_empty);
        let mut sound = self.sound.iter().map(|k| &self.delivered[k as usize - 1]);
        let first = sound.next();
        let all_same = sound.all(|delivered| Some(delivered) == first);
        match (nothing_owed, all_same) {
            (true, false) => {
                Some("nothing is owed, and the boards did not deliver the same".into())
            }
            (false, true) => Some("copies are owed, and all boards delivered the same".into()),
            _ => None,
        }
    }

    /// Something that the bench shows otherwise than the record.
    fn wrong_bench(&self, bench: &Bench) -> Option<String> {
        for k in 1..=BOARDS as u8 {
            let place = k as usize - 1;
            if !shown_deliveries(bench, k).eq(self.delivered[place].iter().copied()) {
                return Some(format!("the bench shows other deliveries of board {k}"));
            }
            if !shown_debts(bench, k).eq(self.owed[place].iter().copied()) {
                return Some(format!("the bench shows other copies owed to board {k}"));
            }
            let decided = self.decisions.iter().rev().find(|decision| decision.0 == k);
            if shown_decision(bench, k).as_ref() != decided {
                return Some(format!("the bench shows another decision of board {k}"));
            }
        }
        None
    }
}

/// Every speaker and identifier in rising order.
fn places() -> impl Iterator<Item = (u8, u8)> {
    (1..=BOARDS as u8).flat_map(|s| (1..=IDENTIFIERS as u8).map(move |id| (s, id)))
}

/// What the bench shows as delivered by a board.
fn shown_deliveries(bench: &Bench, k: u8) -> impl Iterator<Item = Statement> + '_ {
    let delivered = &bench.board(k).delivered;
    places().filter_map(|(s, id)| delivered.get(s, id).map(|value| (s, id, value)))
}

/// What the bench shows as owed to a board. A copy has the value that was signed.
fn shown_debts(bench: &Bench, k: u8) -> impl Iterator<Item = Statement> + '_ {
    let owed = places().filter(move |&(s, id)| bench.owed(s, id).has(k));
    owed.map(|(s, id)| (s, id, bench.signer(s).signed(id).unwrap_or(0)))
}

fn shown_decision(bench: &Bench, k: u8) -> Option<Decision> {
    match bench.board(k).status {
        Status::Decided { round, value } => Some((k, round, value)),
        _ => None,
    }
}

/// Plays each file in the model and looks at the record after every event.
pub struct Check {
    /// The event call that is checked.
    event: fn(&mut Bench, Event) -> Effect,
}

impl Check {
    /// The check of the model's own event call.
    pub fn of_model() -> Check {
        Check {
            event: Bench::event,
        }
    }
}

impl Trial for Check {
    fn name(&self) -> &'static str {
        "violation"
    }

    fn trouble(&mut self, file: &[u8], coverage: &mut Coverage) -> Option<String> {
        let opened = coverage.open(file)?;
        let mut bench = opened.bench();
        let mut record = Record::new(opened.n, opened.faulty);
        if let Some(violation) = record.violation(&bench) {
            return Some(format!("the fresh bench: {violation}"));
        }
        for (i, e) in opened.events().enumerate() {
            let effect = coverage.play_by(&mut bench, e, self.event);
            record.note(e, effect);
            if let Some(violation) = record.violation(&bench) {
                return Some(format!("after event {}: {violation}", i + 1));
            }
        }
        coverage.note_end(&bench);
        None
    }
}

#[cfg(test)]
#[path = "record_tests.rs"]
mod tests;
