//! The bench: up to seven boards, changed in place by one event after another.

use crate::acceptance::accepted_ballots;
use crate::board::{Board, Move, Stage, Status};
use crate::boards::Boards;
use crate::limits::{ballot_of, opening_of, Sizes, BOARDS, IDENTIFIERS, ROUNDS};
use crate::signer::Signer;

/// The kinds of event, by their numbers in a file.
pub const PROPOSE: u8 = 1;
pub const TURN: u8 = 2;
pub const DELIVER: u8 = 3;
pub const ANNOUNCE: u8 = 4;
pub const SUSPECT: u8 = 5;
pub const TRUST: u8 = 6;
pub const SIGN: u8 = 7;

#[derive(Clone, Copy, PartialEq, Eq, Default, Debug)]
pub struct Event {
    pub kind: u8,
    pub a: u8,
    pub b: u8,
    pub id: u8,
    pub value: u16,
}

impl Event {
    pub const fn new(kind: u8, a: u8, b: u8, id: u8, value: u16) -> Event {
        Event {
            kind,
            a,
            b,
            id,
            value,
        }
    }

    pub const fn propose(a: u8, value: u16) -> Event {
        Event::new(PROPOSE, a, 0, 0, value)
    }

    pub const fn turn(a: u8) -> Event {
        Event::new(TURN, a, 0, 0, 0)
    }

    pub const fn deliver(to: u8, speaker: u8, id: u8, value: u16) -> Event {
        Event::new(DELIVER, to, speaker, id, value)
    }

    pub const fn announce(to: u8, by: u8, round: u8, value: u16) -> Event {
        Event::new(ANNOUNCE, to, by, round, value)
    }

    pub const fn suspect(a: u8, b: u8) -> Event {
        Event::new(SUSPECT, a, b, 0, 0)
    }

    pub const fn trust(a: u8, b: u8) -> Event {
        Event::new(TRUST, a, b, 0, 0)
    }

    pub const fn sign(a: u8, id: u8, value: u16) -> Event {
        Event::new(SIGN, a, 0, id, value)
    }
}

/// What came of an event: the answer, and what the board signed or decided by it.
#[derive(Clone, Copy, PartialEq, Eq, Default, Debug)]
pub struct Effect {
    pub answer: u8,
    /// Identifier and value that a turn signed.
    pub signed: Option<(u8, u16)>,
    /// Round and value that were decided.
    pub decided: Option<(u8, u16)>,
}

impl Effect {
    const DONE: Effect = Effect::refused(0);

    const fn refused(answer: u8) -> Effect {
        Effect {
            answer,
            signed: None,
            decided: None,
        }
    }
}

#[derive(Clone, PartialEq, Eq, Debug)]
pub struct Bench {
    pub(crate) sizes: Sizes,
    pub(crate) sound: Boards,
    pub(crate) boards: [Board; BOARDS],
    pub(crate) signers: [Signer; BOARDS],
    /// For each speaker and identifier, the boards that are owed a copy.
    pub(crate) owed: [[Boards; IDENTIFIERS]; BOARDS],
}

impl Bench {
    /// A fresh bench of `n` boards, from 1 to 7, of which `faulty` are faulty.
    pub fn new(n: u8, faulty: Boards) -> Bench {
        Bench {
            sizes: Sizes::of(n),
            sound: Boards::up_to(n).minus(faulty),
            boards: [const { Board::FRESH }; BOARDS],
            signers: [const { Signer::FRESH }; BOARDS],
            owed: [[Boards::NONE; IDENTIFIERS]; BOARDS],
        }
    }

    /// A fresh bench from unchecked numbers, beside 0. If they are refused, the number of the
    /// fault stands beside the bench of one sound board.
    pub fn fresh(n: u8, marks: &[u8; BOARDS]) -> (u8, Bench) {
        let alone = Bench::new(1, Boards::NONE);
        if n < 1 || n as usize > BOARDS {
            return (2, alone);
        }
        let marks = &marks[..n as usize];
        if marks.iter().any(|&mark| mark > 1) {
            return (3, alone);
        }
        let faulty = (1..=n).filter(|&k| marks[k as usize - 1] == 1);
        (0, Bench::new(n, faulty.fold(Boards::NONE, Boards::with)))
    }

    pub fn sizes(&self) -> Sizes {
        self.sizes
    }

    pub fn sound(&self) -> Boards {
        self.sound
    }

    pub fn board(&self, k: u8) -> &Board {
        &self.boards[k as usize - 1]
    }

    pub fn signer(&self, k: u8) -> &Signer {
        &self.signers[k as usize - 1]
    }

    /// The boards that are owed a copy of what `speaker` signed under `id`.
    pub fn owed(&self, speaker: u8, id: u8) -> Boards {
        self.owed[speaker as usize - 1][id as usize - 1]
    }

    /// What the next turn of board `k` does, if it is voting.
    pub fn next_move(&self, k: u8) -> Move {
        self.board(k).next_move(self.sizes, k)
    }

    /// Takes one event. If its answer is not 0, nothing has changed.
    pub fn event(&mut self, e: Event) -> Effect {
        let fault = self.fault_of_form(e);
        if fault != 0 {
            return Effect::refused(fault);
        }
        match e.kind {
            PROPOSE => self.propose(e.a, e.value),
            TURN => self.turn(e.a),
            DELIVER => self.deliver(e.a, e.b, e.id, e.value),
            ANNOUNCE => self.announce(e.a, e.b, e.id, e.value),
            SUSPECT => self.suspect(e.a, e.b, true),
            TRUST => self.suspect(e.a, e.b, false),
            _ => self.sign(e.a, e.id, e.value),
        }
    }

    /// The answers 10 to 14, for which the fields and the marks are enough; 0 if none applies.
    fn fault_of_form(&self, e: Event) -> u8 {
        if !(PROPOSE..=SIGN).contains(&e.kind) {
            return 10;
        }
        let board = 1..=self.sizes.n;
        let pair = (DELIVER..=TRUST).contains(&e.kind);
        if !board.contains(&e.a) || (pair && !board.contains(&e.b)) {
            return 11;
        }
        let fields_fit = match e.kind {
            PROPOSE => e.value != 0 && e.b == 0 && e.id == 0,
            TURN => e.b == 0 && e.id == 0 && e.value == 0,
            DELIVER => (1..=IDENTIFIERS).contains(&(e.id as usize)),
            ANNOUNCE => e.value != 0 && (1..=ROUNDS).contains(&(e.id as usize)),
            SUSPECT | TRUST => e.id == 0 && e.value == 0,
            _ => e.b == 0 && (1..=IDENTIFIERS).contains(&(e.id as usize)),
        };
        if !fields_fit {
            return 12;
        }
        if self.sound.has(e.a) == (e.kind == SIGN) {
            return 13;
        }
        if (ANNOUNCE..=TRUST).contains(&e.kind) && e.a == e.b {
            return 14;
        }
        0
    }

    fn propose(&mut self, a: u8, value: u16) -> Effect {
        let board = &mut self.boards[a as usize - 1];
        if board.status != Status::Idle {
            return Effect::refused(15);
        }
        board.start(value);
        Effect::DONE
    }

    fn turn(&mut self, a: u8) -> Effect {
        match self.board(a).status {
            Status::Idle => Effect::refused(15),
            Status::Spent | Status::Decided { .. } => Effect::refused(16),
            Status::Voting => self.make_move(a, self.next_move(a)),
        }
    }

    fn make_move(&mut self, a: u8, step: Move) -> Effect {
        let board = &mut self.boards[a as usize - 1];
        let round = board.round;
        match step {
            Move::Wait => Effect::refused(22),
            Move::Pass => {
                board.stage = Stage::B;
                Effect::DONE
            }
            Move::Open(value) => {
                board.stage = Stage::B;
                self.state(a, opening_of(round), value)
            }
            Move::Vote(value) => {
                board.stage = Stage::C;
                self.state(a, ballot_of(round), value)
            }
            Move::Decide(value) => self.decide(a, round, value),
            Move::GoOn(estimate) => {
                board.end_round(estimate);
                Effect::DONE
            }
        }
    }

    /// A sound board signs and delivers its own statement; the others are owed copies.
    fn state(&mut self, a: u8, id: u8, value: u16) -> Effect {
        let signed = self.signers[a as usize - 1].sign(id, value);
        debug_assert!(signed, "a sound board signs under rising identifiers");
        self.hand_over(a, a, id, value);
        Effect {
            signed: Some((id, value)),
            ..Effect::DONE
        }
    }

    /// Board `k` delivers a statement and passes it on to the sound boards that lack it.
    fn hand_over(&mut self, k: u8, speaker: u8, id: u8, value: u16) {
        self.boards[k as usize - 1]
            .delivered
            .put(speaker, id, value);
        let mut owed = self.owed(speaker, id).without(k);
        for other in self.sound.without(speaker).without(k).iter() {
            if self.board(other).delivered.get(speaker, id).is_none() {
                owed = owed.with(other);
            }
        }
        self.owed[speaker as usize - 1][id as usize - 1] = owed;
    }

    fn decide(&mut self, a: u8, round: u8, value: u16) -> Effect {
        self.boards[a as usize - 1].status = Status::Decided { round, value };
        Effect {
            decided: Some((round, value)),
            ..Effect::DONE
        }
    }

    fn deliver(&mut self, a: u8, speaker: u8, id: u8, value: u16) -> Effect {
        if self.signer(speaker).signed(id) != Some(value) {
            return Effect::refused(17);
        }
        if self.board(a).delivered.get(speaker, id).is_some() {
            return Effect::refused(19);
        }
        self.hand_over(a, speaker, id, value);
        Effect::DONE
    }

    fn announce(&mut self, a: u8, by: u8, round: u8, value: u16) -> Effect {
        let board = self.board(a);
        match board.status {
            Status::Idle => return Effect::refused(15),
            Status::Decided { .. } => return Effect::refused(16),
            Status::Voting | Status::Spent => {}
        }
        let told = Status::Decided { round, value };
        if self.sound.has(by) && self.board(by).status != told {
            return Effect::refused(20);
        }
        let ballots = accepted_ballots(self.sizes, &board.delivered, round);
        if ballots.count(value) < self.sizes.q {
            return Effect::refused(21);
        }
        self.decide(a, round, value)
    }

    fn suspect(&mut self, a: u8, b: u8, suspected: bool) -> Effect {
        let board = &mut self.boards[a as usize - 1];
        board.suspected = if suspected {
            board.suspected.with(b)
        } else {
            board.suspected.without(b)
        };
        Effect::DONE
    }

    fn sign(&mut self, a: u8, id: u8, value: u16) -> Effect {
        if self.signers[a as usize - 1].sign(id, value) {
            Effect::DONE
        } else {
            Effect::refused(18)
        }
    }
}

#[cfg(test)]
#[path = "machine_tests.rs"]
mod tests;
