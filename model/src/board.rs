//! One board: where it stands in the vote, whom it suspects and what it delivered.

use crate::acceptance::{accepted_ballots, accepted_opening};
use crate::boards::Boards;
use crate::limits::{opening_of, Sizes, ROUNDS};
use crate::store::Store;

#[derive(Clone, Copy, PartialEq, Eq, Debug)]
pub enum Stage {
    A,
    B,
    C,
}

#[derive(Clone, Copy, PartialEq, Eq, Debug)]
pub enum Status {
    Idle,
    Voting,
    Spent,
    Decided { round: u8, value: u16 },
}

/// What a board's next turn would do.
#[derive(Clone, Copy, PartialEq, Eq, Debug)]
pub enum Move {
    Wait,
    /// Sign the opening with this value.
    Open(u16),
    /// Leave the opening to the coordinator.
    Pass,
    /// Sign the ballot with this value.
    Vote(u16),
    /// Decide this value.
    Decide(u16),
    /// End the round with this estimate.
    GoOn(u16),
}

#[derive(Clone, PartialEq, Eq, Debug)]
pub struct Board {
    pub status: Status,
    pub round: u8,
    pub estimate: u16,
    pub stage: Stage,
    pub suspected: Boards,
    pub delivered: Store,
}

impl Board {
    pub const FRESH: Board = Board {
        status: Status::Idle,
        round: 0,
        estimate: 0,
        stage: Stage::A,
        suspected: Boards::NONE,
        delivered: Store::EMPTY,
    };

    pub fn start(&mut self, value: u16) {
        self.status = Status::Voting;
        self.round = 1;
        self.estimate = value;
        self.stage = Stage::A;
    }

    /// What the next turn of this board does, if it is voting. `me` is its own number.
    pub fn next_move(&self, sizes: Sizes, me: u8) -> Move {
        match self.stage {
            Stage::A if sizes.coordinator(self.round) == me => Move::Open(self.estimate),
            Stage::A => Move::Pass,
            Stage::B => self.move_at_b(sizes),
            Stage::C => self.move_at_c(sizes),
        }
    }

    fn move_at_b(&self, sizes: Sizes) -> Move {
        let coordinator = sizes.coordinator(self.round);
        let opening = self.delivered.get(coordinator, opening_of(self.round));
        if opening.is_none() && !self.suspected.has(coordinator) {
            return Move::Wait;
        }
        Move::Vote(accepted_opening(sizes, &self.delivered, self.round).unwrap_or(0))
    }

    fn move_at_c(&self, sizes: Sizes) -> Move {
        let ballots = accepted_ballots(sizes, &self.delivered, self.round);
        let silent = Boards::up_to(sizes.n).minus(ballots.speakers());
        if ballots.speakers().count() < sizes.q || !silent.minus(self.suspected).is_empty() {
            return Move::Wait;
        }
        match ballots.with_at_least(sizes.q) {
            Some(value) => Move::Decide(value),
            None => Move::GoOn(ballots.with_at_least(sizes.e).unwrap_or(self.estimate)),
        }
    }

    /// Leaves the round behind; after the last one the board is spent.
    pub fn end_round(&mut self, estimate: u16) {
        self.estimate = estimate;
        if self.round as usize == ROUNDS {
            self.status = Status::Spent;
        } else {
            self.round += 1;
            self.stage = Stage::A;
        }
    }
}
