//! A schedule in the making, with the bench as it stands after the events so far.

use super::draw_board;
use crate::board::Status;
use crate::boards::Boards;
use crate::file::Schedule;
use crate::limits::IDENTIFIERS;
use crate::machine::{Bench, Event, DELIVER};
use crate::random::Random;

/// A statement on its way to a board.
#[derive(Clone, Copy, PartialEq, Eq, Debug)]
pub struct Parcel {
    pub to: u8,
    pub speaker: u8,
    pub id: u8,
    pub value: u16,
}

impl Parcel {
    pub fn event(self) -> Event {
        Event::deliver(self.to, self.speaker, self.id, self.value)
    }
}

pub struct Script {
    pub random: Random,
    pub bench: Bench,
    pub faulty: Boards,
    pub events: Vec<Event>,
    /// The copies that are owed, in the order in which they came to be.
    pub parcels: Vec<Parcel>,
    /// What faulty boards signed: speaker, identifier, value.
    pub claims: Vec<(u8, u8, u16)>,
    limit: usize,
}

impl Script {
    pub fn new(random: Random, n: u8, faulty: Boards, limit: usize) -> Script {
        Script {
            random,
            bench: Bench::new(n, faulty),
            faulty,
            events: Vec::with_capacity(limit),
            parcels: Vec::new(),
            claims: Vec::new(),
            limit,
        }
    }

    pub fn is_full(&self) -> bool {
        self.events.len() >= self.limit
    }

    pub fn n(&self) -> u8 {
        self.bench.sizes().n
    }

    /// Adds an event. Says whether the bench took it; a full script takes nothing.
    pub fn play(&mut self, e: Event) -> bool {
        if self.is_full() {
            return false;
        }
        self.events.push(e);
        let before = self.owed_of(e);
        let effect = self.bench.event(e);
        if effect.answer != 0 {
            return false;
        }
        if let Some((id, value)) = effect.signed {
            self.send(e.a, id, value, Boards::NONE);
        }
        if e.kind == DELIVER {
            self.parcels
                .retain(|p| (p.to, p.speaker, p.id) != (e.a, e.b, e.id));
            self.send(e.b, e.id, e.value, before);
        }
        if self.faulty.has(e.a) {
            self.claims.push((e.a, e.id, e.value));
        }
        true
    }

    /// The boards that are owed the statement that an event delivers, if it names one.
    fn owed_of(&self, e: Event) -> Boards {
        let board = 1..=self.n();
        let identifier = 1..=IDENTIFIERS as u8;
        if e.kind == DELIVER && board.contains(&e.b) && identifier.contains(&e.id) {
            self.bench.owed(e.b, e.id)
        } else {
            Boards::NONE
        }
    }

    /// Notes the copies of a statement that are owed now and were not before.
    fn send(&mut self, speaker: u8, id: u8, value: u16, before: Boards) {
        for to in self.bench.owed(speaker, id).minus(before).iter() {
            self.parcels.push(Parcel {
                to,
                speaker,
                id,
                value,
            });
        }
    }

    /// The sound boards that stand as `fits` says.
    pub fn boards(&self, fits: impl Fn(Status) -> bool) -> Boards {
        let fitting = self.bench.sound().iter();
        fitting
            .filter(|&k| fits(self.bench.board(k).status))
            .fold(Boards::NONE, Boards::with)
    }

    pub fn voting(&self) -> Boards {
        self.boards(|status| status == Status::Voting)
    }

    /// The highest round that a sound board is in, at least 1.
    pub fn front(&self) -> u8 {
        let rounds = self.bench.sound().iter().map(|k| self.bench.board(k).round);
        rounds.max().unwrap_or(0).max(1)
    }

    /// One board of a set, if there is any.
    pub fn one_of(&mut self, boards: Boards) -> Option<u8> {
        (!boards.is_empty()).then(|| draw_board(&mut self.random, boards))
    }

    pub fn finish(self) -> Schedule {
        Schedule {
            n: self.n(),
            faulty: self.faulty,
            events: self.events,
        }
    }
}
