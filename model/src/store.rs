//! What one board has delivered, laid out by identifier.

use crate::boards::Boards;
use crate::limits::{BOARDS, IDENTIFIERS};

/// What was delivered under one identifier: whose statements, and their values.
#[derive(Clone, Copy, PartialEq, Eq, Debug)]
pub struct Slate {
    speakers: Boards,
    values: [u16; BOARDS],
}

impl Slate {
    const EMPTY: Slate = Slate {
        speakers: Boards::NONE,
        values: [0; BOARDS],
    };

    /// The boards whose statement is here.
    pub fn speakers(&self) -> Boards {
        self.speakers
    }

    /// The value of a speaker whose statement is here.
    pub fn value(&self, speaker: u8) -> u16 {
        self.values[speaker as usize - 1]
    }
}

/// One slate for each identifier.
#[derive(Clone, PartialEq, Eq, Debug)]
pub struct Store {
    slates: [Slate; IDENTIFIERS],
}

impl Store {
    pub const EMPTY: Store = Store {
        slates: [Slate::EMPTY; IDENTIFIERS],
    };

    pub fn slate(&self, identifier: u8) -> &Slate {
        &self.slates[identifier as usize - 1]
    }

    /// The value that `speaker` stated under `identifier`, if that was delivered.
    pub fn get(&self, speaker: u8, identifier: u8) -> Option<u16> {
        let slate = self.slate(identifier);
        slate.speakers.has(speaker).then(|| slate.value(speaker))
    }

    pub fn put(&mut self, speaker: u8, identifier: u8, value: u16) {
        let slate = &mut self.slates[identifier as usize - 1];
        slate.speakers = slate.speakers.with(speaker);
        slate.values[speaker as usize - 1] = value;
    }
}
