//! Schedules by seed: a kind and a seed fix the bytes of a file.

mod damaged;
mod living;
mod loose;
pub(crate) mod script;
mod stubborn;

use crate::boards::Boards;
use crate::limits::{Sizes, BOARDS};
use crate::random::Random;

/// What sort of schedule is made.
#[derive(Clone, Copy, PartialEq, Eq, Debug)]
pub enum Kind {
    /// Bytes without meaning.
    Bytes,
    /// A good header and events with random fields.
    Fields,
    /// A vote that goes on.
    Living,
    /// A vote that goes on to the last round.
    Stubborn,
    /// A file of another kind, spoiled.
    Damaged,
}

impl Kind {
    pub const ALL: [Kind; 5] = [
        Kind::Bytes,
        Kind::Fields,
        Kind::Living,
        Kind::Stubborn,
        Kind::Damaged,
    ];

    pub fn name(self) -> &'static str {
        match self {
            Kind::Bytes => "bytes",
            Kind::Fields => "fields",
            Kind::Living => "living",
            Kind::Stubborn => "stubborn",
            Kind::Damaged => "damaged",
        }
    }

    pub fn named(name: &str) -> Option<Kind> {
        Kind::ALL.into_iter().find(|kind| kind.name() == name)
    }

    /// The kind that a seed stands for where kinds are mixed: of twenty, eleven are living ones.
    pub fn mixed(seed: u64) -> Kind {
        match seed % 20 {
            0 => Kind::Stubborn,
            1 | 11 => Kind::Bytes,
            2 | 9 | 16 => Kind::Fields,
            4 | 13 | 18 => Kind::Damaged,
            _ => Kind::Living,
        }
    }
}

/// What is asked of a schedule beyond its kind and seed. What is not asked the seed draws.
#[derive(Clone, Copy, Default, Debug)]
pub struct Wish {
    pub boards: Option<u8>,
    pub events: Option<usize>,
}

/// The file of a kind and seed.
pub fn file(kind: Kind, seed: u64, wish: Wish) -> Vec<u8> {
    let mut random = stream(kind, seed);
    match kind {
        Kind::Bytes => loose::bytes(&mut random, wish),
        Kind::Fields => loose::fields(&mut random, wish).to_bytes(),
        Kind::Living => living::schedule(random, wish).to_bytes(),
        Kind::Stubborn => stubborn::schedule(random, wish).to_bytes(),
        Kind::Damaged => damaged::bytes(&mut random, wish),
    }
}

/// A stream of its own for each kind and seed.
fn stream(kind: Kind, seed: u64) -> Random {
    let mut mixer = Random::new(seed);
    Random::new(mixer.draw() ^ (kind as u64 + 1).wrapping_mul(0xD6E8_FEB8_6659_FD93))
}

/// How often there are 1, 2, ... boards; fewer than three have little to say to each other.
const BOARD_WEIGHTS: [u64; BOARDS] = [1, 3, 5, 5, 4, 4, 5];

/// How many boards: as wished, or drawn.
fn draw_boards(random: &mut Random, wish: Wish) -> u8 {
    let drawn = random.weighted(&BOARD_WEIGHTS) as u8 + 1;
    wish.boards.unwrap_or(drawn)
}

/// Which boards are faulty: often so few that the vote stands it, else any number of them.
fn draw_faulty(random: &mut Random, n: u8) -> Boards {
    let few = n - Sizes::of(n).q;
    let most = if random.chance(60) { few } else { n };
    let number = random.between(0, most as u64) as u8;
    draw_set(random, Boards::up_to(n), number)
}

/// So many boards of a set, or all if there are not so many.
fn draw_set(random: &mut Random, from: Boards, number: u8) -> Boards {
    let mut drawn = Boards::NONE;
    while drawn.count() < number && drawn != from {
        drawn = drawn.with(draw_board(random, from.minus(drawn)));
    }
    drawn
}

/// One board of a set that is not empty.
fn draw_board(random: &mut Random, from: Boards) -> u8 {
    let place = random.below(from.count() as u64) as usize;
    from.iter().nth(place).expect("the place is in the set")
}

#[cfg(test)]
mod tests;
