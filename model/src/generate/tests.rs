//! The generators give the same bytes always, and reach what they are there for.

use super::*;
use crate::board::Status;
use crate::file::{open, standing};
use crate::limits::{EVENTS, ROUNDS};
use crate::machine::Bench;

/// The bench after a good file.
fn played(file: &[u8]) -> Bench {
    let opened = open(file).expect("a good file");
    let mut bench = opened.bench();
    for e in opened.events() {
        bench.event(e);
    }
    bench
}

/// A short number for many bytes.
fn digest(bytes: &[u8]) -> u64 {
    bytes.iter().fold(0xCBF2_9CE4_8422_2325, |hash, &byte| {
        (hash ^ byte as u64).wrapping_mul(0x0000_0100_0000_01B3)
    })
}

/// The files of the first seeds, pinned: a change of a generator shows here.
#[test]
fn a_kind_and_a_seed_fix_the_file() {
    let mut digests = Vec::new();
    for kind in Kind::ALL {
        let files: Vec<_> = (0..20)
            .map(|seed| file(kind, seed, Wish::default()))
            .collect();
        let again: Vec<_> = (0..20)
            .map(|seed| file(kind, seed, Wish::default()))
            .collect();
        assert_eq!(files, again);
        assert!(files.iter().any(|f| *f != files[0]), "{kind:?}");
        digests.push(digest(&files.concat()));
    }
    assert_eq!(digests, PINNED);
}

const PINNED: [u64; 5] = [
    14_978_226_637_787_846_043,
    10_524_101_587_025_656_572,
    8_198_557_789_582_959_313,
    17_528_454_531_483_747_373,
    17_240_638_948_306_241_782,
];

#[test]
fn names_of_kinds() {
    for kind in Kind::ALL {
        assert_eq!(Kind::named(kind.name()), Some(kind));
    }
    assert_eq!(Kind::named("lively"), None);
    for kind in Kind::ALL {
        assert!((0..20).any(|seed| Kind::mixed(seed) == kind));
    }
}

#[test]
fn wishes_are_kept() {
    for kind in [Kind::Fields, Kind::Living, Kind::Stubborn] {
        for n in 1..=7 {
            let wish = Wish {
                boards: Some(n),
                events: Some(333),
            };
            let bytes = file(kind, n as u64, wish);
            let opened = open(&bytes).expect("a good file");
            assert_eq!((opened.n, opened.events().len()), (n, 333), "{kind:?}");
        }
    }
}

#[test]
fn good_kinds_give_good_files() {
    for kind in [Kind::Fields, Kind::Living, Kind::Stubborn] {
        for seed in 0..60 {
            assert!(open(&file(kind, seed, Wish::default())).is_ok());
        }
    }
}

#[test]
fn spoiled_files_have_every_fault() {
    for kind in [Kind::Bytes, Kind::Damaged] {
        let mut met = [0; 6];
        for seed in 0..600 {
            let bytes = file(kind, seed, Wish::default());
            met[open(&bytes).err().unwrap_or(0) as usize] += 1;
        }
        assert!(met.iter().all(|&times| times > 0), "{kind:?}: {met:?}");
    }
}

/// Decisions of a living vote come early and late, and with each number of boards.
#[test]
fn living_votes_decide_in_many_rounds() {
    let mut rounds = [0; ROUNDS + 1];
    let mut sizes = [0; BOARDS + 1];
    for seed in 0..600 {
        let bench = played(&file(Kind::Living, seed, Wish::default()));
        for k in bench.sound().iter() {
            if let Status::Decided { round, .. } = bench.board(k).status {
                rounds[round as usize] += 1;
                sizes[bench.sizes().n as usize] += 1;
            }
        }
    }
    assert!(rounds[1..=6].iter().all(|&times| times > 3), "{rounds:?}");
    assert!(sizes[1..].iter().all(|&times| times > 10), "{sizes:?}");
}

/// Of each number of boards from two on, stubborn votes come to the last round and are spent.
#[test]
fn stubborn_votes_are_spent() {
    for n in 2..=7 {
        let mut ends = [0; 3];
        for seed in 0..40 {
            let wish = Wish {
                boards: Some(n),
                events: None,
            };
            let bench = played(&file(Kind::Stubborn, seed, wish));
            for k in bench.sound().iter() {
                match standing(&bench, k) {
                    (b'X', round, _) => {
                        assert_eq!(round as usize, ROUNDS);
                        ends[0] += 1;
                    }
                    (b'D', round, _) => ends[1 + (round as usize == ROUNDS) as usize] += 1,
                    _ => {}
                }
            }
        }
        assert!(ends.iter().all(|&times| times > 0), "{n} boards: {ends:?}");
    }
}

#[test]
fn stubborn_votes_fit_into_a_file() {
    let mut filled = 0;
    for seed in 0..60 {
        let wish = Wish {
            boards: Some(7),
            events: None,
        };
        let bytes = file(Kind::Stubborn, seed, wish);
        let opened = open(&bytes).expect("a good file");
        let full = opened.events().len() == EVENTS;
        filled += full as usize;
        let bench = played(&bytes);
        let ended = |k| !matches!(bench.board(k).status, Status::Idle);
        assert!(bench.sound().iter().all(ended));
    }
    assert!((1..10).contains(&filled), "{filled} files are full");
}
