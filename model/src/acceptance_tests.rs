//! The tallies against the examples and against the literal reading.

use super::*;
use crate::literal;
use crate::random::Random;

/// A store of round 1 with the opening of board 1, if given, and ballots of boards 1, 2, ...
fn first_round(opening: Option<u16>, ballots: &[u16]) -> Store {
    let mut store = Store::EMPTY;
    if let Some(value) = opening {
        store.put(1, 1, value);
    }
    for (i, &value) in ballots.iter().enumerate() {
        store.put(i as u8 + 1, 2, value);
    }
    store
}

/// Which of the values 9 and 5 are allowed in round 2, by both readings.
fn allowed_in_two(n: u8, opening: Option<u16>, ballots: &[u16]) -> (bool, bool) {
    let (sizes, store) = (Sizes::of(n), first_round(opening, ballots));
    let got = [9, 5].map(|value| allowed(sizes, &store, 2, value));
    let literal = [9, 5].map(|value| literal::allowed(sizes, &store, 2, value));
    assert_eq!(got, literal);
    (got[0], got[1])
}

/// Letters e to h of the examples.
#[test]
fn three_boards() {
    assert_eq!(allowed_in_two(3, Some(9), &[9, 0]), (true, false));
    assert_eq!(allowed_in_two(3, Some(9), &[0, 0]), (true, true));
    assert_eq!(allowed_in_two(3, Some(9), &[9, 0, 0]), (true, true));
    assert_eq!(allowed_in_two(3, Some(9), &[9]), (false, false));
}

/// Letters i and j of the examples.
#[test]
fn four_boards() {
    assert_eq!(allowed_in_two(4, Some(9), &[9, 0, 0]), (true, true));
    assert_eq!(allowed_in_two(4, Some(9), &[9, 9, 0]), (true, false));
}

/// Letter k of the examples.
#[test]
fn a_ballot_without_its_opening_does_not_count() {
    for n in 2..=7 {
        let store = first_round(None, &[9, 0]);
        let tally = accepted_ballots(Sizes::of(n), &store, 1);
        assert_eq!((tally.speakers(), tally.count(9)), (Boards(2), 0));
    }
    let tally = accepted_ballots(Sizes::of(3), &first_round(Some(9), &[9, 0]), 1);
    assert_eq!((tally.speakers(), tally.count(9)), (Boards(3), 1));
}

#[test]
fn an_opening_of_another_board_is_none() {
    let mut store = first_round(None, &[9, 9]);
    store.put(2, 1, 9);
    assert_eq!(accepted_opening(Sizes::of(3), &store, 1), None);
    assert_eq!(accepted_ballots(Sizes::of(3), &store, 1).count(9), 0);
}

#[test]
fn a_blank_opening_is_not_accepted() {
    assert_eq!(
        accepted_opening(Sizes::of(3), &first_round(Some(0), &[]), 1),
        None
    );
}

/// After an open round the round before it still decides: 9 carried there, 5 did not.
#[test]
fn an_open_round_does_not_free_the_rounds_below() {
    let mut store = first_round(Some(9), &[9, 0]);
    store.put(1, 4, 0);
    store.put(3, 4, 0);
    let sizes = Sizes::of(3);
    assert!(allowed(sizes, &store, 3, 9));
    assert!(!allowed(sizes, &store, 3, 5));
}

/// A tally of several values at once, which no single opening gives rise to.
#[test]
fn a_tally_keeps_values_apart() {
    let store = first_round(None, &[3, 4, 3, 0, 5, 4, 3]);
    let tally = Tally::of(store.slate(2), |value| value != 5);
    assert_eq!(tally.counted().collect::<Vec<_>>(), [(3, 3), (4, 2)]);
    assert_eq!((tally.blanks, tally.speakers()), (1, Boards(0b110_1111)));
    assert_eq!(tally.with_at_least(3), Some(3));
    assert_eq!(tally.with_at_least(4), None);
    let sizes = Sizes { n: 7, q: 5, e: 3 };
    assert!(tally.carries(sizes, 3) && !tally.carries(sizes, 4));
    assert!(tally.leaves_open(sizes));
    assert!(!tally.leaves_open(Sizes { n: 7, q: 6, e: 3 }));
}

/// A store of `rounds` rounds with few values, of which about `dense` in a hundred places hold one.
fn random_store(random: &mut Random, sizes: Sizes, rounds: u8) -> Store {
    let mut store = Store::EMPTY;
    let dense = 50 + random.below(51);
    let blank = random.below(90);
    let values = 1 + random.below(3);
    for identifier in 1..=2 * rounds {
        for speaker in 1..=sizes.n {
            if random.below(100) >= dense {
                continue;
            }
            let blank = if identifier % 2 == 1 {
                blank / 4
            } else {
                blank
            };
            let empty = random.below(100) < blank;
            let value = if empty {
                0
            } else {
                1 + random.below(values) as u16
            };
            store.put(speaker, identifier, value);
        }
    }
    store
}

/// Makes most ballots follow the opening of their round, so that values are often carried.
fn follow_openings(random: &mut Random, sizes: Sizes, store: &mut Store, rounds: u8) {
    for round in 1..=rounds {
        let Some(opening) = stated_opening(sizes, store, round) else {
            continue;
        };
        let share = random.below(100);
        for speaker in store.slate(ballot_of(round)).speakers().iter() {
            if store.get(speaker, ballot_of(round)) != Some(0) && random.below(100) < share {
                store.put(speaker, ballot_of(round), opening);
            }
        }
    }
}

/// Holds both readings against each other; counts what was met in `met`.
fn agree(sizes: Sizes, store: &Store, rounds: u8, met: &mut [u64; 4]) {
    for round in 1..=rounds {
        for value in 1..=4 {
            let got = allowed(sizes, store, round, value);
            assert_eq!(got, literal::allowed(sizes, store, round, value));
            met[got as usize] += 1;
        }
        let opening = accepted_opening(sizes, store, round);
        let literal = (1..=4).find(|&w| literal::accepts_opening(sizes, store, round, w));
        assert_eq!(opening, literal);
        met[2 + opening.is_some() as usize] += 1;
        let tally = accepted_ballots(sizes, store, round);
        let speakers = literal::accepted_speakers(sizes, store, round);
        assert_eq!(tally.speakers(), speakers);
        for value in 1..=4 {
            let ballots = speakers.iter().map(|s| store.get(s, ballot_of(round)));
            let times = ballots.filter(|&ballot| ballot == Some(value)).count();
            assert_eq!(tally.count(value) as usize, times);
        }
    }
}

#[test]
fn tallies_agree_with_the_literal_reading() {
    let mut random = Random::new(1);
    for n in 1..=BOARDS as u8 {
        let mut met = [0; 4];
        for _ in 0..600 {
            let rounds = 1 + random.below(5) as u8;
            let sizes = Sizes::of(n);
            let mut store = random_store(&mut random, sizes, rounds);
            follow_openings(&mut random, sizes, &mut store, rounds);
            agree(sizes, &store, rounds, &mut met);
        }
        assert!(
            met.iter().all(|&times| times > 100),
            "{n} boards met {met:?}"
        );
    }
}
