//! Acceptance once more, word by word: every choice of q speakers is tried.
//!
//! This is slow and only there for the tests, which hold the tallies against it.

use crate::boards::Boards;
use crate::limits::{ballot_of, opening_of, Sizes};
use crate::store::Store;

/// Whether the opening of `round` with `value` is accepted.
pub fn accepts_opening(sizes: Sizes, store: &Store, round: u8, value: u16) -> bool {
    let stated = store.get(sizes.coordinator(round), opening_of(round));
    stated == Some(value) && value != 0 && allowed(sizes, store, round, value)
}

/// The speakers whose ballot of `round` is accepted.
pub fn accepted_speakers(sizes: Sizes, store: &Store, round: u8) -> Boards {
    let mut accepted = Boards::NONE;
    for speaker in 1..=sizes.n {
        let ballot = store.get(speaker, ballot_of(round));
        if ballot.is_some_and(|w| w == 0 || accepts_opening(sizes, store, round, w)) {
            accepted = accepted.with(speaker);
        }
    }
    accepted
}

/// Whether `value` is allowed in `round`.
pub fn allowed(sizes: Sizes, store: &Store, round: u8, value: u16) -> bool {
    if round == 1 {
        return true;
    }
    let before = round - 1;
    let accepted = accepted_speakers(sizes, store, before);
    let allowed_before = allowed(sizes, store, before, value);
    (0..=Boards::up_to(sizes.n).0).map(Boards).any(|choice| {
        choice.count() == sizes.q
            && choice.minus(accepted).is_empty()
            && (times(store, before, choice, value) >= sizes.e
                || (scattered(sizes, store, before, choice) && allowed_before))
    })
}

/// How many of the chosen speakers have a ballot with `value`.
fn times(store: &Store, round: u8, choice: Boards, value: u16) -> u8 {
    let ballots = choice.iter().map(|s| store.get(s, ballot_of(round)));
    ballots.filter(|&ballot| ballot == Some(value)).count() as u8
}

/// Whether each value other than 0 comes fewer than e times in the choice.
fn scattered(sizes: Sizes, store: &Store, round: u8, choice: Boards) -> bool {
    choice
        .iter()
        .filter_map(|s| store.get(s, ballot_of(round)))
        .all(|w| w == 0 || times(store, round, choice, w) < sizes.e)
}
