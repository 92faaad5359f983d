//! Votes of seven sound boards, played up to the round at which single events are timed.

use crate::boards::Boards;
use crate::generate::script::Script;
use crate::limits::{ballot_of, opening_of, BOARDS, EVENTS};
use crate::machine::Event;
use crate::random::Random;

/// The board that the probes are about. It coordinates neither round 2 nor round 31.
pub const PROBED: u8 = 5;
/// The board that has decided when it announces.
pub const ANNOUNCER: u8 = 4;

pub fn coordinator(round: u8) -> u8 {
    (round - 1) % BOARDS as u8 + 1
}

/// What a board proposes, and keeps as its estimate.
fn own_value(board: u8) -> u16 {
    100 + board as u16
}

pub fn opening_value(round: u8) -> u16 {
    own_value(coordinator(round))
}

pub fn everyone() -> impl Iterator<Item = u8> {
    1..=BOARDS as u8
}

/// Seven sound boards at the start of `round`, to which all that was said before is delivered.
fn history(round: u8) -> Script {
    let mut script = Script::new(Random::new(0), BOARDS as u8, Boards::NONE, EVENTS);
    for a in everyone() {
        script.play(Event::propose(a, own_value(a)));
        for b in everyone().filter(|&b| b != a) {
            script.play(Event::suspect(a, b));
        }
    }
    for before in 1..round {
        pass(&mut script, before);
    }
    script
}

/// A round in which the coordinator alone votes for its value, and all go on with their own.
fn pass(script: &mut Script, round: u8) {
    vote_apart(script, round);
    for a in everyone() {
        script.play(Event::turn(a));
    }
    deliver_all(script);
}

/// All vote, the coordinator alone for its value, and hear three ballots that are blank.
fn vote_apart(script: &mut Script, round: u8) {
    for a in everyone() {
        script.play(Event::turn(a));
        script.play(Event::turn(a));
    }
    let others = |a: u8| everyone().filter(move |&b| b != a && b != coordinator(round));
    for a in everyone() {
        for b in others(a).take(3) {
            script.play(Event::deliver(a, b, ballot_of(round), 0));
        }
    }
}

/// What is still on its way is delivered.
fn deliver_all(script: &mut Script) {
    while let Some(parcel) = script.parcels.first() {
        let e = parcel.event();
        script.play(e);
    }
}

/// The probed board waits for the opening, and trusts the coordinator to send it.
pub fn waiting_at_b(round: u8) -> Script {
    let mut script = history(round);
    for a in everyone() {
        script.play(Event::turn(a));
    }
    script.play(Event::trust(PROBED, coordinator(round)));
    script
}

/// All boards voted for the opening. The announcer has decided; the probed board lacks a ballot.
pub fn waiting_at_c(round: u8) -> Script {
    let mut script = voted_for_opening(round);
    for (a, ballots) in [(ANNOUNCER, 6), (PROBED, 2)] {
        for b in everyone().filter(|&b| b != a).take(ballots) {
            script.play(Event::deliver(a, b, ballot_of(round), opening_value(round)));
        }
    }
    script.play(Event::turn(ANNOUNCER));
    script
}

fn voted_for_opening(round: u8) -> Script {
    let mut script = waiting_at_b(round);
    let (opening, value) = (opening_of(round), opening_value(round));
    for a in everyone() {
        if a != coordinator(round) {
            script.play(Event::deliver(a, coordinator(round), opening, value));
        }
        script.play(Event::turn(a));
    }
    script
}

/// All boards voted for the opening and heard all ballots: the next turn of each decides.
pub fn deciding(round: u8) -> Script {
    let mut script = voted_for_opening(round);
    deliver_all(&mut script);
    script
}

/// The coordinator alone voted for its value, and all heard that: the next turn of each goes on,
/// with this value.
pub fn going_on(round: u8) -> Script {
    let mut script = history(round);
    vote_apart(&mut script, round);
    deliver_all(&mut script);
    script
}

#[cfg(test)]
mod tests {
    use super::*;
    use crate::acceptance::accepted_opening;
    use crate::board::{Stage, Status};
    use crate::limits::Sizes;

    #[test]
    fn the_history_is_what_it_says() {
        for round in [2, 31] {
            let bench = waiting_at_c(round).bench;
            let board = bench.board(PROBED);
            assert_eq!((board.stage, board.status), (Stage::C, Status::Voting));
            let sizes = Sizes::of(BOARDS as u8);
            let opening = accepted_opening(sizes, &board.delivered, round);
            assert_eq!(opening, Some(opening_value(round)));
            for id in 1..opening_of(round) {
                let speakers = board.delivered.slate(id).speakers().count();
                assert_eq!(speakers, if id % 2 == 1 { 1 } else { BOARDS as u8 });
            }
            assert!(matches!(
                bench.board(ANNOUNCER).status,
                Status::Decided { .. }
            ));
        }
    }
}
