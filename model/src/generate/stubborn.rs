//! Votes that do not end: round after round passes without a decision, mostly to the last one.
//!
//! Each round is led through as a whole. Of the boards that could vote for the opening so few
//! are let that no board sees q such ballots, unless the round is the one meant to decide.

use super::script::Script;
use super::{draw_set, loose, Wish};
use crate::acceptance::accepted_ballots;
use crate::board::{Move, Status};
use crate::boards::Boards;
use crate::file::Schedule;
use crate::limits::{ballot_of, opening_of, BOARDS, EVENTS, ROUNDS};
use crate::machine::Event;
use crate::random::Random;

/// What is meant to come of a round.
#[derive(Clone, Copy, PartialEq, Eq)]
enum Aim {
    /// Too few vote for the opening to decide it.
    Hold,
    /// Enough vote for it, but each board goes on before it sees them all.
    Hide,
    /// As `Hold`, but what was voted for is seen by many, who take it over.
    Stir,
    /// It may be decided.
    Yield,
}

/// How a stubborn vote is led.
struct Plan {
    /// The round in which a decision is no longer held off, if any.
    yields: Option<u8>,
    /// The round whose ballots would decide, had they come in time, if any.
    hides: Option<u8>,
    /// Whether estimates are still moved in the last round.
    stirs: bool,
    /// How many of a hundred boards that may read an opening do so.
    readers: u64,
    /// How many of a hundred ballots are handed out beyond those needed.
    generous: u64,
    /// How many late copies arrive after each round, at most.
    late: u64,
    /// How many of a hundred rounds have an aimless event.
    noise: u64,
    /// How many suspicions of a hundred are taken back after a round.
    forgiving: u64,
}

impl Plan {
    fn draw(random: &mut Random) -> Plan {
        let last = ROUNDS as u64;
        let yields = match random.below(10) {
            0..=4 => None,
            5..=6 => Some(last),
            _ => Some(random.between(2, last)),
        };
        let hides = random.chance(30).then(|| random.between(1, last));
        Plan {
            yields: yields.map(|round| round as u8),
            hides: hides.map(|round| round as u8),
            stirs: random.chance(50),
            readers: random.pick(&[0, 30, 70]),
            generous: random.pick(&[0, 0, 20, 60]),
            late: random.pick(&[0, 3, 40]),
            noise: random.pick(&[0, 10, 60]),
            forgiving: random.pick(&[0, 0, 10, 40]),
        }
    }

    fn aim(&self, round: u8) -> Aim {
        if self.yields == Some(round) {
            Aim::Yield
        } else if self.hides == Some(round) {
            Aim::Hide
        } else if self.stirs && round as usize == ROUNDS {
            Aim::Stir
        } else {
            Aim::Hold
        }
    }
}

pub fn schedule(mut random: Random, wish: Wish) -> Schedule {
    let drawn = random.between(2, BOARDS as u64) as u8;
    let n = wish.boards.unwrap_or(drawn);
    let faults = random.below(n as u64) as u8;
    let faulty = draw_set(&mut random, Boards::up_to(n), faults);
    let plan = Plan::draw(&mut random);
    let filled = random.chance(4).then_some(EVENTS);
    let wish = Wish {
        events: wish.events.or(filled),
        ..wish
    };
    let mut script = Script::new(random, n, faulty, wish.events.unwrap_or(EVENTS));
    for a in script.bench.sound().iter() {
        let value = script.random.between(1, 5) as u16 * 100 + a as u16;
        script.play(Event::propose(a, value));
    }
    for round in 1..=ROUNDS as u8 {
        lead(&mut script, &plan, round);
    }
    tail(&mut script, wish);
    script.finish()
}

/// The boards that vote in a round.
fn present(script: &Script, round: u8) -> Boards {
    let here = script.voting().iter();
    here.filter(|&k| script.bench.board(k).round == round)
        .fold(Boards::NONE, Boards::with)
}

/// Leads the boards that are in a round through it.
fn lead(script: &mut Script, plan: &Plan, round: u8) {
    let aim = plan.aim(round);
    let boards = present(script, round);
    if boards.is_empty() {
        return;
    }
    for a in boards.iter() {
        script.play(Event::turn(a));
    }
    open(script, round);
    read(script, plan, round);
    for a in boards.iter() {
        script.play(Event::turn(a));
    }
    vote(script, round, aim);
    for a in boards.iter() {
        if aim == Aim::Stir {
            bring(
                script,
                a,
                script.bench.sizes().coordinator(round),
                opening_of(round),
            );
        }
        gather(script, plan, a, round);
        script.play(Event::turn(a));
    }
    after(script, plan);
}

/// A faulty coordinator mostly opens the round, with an estimate, another value or the blank.
fn open(script: &mut Script, round: u8) {
    let coordinator = script.bench.sizes().coordinator(round);
    if !script.faulty.has(coordinator) || script.random.chance(25) {
        return;
    }
    let estimate = script
        .one_of(script.voting())
        .map(|k| script.bench.board(k).estimate);
    let value = match script.random.below(10) {
        0 => 0,
        1..=2 => script.random.between(1, 9) as u16,
        _ => estimate.unwrap_or(1),
    };
    script.play(Event::sign(coordinator, opening_of(round), value));
}

/// How many boards beside the coordinator may read the opening.
fn room(script: &Script, aim: Aim, round: u8) -> u8 {
    let sizes = script.bench.sizes();
    let own = present(script, round).has(sizes.coordinator(round)) as u8;
    let most = match aim {
        Aim::Hold | Aim::Stir => sizes.q - 1,
        Aim::Hide => sizes.n - 1,
        Aim::Yield => sizes.n,
    };
    most.saturating_sub(own)
}

/// The opening reaches some boards; the others come to suspect the coordinator.
fn read(script: &mut Script, plan: &Plan, round: u8) {
    let coordinator = script.bench.sizes().coordinator(round);
    let opening = script.bench.signer(coordinator).signed(opening_of(round));
    let aim = plan.aim(round);
    let readers = match aim {
        Aim::Hold => plan.readers,
        Aim::Stir => 50,
        Aim::Hide | Aim::Yield => 95,
    };
    let mut room = room(script, aim, round);
    for a in present(script, round).without(coordinator).iter() {
        match opening {
            Some(value) if room > 0 && script.random.chance(readers) => {
                script.play(Event::deliver(a, coordinator, opening_of(round), value));
                room -= 1;
            }
            _ if !script.bench.board(a).suspected.has(coordinator) => {
                script.play(Event::suspect(a, coordinator));
            }
            _ => {}
        }
    }
}

/// How many ballots of a round were signed with this value.
fn signed_ballots(script: &Script, round: u8, value: u16) -> u8 {
    let signers = (1..=script.n()).map(|k| script.bench.signer(k).signed(ballot_of(round)));
    signers.filter(|&signed| signed == Some(value)).count() as u8
}

/// The faulty boards vote: mostly blank, or for the opening while that decides nothing.
fn vote(script: &mut Script, round: u8, aim: Aim) {
    let sizes = script.bench.sizes();
    let leader = script.bench.signer(sizes.coordinator(round));
    let opening = leader.signed(opening_of(round)).unwrap_or(0);
    let spare = script.bench.sound().count() >= sizes.q;
    for a in script.faulty.iter() {
        let room = matches!(aim, Aim::Hide | Aim::Yield)
            || signed_ballots(script, round, opening) + 1 < sizes.q;
        let value = match script.random.below(10) {
            0 if spare => continue,
            1 if spare => script.random.between(1, 9) as u16,
            2..=4 if room => opening,
            5..=7 if aim == Aim::Yield => opening,
            _ => 0,
        };
        script.play(Event::sign(a, ballot_of(round), value));
    }
}

/// Brings a board a statement, if there is such a one and the board lacks it.
fn bring(script: &mut Script, a: u8, speaker: u8, id: u8) -> bool {
    let lacks = script.bench.board(a).delivered.get(speaker, id).is_none();
    match script.bench.signer(speaker).signed(id) {
        Some(value) if lacks => script.play(Event::deliver(a, speaker, id, value)),
        _ => false,
    }
}

/// Hands a board ballots until it can end the round. The rest it comes to suspect.
fn gather(script: &mut Script, plan: &Plan, a: u8, round: u8) {
    let blanks = match plan.aim(round) {
        Aim::Hold => 60,
        Aim::Stir => 10,
        Aim::Hide => 100,
        Aim::Yield => 30,
    };
    while !script.is_full() && script.bench.next_move(a) == Move::Wait {
        let sizes = script.bench.sizes();
        let board = script.bench.board(a);
        let ballots = accepted_ballots(sizes, &board.delivered, round);
        let silent = Boards::up_to(sizes.n).minus(ballots.speakers());
        let enough = ballots.speakers().count() >= sizes.q;
        let unsuspected = silent.without(a).minus(board.suspected);
        let sated = enough && !script.random.chance(plan.generous);
        if sated || !hand_ballot(script, a, round, blanks) {
            let Some(b) = script.one_of(unsuspected) else {
                return;
            };
            script.play(Event::suspect(a, b));
        }
    }
}

/// Brings a board one more ballot of the round, or else its opening. Says whether there was any.
/// In `blanks` of a hundred cases a blank is looked for first.
fn hand_ballot(script: &mut Script, a: u8, round: u8, blanks: u64) -> bool {
    let id = ballot_of(round);
    let mut fresh = Boards::NONE;
    let mut blank = Boards::NONE;
    let here = script.bench.board(a).delivered.slate(id).speakers();
    for k in Boards::up_to(script.n()).minus(here).iter() {
        let Some(value) = script.bench.signer(k).signed(id) else {
            continue;
        };
        fresh = fresh.with(k);
        blank = if value == 0 { blank.with(k) } else { blank };
    }
    let from = if script.random.chance(blanks) && !blank.is_empty() {
        blank
    } else {
        fresh
    };
    match script.one_of(from) {
        Some(speaker) => bring(script, a, speaker, id),
        None => bring(
            script,
            a,
            script.bench.sizes().coordinator(round),
            opening_of(round),
        ),
    }
}

/// What happens between two rounds: late copies, suspicions taken back, an aimless event.
fn after(script: &mut Script, plan: &Plan) {
    let late = script.random.between(0, plan.late);
    bring_late(script, late);
    if script.random.chance(plan.noise) {
        let n = script.n();
        let e = loose::event(&mut script.random, n, 10);
        script.play(e);
    }
    for a in script.voting().iter() {
        if script.random.chance(plan.forgiving) {
            let suspected = script.bench.board(a).suspected;
            let Some(b) = script.one_of(suspected) else {
                continue;
            };
            script.play(Event::trust(a, b));
        }
    }
}

/// Delivers so many of the copies that are owed, old ones and new ones.
fn bring_late(script: &mut Script, most: u64) {
    for _ in 0..most {
        let parcels = script.parcels.len() as u64;
        if parcels == 0 || script.is_full() {
            return;
        }
        let place = script.random.below(parcels);
        let place = if script.random.chance(50) { 0 } else { place };
        let e = script.parcels[place as usize].event();
        script.play(e);
    }
}

/// After the last round: late copies, announcements true and false, turns that come too late.
/// If the number of events is wished for, this goes on until they are there.
fn tail(script: &mut Script, wish: Wish) {
    let mut steps = script.random.between(0, 80);
    let all = script.random.chance(20);
    while !script.is_full() && (steps > 0 || wish.events.is_some()) {
        steps = steps.saturating_sub(1);
        match script.random.below(20) {
            0..=9 => bring_late(script, 1),
            10..=12 => announce(script),
            13..=18 => change_mind(script),
            _ => {
                let a = script.random.between(1, script.n() as u64) as u8;
                script.play(Event::turn(a));
            }
        }
    }
    if all {
        bring_late(script, EVENTS as u64);
    }
}

/// A board begins to suspect another one, or ceases to.
fn change_mind(script: &mut Script) {
    let Some(a) = script.one_of(script.bench.sound()) else {
        return;
    };
    let Some(b) = script.one_of(Boards::up_to(script.n()).without(a)) else {
        return;
    };
    script.play(if script.bench.board(a).suspected.has(b) {
        Event::trust(a, b)
    } else {
        Event::suspect(a, b)
    });
}

/// Announces to a board that has not decided what another one decided, or says it did.
fn announce(script: &mut Script) {
    let undecided = script.boards(|status| matches!(status, Status::Voting | Status::Spent));
    let Some(a) = script.one_of(undecided) else {
        return;
    };
    let decided = script.boards(|status| matches!(status, Status::Decided { .. }));
    let others = Boards(decided.0 | script.faulty.0);
    let others = if script.random.chance(10) {
        Boards::up_to(script.n())
    } else {
        others
    };
    let Some(b) = script.one_of(others.without(a)) else {
        return;
    };
    let round = script.random.between(1, ROUNDS as u64) as u8;
    let leader = script.bench.signer(script.bench.sizes().coordinator(round));
    let opening = leader.signed(opening_of(round)).unwrap_or(1).max(1);
    let (round, value) = match script.bench.board(b).status {
        Status::Decided { round, value } => (round, value),
        _ => (round, opening),
    };
    script.play(Event::announce(a, b, round, value));
}
