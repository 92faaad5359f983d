//! Votes that go on: each event is chosen by looking at the bench, in the temper of the seed.

use super::loose;
use super::script::{Parcel, Script};
use super::{draw_boards, draw_faulty, Wish};
use crate::acceptance::accepted_ballots;
use crate::board::{Move, Stage, Status};
use crate::boards::Boards;
use crate::file::Schedule;
use crate::limits::{ballot_of, opening_of, round_of, Sizes, IDENTIFIERS, ROUNDS};
use crate::machine::Event;
use crate::random::Random;

/// The order in which copies arrive.
#[derive(Clone, Copy)]
enum Order {
    Oldest,
    Newest,
    Any,
}

/// What sets one living schedule apart from another.
struct Temper {
    /// How often each sort of step is tried, in the order of `step`.
    weights: [u64; 10],
    order: Order,
    /// How many turns of a hundred are taken without looking whether the board waits.
    hasty: u64,
    /// Boards whose copies mostly stay away, and how mostly.
    remote: Boards,
    remoteness: u64,
    /// A board that sleeps through the vote, if any. What it hears it hears out of order.
    sleeper: Option<u8>,
    /// How many openings of a hundred do not arrive when they could.
    held_back: u64,
    /// The values that are about.
    values: Vec<u16>,
}

impl Temper {
    fn draw(random: &mut Random, n: u8) -> Temper {
        let eager = random.pick(&[12, 40, 80]);
        let held_back = random.pick(&[0, 0, 60, 95, 99]);
        let doubt = if held_back > 0 { 15 } else { 1 };
        let palette = random.between(1, 4);
        let sleeper = random.chance(30).then(|| random.between(1, n as u64) as u8);
        let weights = [
            random.pick(&[2, 20, 60]),              // propose
            random.pick(&[15, 30, 60]),             // turn
            eager,                                  // deliver an owed copy
            random.pick(&[5, 15, 30]),              // a faulty board signs
            random.pick(&[5, 15, 30]),              // what it signed reaches a board
            random.pick(&[1, 5, 25]).max(doubt),    // suspect
            random.pick(&[0, 3, 10]),               // trust
            random.pick(&[1, 2, 6]),                // announce
            random.pick(&[0, 1, 4]),                // nonsense
            if sleeper.is_some() { 25 } else { 0 }, // the sleeper hears something
        ];
        Temper {
            weights,
            order: random.pick(&[Order::Oldest, Order::Newest, Order::Any]),
            hasty: random.pick(&[2, 10, 30]),
            remote: Boards(random.byte())
                .and(Boards(random.byte()))
                .and(Boards::up_to(n)),
            remoteness: random.pick(&[0, 50, 95]),
            sleeper,
            held_back,
            values: (0..palette).map(|_| value(random)).collect(),
        }
    }

    /// Where the sound boards are too few, the vote lives by what the faulty ones sign.
    fn rouse_faulty(&mut self) {
        self.weights[3] = self.weights[3].max(30);
        self.weights[4] = self.weights[4].max(45);
    }
}

/// A value, small or any.
fn value(random: &mut Random) -> u16 {
    if random.chance(70) {
        random.between(1, 9) as u16
    } else {
        random.between(1, u16::MAX as u64) as u16
    }
}

/// How many events, where that is not wished.
fn draw_length(random: &mut Random) -> usize {
    let (low, high) = random.pick(&[(20, 60), (60, 250), (150, 400), (250, 900)]);
    random.between(low, high) as usize
}

pub fn schedule(mut random: Random, wish: Wish) -> Schedule {
    let n = draw_boards(&mut random, wish);
    let faulty = draw_faulty(&mut random, n);
    let mut temper = Temper::draw(&mut random, n);
    if faulty.count() + Sizes::of(n).q > n {
        temper.rouse_faulty();
    }
    let drawn = draw_length(&mut random);
    let mut script = Script::new(random, n, faulty, wish.events.unwrap_or(drawn));
    while !script.is_full() {
        match step(&mut script, &temper) {
            Some(e) => {
                script.play(e);
            }
            None if wish.events.is_some() => {
                let e = nonsense(&mut script);
                script.play(e);
            }
            None => break,
        }
    }
    script.finish()
}

/// The next event. Now and then none is found where all is done.
fn step(script: &mut Script, temper: &Temper) -> Option<Event> {
    for _ in 0..40 {
        let found = match script.random.weighted(&temper.weights) {
            0 => propose(script, temper),
            1 => turn(script, temper),
            2 => deliver(script, temper),
            3 => sign(script, temper),
            4 => spread(script),
            5 => suspect(script),
            6 => trust(script),
            7 => announce(script, temper),
            8 => Some(nonsense(script)),
            _ => wake(script, temper),
        };
        if found.is_some() {
            return found;
        }
    }
    None
}

fn propose(script: &mut Script, temper: &Temper) -> Option<Event> {
    let idle = script.boards(|status| status == Status::Idle);
    let a = script.one_of(idle)?;
    Some(Event::propose(a, script.random.pick(&temper.values)))
}

/// A turn, mostly of a board that does not wait.
fn turn(script: &mut Script, temper: &Temper) -> Option<Event> {
    let voting = script.voting();
    let voting = temper.sleeper.map_or(voting, |k| voting.without(k));
    if script.random.chance(temper.hasty) {
        return script.one_of(voting).map(Event::turn);
    }
    let ready = voting
        .iter()
        .filter(|&k| script.bench.next_move(k) != Move::Wait);
    let ready = ready.fold(Boards::NONE, Boards::with);
    script.one_of(ready).map(Event::turn)
}

/// An owed copy arrives, unless its board is far away or it is an opening that is held back.
fn deliver(script: &mut Script, temper: &Temper) -> Option<Event> {
    let parcels = script.parcels.len() as u64;
    if parcels == 0 {
        return None;
    }
    let place = match temper.order {
        Order::Oldest => script.random.below(parcels.min(3)),
        Order::Newest => parcels - 1 - script.random.below(parcels.min(3)),
        Order::Any => script.random.below(parcels),
    };
    let parcel = script.parcels[place as usize];
    let opening = parcel.id % 2 == 1 && round_of(parcel.id) == script.front();
    let remoteness = if temper.remote.has(parcel.to) {
        temper.remoteness
    } else {
        0
    };
    let asleep = temper.sleeper == Some(parcel.to);
    let far = script.random.chance(if asleep { 97 } else { remoteness });
    if far || (opening && script.random.chance(temper.held_back)) {
        return None;
    }
    Some(parcel.event())
}

/// A faulty board signs something near the round that is voted on.
fn sign(script: &mut Script, temper: &Temper) -> Option<Event> {
    let a = script.one_of(script.faulty)?;
    let near = script.front() + script.random.pick(&[0, 0, 0, 0, 1, 2]);
    let last = script.bench.signer(a).last();
    let near = near.max(last / 2 + 1).min(ROUNDS as u8);
    let leads = script.bench.sizes().coordinator(near) == a;
    let opens = script.random.chance(if leads { 75 } else { 8 });
    let id = if opens && opening_of(near) > last {
        opening_of(near)
    } else {
        ballot_of(near)
    };
    if near > script.front() + 2 && script.random.chance(90) {
        return None;
    }
    let value = if opens {
        opening_value(script, temper)
    } else {
        ballot_value(script, temper, near)
    };
    Some(Event::sign(a, id, value))
}

/// A value for an opening: an estimate of some board, another value, or the blank.
fn opening_value(script: &mut Script, temper: &Temper) -> u16 {
    let estimate = script
        .one_of(script.voting())
        .map(|k| script.bench.board(k).estimate);
    match script.random.below(10) {
        0 => 0,
        1..=4 => script.random.pick(&temper.values),
        _ => estimate.unwrap_or(1),
    }
}

/// A value for a ballot: what the round was opened with, the blank, or another value.
fn ballot_value(script: &mut Script, temper: &Temper, round: u8) -> u16 {
    let coordinator = script.bench.sizes().coordinator(round);
    let opening = script.bench.signer(coordinator).signed(opening_of(round));
    match script.random.below(10) {
        0..=4 => opening.unwrap_or(0),
        5..=8 => 0,
        _ => script.random.pick(&temper.values),
    }
}

/// Something that a faulty board signed reaches a board that lacks it.
fn spread(script: &mut Script) -> Option<Event> {
    let claims = script.claims.len() as u64;
    if claims == 0 {
        return None;
    }
    let back = if script.random.chance(80) {
        claims.min(10)
    } else {
        claims
    };
    let place = claims - 1 - script.random.below(back);
    let (speaker, id, value) = script.claims[place as usize];
    let lacking = script.bench.sound().iter();
    let lacking = lacking.filter(|&k| script.bench.board(k).delivered.get(speaker, id).is_none());
    let to = script.one_of(lacking.fold(Boards::NONE, Boards::with))?;
    Some(
        Parcel {
            to,
            speaker,
            id,
            value,
        }
        .event(),
    )
}

/// A board suspects what it waits for, or some other board.
fn suspect(script: &mut Script) -> Option<Event> {
    let a = script.one_of(script.bench.sound())?;
    let others = Boards::up_to(script.n()).without(a);
    let board = script.bench.board(a);
    let blocking = match (board.status, board.stage) {
        (Status::Voting, Stage::C) => {
            let ballots = accepted_ballots(script.bench.sizes(), &board.delivered, board.round);
            others.minus(ballots.speakers())
        }
        (Status::Voting, _) => {
            others.and(Boards::NONE.with(script.bench.sizes().coordinator(board.round)))
        }
        _ => Boards::NONE,
    };
    let blocking = blocking.minus(board.suspected);
    let any = blocking.is_empty() || script.random.chance(10);
    if any && script.random.chance(70) {
        return None;
    }
    let b = script.one_of(if any { others } else { blocking })?;
    Some(Event::suspect(a, b))
}

/// A board takes a suspicion back, or says once more that it has none.
fn trust(script: &mut Script) -> Option<Event> {
    let a = script.one_of(script.bench.sound())?;
    let others = Boards::up_to(script.n()).without(a);
    let suspected = script.bench.board(a).suspected;
    let any = script.random.chance(5);
    let b = script.one_of(if any { others } else { suspected })?;
    Some(Event::trust(a, b))
}

/// An announcement to a board that has not decided; mostly one that may be true.
fn announce(script: &mut Script, temper: &Temper) -> Option<Event> {
    let undecided = script.boards(|status| matches!(status, Status::Voting | Status::Spent));
    let a = script.one_of(undecided)?;
    let b = script.one_of(Boards::up_to(script.n()).without(a))?;
    let (round, value) = match script.bench.board(b).status {
        Status::Decided { round, value } => (round, value),
        _ if script.faulty.has(b) => plausible(script, a),
        _ if script.random.chance(60) => return None,
        _ => plausible(script, a),
    };
    let value = match value {
        0 => script.random.pick(&temper.values),
        _ if script.random.chance(12) => script.random.pick(&temper.values),
        value => value,
    };
    Some(Event::announce(a, b, round, value))
}

/// A round and the value that it was opened with, if possible such that the board has ballots
/// enough for it, whether it accepts them or not.
fn plausible(script: &mut Script, a: u8) -> (u8, u16) {
    let sizes = script.bench.sizes();
    let last = (script.front() + 1).min(ROUNDS as u8);
    let opening = |script: &Script, round: u8| {
        let leader = script.bench.signer(sizes.coordinator(round));
        leader.signed(opening_of(round)).unwrap_or(0)
    };
    let backed = |round: &u8| {
        let slate = script.bench.board(a).delivered.slate(ballot_of(*round));
        let value = opening(script, *round);
        let same = slate.speakers().iter().filter(|&k| slate.value(k) == value);
        value != 0 && same.count() >= sizes.q as usize
    };
    let rounds: Vec<u8> = (1..=last).filter(backed).collect();
    let round = if rounds.is_empty() || script.random.chance(20) {
        script.random.between(1, last as u64) as u8
    } else {
        script.random.pick(&rounds)
    };
    (round, opening(script, round))
}

/// The sleeper hears of the last round that was won, or of one before it, or is told the outcome.
fn wake(script: &mut Script, temper: &Temper) -> Option<Event> {
    let a = temper.sleeper.filter(|&k| script.bench.sound().has(k))?;
    let sizes = script.bench.sizes();
    let (round, value) = won(script)?;
    let told = script.random.chance(15);
    let before = round > 1 && script.random.chance(25);
    let about = if before {
        script.random.between(1, round as u64 - 1) as u8
    } else {
        round
    };
    let missing = missing(script, a, about);
    if missing.is_empty() || told {
        let b = script.one_of(Boards::up_to(sizes.n).without(a))?;
        return Some(Event::announce(a, b, round, value));
    }
    Some(script.random.pick(&missing).event())
}

/// The last round of whose ballots q are signed for its opening, with the value of that.
fn won(script: &Script) -> Option<(u8, u16)> {
    let sizes = script.bench.sizes();
    let rounds = (1..=script.front()).rev();
    let mut opened = rounds.filter_map(|round| {
        let leader = script.bench.signer(sizes.coordinator(round));
        leader.signed(opening_of(round)).map(|value| (round, value))
    });
    opened.find(|&(round, value)| {
        let ballots = (1..=sizes.n).map(|k| script.bench.signer(k).signed(ballot_of(round)));
        value != 0 && ballots.filter(|&b| b == Some(value)).count() >= sizes.q as usize
    })
}

/// What was signed in a round and board `a` lacks.
fn missing(script: &Script, a: u8, round: u8) -> Vec<Parcel> {
    let mut missing = Vec::new();
    for id in [opening_of(round), ballot_of(round)] {
        let here = script.bench.board(a).delivered.slate(id).speakers();
        for speaker in Boards::up_to(script.n()).minus(here).iter() {
            if let Some(value) = script.bench.signer(speaker).signed(id) {
                missing.push(Parcel {
                    to: a,
                    speaker,
                    id,
                    value,
                });
            }
        }
    }
    missing
}

/// An event that has no aim, or one that was there before.
fn nonsense(script: &mut Script) -> Event {
    let n = script.n();
    if script.random.chance(40) && !script.events.is_empty() {
        return script.random.pick(&script.events);
    }
    let mut e = loose::event(&mut script.random, n, 10);
    if script.random.chance(20) {
        e.id = script.random.between(0, IDENTIFIERS as u64 + 1) as u8;
    }
    e
}
