//! Files that know nothing of the vote: random bytes, and events with random fields.

use super::{draw_boards, draw_faulty, Wish};
use crate::file::Schedule;
use crate::limits::{BOARDS, EVENTS, IDENTIFIERS, ROUNDS};
use crate::machine::Event;
use crate::random::Random;

/// The last round and the highest identifier, as the bytes of an event have them.
const ROUND: u8 = ROUNDS as u8;
const IDENTIFIER: u8 = IDENTIFIERS as u8;

/// Random bytes, often behind something that looks like a header.
pub fn bytes(random: &mut Random, wish: Wish) -> Vec<u8> {
    let plausible = random.chance(70) || wish.boards.is_some();
    let mut file = if plausible {
        header(random, wish)
    } else {
        Vec::new()
    };
    let length = match (wish.events, random.below(10)) {
        (Some(events), _) => events as u64 * 6,
        (None, 0) => 0,
        (None, 1..=7) => random.below(80),
        (None, _) => random.below(3000),
    };
    file.extend((0..length).map(|_| random.byte()));
    file
}

/// A header that is mostly good, and may be cut.
fn header(random: &mut Random, wish: Wish) -> Vec<u8> {
    let n = draw_boards(random, wish);
    let mut file = vec![n];
    for _ in 0..n {
        let mark = if random.chance(3) {
            random.byte()
        } else {
            random.below(2) as u8
        };
        file.push(mark);
    }
    let count = match random.below(10) {
        0 => random.draw() as u16,
        1 => random.between(EVENTS as u64 - 1, EVENTS as u64 + 2) as u16,
        _ => random.below(12) as u16,
    };
    file.extend(
        wish.events
            .map_or(count, |events| events as u16)
            .to_be_bytes(),
    );
    if random.chance(10) {
        file.truncate(random.below(file.len() as u64) as usize);
    }
    file
}

/// A good header, and events whose fields are drawn one by one.
pub fn fields(random: &mut Random, wish: Wish) -> Schedule {
    let n = draw_boards(random, wish);
    let faulty = draw_faulty(random, n);
    let most = random.pick(&[3, 300, 300, 300, 300, 300]);
    let drawn = random.between(0, most) as usize;
    let wild = random.pick(&[0, 5, 60]);
    let count = wish.events.unwrap_or(drawn);
    let events = (0..count).map(|_| event(random, n, wild)).collect();
    Schedule { n, faulty, events }
}

/// An event; in `wild` of a hundred cases its bytes are drawn blindly.
pub fn event(random: &mut Random, n: u8, wild: u64) -> Event {
    if random.chance(wild) {
        let [kind, a, b, id] = [random.byte(), random.byte(), random.byte(), random.byte()];
        return Event::new(kind, a, b, id, random.draw() as u16);
    }
    let kind = if random.chance(4) {
        random.pick(&[0, 8, 255])
    } else {
        random.between(1, 7) as u8
    };
    let (uses_b, uses_id, uses_value) = used(kind);
    Event {
        kind,
        a: board(random, n),
        b: field(random, uses_b, |random| board(random, n)),
        id: field(random, uses_id, identifier),
        value: field(random, uses_value, |random| random.below(4) as u16),
    }
}

/// Which of b, id and value a kind uses.
fn used(kind: u8) -> (bool, bool, bool) {
    match kind {
        1 => (false, false, true),
        2 => (false, false, false),
        5 | 6 => (true, false, false),
        7 => (false, true, true),
        _ => (true, true, true),
    }
}

/// A field that is used is drawn; one that is not is mostly 0.
fn field<T: Default>(random: &mut Random, used: bool, draw: impl Fn(&mut Random) -> T) -> T {
    if used || random.chance(2) {
        draw(random)
    } else {
        T::default()
    }
}

/// Mostly a board of the bench.
fn board(random: &mut Random, n: u8) -> u8 {
    match random.below(40) {
        0 => 0,
        1 => n + 1,
        2 => random.between(1, BOARDS as u64 + 1) as u8,
        _ => random.between(1, n as u64) as u8,
    }
}

/// Mostly a low identifier or round, else one about a limit.
fn identifier(random: &mut Random) -> u8 {
    match random.below(20) {
        0 => random.pick(&[0, IDENTIFIER + 1, IDENTIFIER + 2, 255]),
        1 => random.pick(&[ROUND - 1, ROUND, ROUND + 1, IDENTIFIER - 1, IDENTIFIER]),
        2 => random.between(1, IDENTIFIER as u64) as u8,
        _ => random.between(1, 6) as u8,
    }
}
