//! Schedule files: reading one, laying one out, and what is printed of one.

use crate::board::Status;
use crate::boards::Boards;
use crate::limits::{BOARDS, EVENTS};
use crate::machine::{Bench, Event};

/// The bytes of one event.
const EVENT_LENGTH: usize = 6;

/// A schedule: how many boards, which of them are faulty, and the events.
#[derive(Clone, PartialEq, Eq, Debug)]
pub struct Schedule {
    pub n: u8,
    pub faulty: Boards,
    pub events: Vec<Event>,
}

/// A good file whose events are still bytes.
pub struct Opened<'a> {
    pub n: u8,
    pub faulty: Boards,
    events: &'a [u8],
}

impl Opened<'_> {
    pub fn events(&self) -> impl ExactSizeIterator<Item = Event> + '_ {
        self.events.chunks_exact(EVENT_LENGTH).map(event_of)
    }

    pub fn bench(&self) -> Bench {
        Bench::new(self.n, self.faulty)
    }
}

fn event_of(bytes: &[u8]) -> Event {
    let value = u16::from_be_bytes([bytes[4], bytes[5]]);
    Event::new(bytes[0], bytes[1], bytes[2], bytes[3], value)
}

/// Reads a file, or says by number what the first fault in it is.
pub fn open(file: &[u8]) -> Result<Opened<'_>, u8> {
    let (&n, mut rest) = file.split_first().ok_or(1)?;
    if n < 1 || n as usize > BOARDS {
        return Err(2);
    }
    let mut faulty = Boards::NONE;
    for k in 1..=n {
        let (&mark, after) = rest.split_first().ok_or(1)?;
        match mark {
            0 => {}
            1 => faulty = faulty.with(k),
            _ => return Err(3),
        }
        rest = after;
    }
    let (&count, events) = rest.split_first_chunk::<2>().ok_or(1)?;
    let count = u16::from_be_bytes(count) as usize;
    if count > EVENTS {
        return Err(4);
    }
    match events.len() {
        length if length < count * EVENT_LENGTH => Err(1),
        length if length > count * EVENT_LENGTH => Err(5),
        _ => Ok(Opened { n, faulty, events }),
    }
}

impl Schedule {
    pub fn read(file: &[u8]) -> Result<Schedule, u8> {
        let opened = open(file)?;
        Ok(Schedule {
            n: opened.n,
            faulty: opened.faulty,
            events: opened.events().collect(),
        })
    }

    pub fn to_bytes(&self) -> Vec<u8> {
        let mut file = vec![self.n];
        file.extend((1..=self.n).map(|k| self.faulty.has(k) as u8));
        file.extend((self.events.len() as u16).to_be_bytes());
        for e in &self.events {
            file.extend(event_bytes(e));
        }
        file
    }
}

/// The six bytes of an event.
pub fn event_bytes(e: &Event) -> [u8; EVENT_LENGTH] {
    let [high, low] = e.value.to_be_bytes();
    [e.kind, e.a, e.b, e.id, high, low]
}

/// Plays a file and writes what is printed of it to `out`, which is emptied first.
pub fn report(file: &[u8], out: &mut Vec<u8>) {
    out.clear();
    let opened = match open(file) {
        Ok(opened) => opened,
        Err(fault) => {
            out.extend(b"refused ");
            push_number(out, fault as u32, b'\n');
            return;
        }
    };
    let mut bench = opened.bench();
    for (i, e) in opened.events().enumerate() {
        let answer = bench.event(e).answer;
        push_number(out, i as u32 + 1, b' ');
        push_number(out, answer as u32, b'\n');
    }
    push_boards(out, &bench);
}

/// The lines of the boards at the end.
pub fn push_boards(out: &mut Vec<u8>, bench: &Bench) {
    for k in 1..=bench.sizes().n {
        let (letter, round, value) = standing(bench, k);
        push_number(out, k as u32, b' ');
        out.extend([letter, b' ']);
        push_number(out, round as u32, b' ');
        push_number(out, value as u32, b'\n');
    }
}

/// How a board stands: its letter, and the round and value that are printed for it.
pub fn standing(bench: &Bench, k: u8) -> (u8, u8, u16) {
    if !bench.sound().has(k) {
        return (b'F', 0, 0);
    }
    let board = bench.board(k);
    match board.status {
        Status::Idle => (b'N', 0, 0),
        Status::Voting => (b'W', board.round, board.estimate),
        Status::Spent => (b'X', board.round, board.estimate),
        Status::Decided { round, value } => (b'D', round, value),
    }
}

/// Writes a number in decimal, and a byte after it.
fn push_number(out: &mut Vec<u8>, number: u32, after: u8) {
    let mut digits = [0; 11];
    digits[10] = after;
    let mut start = 10;
    let mut left = number;
    loop {
        start -= 1;
        digits[start] = b'0' + (left % 10) as u8;
        left /= 10;
        if left == 0 {
            break;
        }
    }
    out.extend_from_slice(&digits[start..]);
}

#[cfg(test)]
mod tests {
    use super::*;

    fn printed(file: &[u8]) -> String {
        let mut out = b"what was here before".to_vec();
        report(file, &mut out);
        String::from_utf8(out).expect("the report is text")
    }

    /// Letter l of the examples.
    #[test]
    fn the_whole_case() {
        let mut file = vec![1, 0, 0, 4, 1, 1, 0, 0, 0x02, 0xBC];
        for _ in 0..3 {
            file.extend([2, 1, 0, 0, 0, 0]);
        }
        assert_eq!(printed(&file), "1 0\n2 0\n3 0\n4 0\n1 D 1 700\n");
    }

    #[test]
    fn each_file_number() {
        let cases: [(&[u8], u8); 18] = [
            (&[], 1),
            (&[1], 1),
            (&[3, 0, 1], 1),
            (&[1, 0], 1),
            (&[1, 0, 0], 1),
            (&[1, 0, 0, 1], 1),
            (&[1, 0, 0, 1, 2, 1, 0, 0, 0], 1),
            (&[1, 0, 0x10, 0], 1),
            (&[0], 2),
            (&[8], 2),
            (&[9], 2),
            (&[255, 9, 9], 2),
            (&[1, 2], 3),
            (&[3, 0, 2], 3),
            (&[2, 1, 255, 0xFF], 3),
            (&[1, 0, 0x10, 1], 4),
            (&[1, 0, 0xFF, 0xFF, 1], 4),
            (&[1, 0, 0, 0, 0], 5),
        ];
        for (file, fault) in cases {
            assert_eq!(open(file).err(), Some(fault), "{file:?}");
            assert_eq!(printed(file), format!("refused {fault}\n"));
        }
        assert!(open(&[7, 0, 1, 0, 1, 0, 1, 1, 0, 0]).is_ok());
    }

    #[test]
    fn the_longest_file_is_read() {
        let mut file = vec![1, 0, 0x10, 0];
        file.resize(4 + 4096 * 6, 0);
        assert_eq!(Schedule::read(&file).map(|s| s.events.len()), Ok(4096));
        assert_eq!(printed(&file).lines().count(), 4097);
        assert!(printed(&file).ends_with("\n4096 10\n1 N 0 0\n"));
        file.push(0);
        assert_eq!(open(&file).err(), Some(5));
    }

    #[test]
    fn laying_out_undoes_reading() {
        let file = [2, 0, 1, 0, 2, 9, 8, 7, 6, 5, 4, 1, 1, 0, 0, 0xAB, 0xCD];
        let schedule = Schedule::read(&file).expect("a good file");
        assert_eq!(schedule.faulty, Boards(2));
        assert_eq!(schedule.events[1], Event::propose(1, 0xABCD));
        assert_eq!(schedule.to_bytes(), file);
    }
}
