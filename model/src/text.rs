//! A schedule file as hexadecimal text, with what each event does beside it.

use crate::board::Move;
use crate::boards::Boards;
use crate::file::{event_bytes, open, Opened};
use crate::limits::round_of;
use crate::machine::*;

/// The width of the bytes of an event, and the gap before its comment.
const COLUMN: usize = 19;

/// The text of a file. The title becomes the comment at its top.
pub fn text(file: &[u8], title: &str) -> String {
    let mut out = format!("# {title}\n\n");
    match open(file) {
        Ok(opened) => push_schedule(&mut out, &opened),
        Err(fault) => {
            out += &format!("# The file is refused with {fault}.\n");
            for part in file.chunks(16) {
                out += &format!("{}\n", hex(part));
            }
        }
    }
    out
}

fn push_schedule(out: &mut String, opened: &Opened) {
    let marks: Vec<u8> = (1..=opened.n).map(|k| opened.faulty.has(k) as u8).collect();
    let events = opened.events().len() as u16;
    push_line(out, &[opened.n], "boards");
    push_line(out, &marks, &faults(opened.faulty));
    push_line(out, &events.to_be_bytes(), &format!("events: {events}"));
    *out += "\n";
    let mut bench = opened.bench();
    for (i, e) in opened.events().enumerate() {
        let said = said(&bench, e);
        let comment = match bench.event(e).answer {
            0 => format!("{}: {said}", i + 1),
            answer => format!("{}, answered {answer}: {said}", i + 1),
        };
        push_line(out, &event_bytes(&e), &comment);
    }
}

fn push_line(out: &mut String, bytes: &[u8], comment: &str) {
    *out += &format!("{:<COLUMN$} # {comment}\n", hex(bytes), COLUMN = COLUMN - 1);
}

fn hex(bytes: &[u8]) -> String {
    let pairs: Vec<_> = bytes.iter().map(|byte| format!("{byte:02X}")).collect();
    pairs.join(" ")
}

fn faults(faulty: Boards) -> String {
    if faulty.is_empty() {
        return "no board is faulty".into();
    }
    let boards: Vec<_> = faulty.iter().map(|k| k.to_string()).collect();
    format!("faulty: {}", boards.join(", "))
}

/// Says what an event is about, before it is played.
fn said(bench: &Bench, e: Event) -> String {
    let Event {
        a, b, id, value, ..
    } = e;
    match e.kind {
        PROPOSE => format!("board {a} proposes {value}"),
        TURN => format!("board {a} {}", turn(bench, a)),
        DELIVER => format!("board {b}'s {} reaches board {a}", statement(id, value)),
        ANNOUNCE => format!("board {b} announces to board {a}: {value} in round {id}"),
        SUSPECT => format!("board {a} suspects board {b}"),
        TRUST => format!("board {a} trusts board {b}"),
        SIGN => format!("board {a} signs {}", statement(id, value)),
        kind => format!("kind {kind}"),
    }
}

fn statement(id: u8, value: u16) -> String {
    let round = round_of(id);
    if id % 2 == 1 {
        format!("opening of round {round} with {value}")
    } else {
        format!("ballot of round {round} with {value}")
    }
}

fn turn(bench: &Bench, a: u8) -> String {
    if a < 1 || a > bench.sizes().n || !bench.sound().has(a) || bench.board(a).round == 0 {
        return "takes a turn".into();
    }
    let round = bench.board(a).round;
    match bench.next_move(a) {
        Move::Wait => "waits".into(),
        Move::Open(value) => format!("opens round {round} with {value}"),
        Move::Pass => format!("leaves round {round} to its coordinator"),
        Move::Vote(value) => format!("votes for {value} in round {round}"),
        Move::Decide(value) => format!("decides {value} in round {round}"),
        Move::GoOn(value) => format!("ends round {round} with {value}"),
    }
}

#[cfg(test)]
mod tests {
    use super::*;
    use crate::generate::{file, Kind, Wish};

    /// The bytes that a text stands for.
    fn bytes(text: &str) -> Vec<u8> {
        let lines = text
            .lines()
            .map(|line| line.split('#').next().unwrap_or(""));
        let pairs = lines.flat_map(|line| line.split_whitespace());
        pairs
            .map(|pair| u8::from_str_radix(pair, 16).expect("two digits"))
            .collect()
    }

    #[test]
    fn a_text_stands_for_its_file() {
        for kind in Kind::ALL {
            for seed in 0..20 {
                let file = file(kind, seed, Wish::default());
                assert_eq!(bytes(&text(&file, "a title")), file);
            }
        }
    }

    #[test]
    fn what_a_text_says() {
        let mut file = vec![2, 0, 1, 0, 4, 1, 1, 0, 0, 2, 0xBC, 2, 1, 0, 0, 0, 0];
        file.extend([7, 2, 0, 2, 0, 0, 3, 1, 2, 2, 0, 9]);
        let expected = "\
# a title

02                 # boards
00 01              # faulty: 2
00 04              # events: 4

01 01 00 00 02 BC  # 1: board 1 proposes 700
02 01 00 00 00 00  # 2: board 1 opens round 1 with 700
07 02 00 02 00 00  # 3: board 2 signs ballot of round 1 with 0
03 01 02 02 00 09  # 4, answered 17: board 2's ballot of round 1 with 9 reaches board 1
";
        assert_eq!(text(&file, "a title"), expected);
    }
}
