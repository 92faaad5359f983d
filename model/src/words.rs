//! The state of a bench as a row of words, and what each word of a row means.

use crate::board::{Board, Stage, Status};
use crate::boards::Boards;
use crate::file::open;
use crate::limits::{BOARDS, IDENTIFIERS};
use crate::machine::Bench;

/// Answer, number of boards, sound boards.
const HEAD: usize = 3;
/// The words of one board.
const STANDING: usize = 8;
/// One word for each identifier of each speaker.
const TABLE: usize = BOARDS * IDENTIFIERS;

const SIGNED: usize = HEAD + BOARDS * STANDING;
const DELIVERED: usize = SIGNED + TABLE;
const OWED: usize = DELIVERED + BOARDS * TABLE;

/// The length of a row.
pub const ROW: usize = OWED + TABLE;

/// Writes the row of a bench over `row`.
pub fn write_row(bench: &Bench, answer: u8, row: &mut [u32; ROW]) {
    row.fill(0);
    row[0] = answer as u32;
    row[1] = bench.sizes().n as u32;
    row[2] = bench.sound().0 as u32;
    for k in 1..=bench.sizes().n {
        let start = HEAD + (k as usize - 1) * STANDING;
        let last = bench.signer(k).last();
        row[start..start + STANDING].copy_from_slice(&standing(bench.board(k), last));
        write_signed(bench, k, row);
    }
    for k in bench.sound().iter() {
        write_delivered(bench, k, row);
    }
}

/// Lays the rows of a file into `out`, one for the fresh bench and one after each event, and
/// says how many words they are. If that is more than `out` holds, it stays. A file that is
/// refused has no rows.
pub fn trace(file: &[u8], out: &mut [u32]) -> usize {
    let Ok(opened) = open(file) else {
        return 0;
    };
    let length = (opened.events().len() + 1) * ROW;
    if length > out.len() {
        return length;
    }
    let (rows, _) = out[..length].as_chunks_mut();
    let mut bench = opened.bench();
    write_row(&bench, 0, &mut rows[0]);
    for (row, e) in rows[1..].iter_mut().zip(opened.events()) {
        let answer = bench.event(e).answer;
        write_row(&bench, answer, row);
    }
    length
}

fn standing(board: &Board, last: u8) -> [u32; STANDING] {
    let (status, decided_round, decided_value) = match board.status {
        Status::Idle => (0, 0, 0),
        Status::Voting => (1, 0, 0),
        Status::Spent => (2, 0, 0),
        Status::Decided { round, value } => (3, round, value),
    };
    let stage = match board.stage {
        Stage::A => 0,
        Stage::B => 1,
        Stage::C => 2,
    };
    [
        status,
        decided_round as u32,
        decided_value as u32,
        board.round as u32,
        board.estimate as u32,
        stage,
        board.suspected.0 as u32,
        last as u32,
    ]
}

/// What speaker `k` signed, and the copies of it that are owed.
fn write_signed(bench: &Bench, k: u8, row: &mut [u32; ROW]) {
    let start = (k as usize - 1) * IDENTIFIERS;
    for id in 1..=bench.signer(k).last() {
        let place = start + id as usize - 1;
        row[SIGNED + place] = bench.signer(k).signed(id).map_or(0, |v| v as u32 + 1);
    }
    for id in 1..=IDENTIFIERS as u8 {
        row[OWED + start + id as usize - 1] = bench.owed(k, id).0 as u32;
    }
}

/// What board `k` delivered.
fn write_delivered(bench: &Bench, k: u8, row: &mut [u32; ROW]) {
    let start = DELIVERED + (k as usize - 1) * TABLE;
    for id in 1..=IDENTIFIERS as u8 {
        let slate = bench.board(k).delivered.slate(id);
        for speaker in slate.speakers().iter() {
            let place = (speaker as usize - 1) * IDENTIFIERS + id as usize - 1;
            row[start + place] = slate.value(speaker) as u32 + 1;
        }
    }
}

/// Says in words what a word of a row is.
pub fn name(word: usize) -> String {
    let table = |place: usize| (place / IDENTIFIERS + 1, place % IDENTIFIERS + 1);
    match word {
        0 => "the answer".into(),
        1 => "the number of boards".into(),
        2 => "the sound boards".into(),
        HEAD..SIGNED => {
            let place = word - HEAD;
            let part = PARTS[place % STANDING];
            format!("board {}: {part}", place / STANDING + 1)
        }
        SIGNED..DELIVERED => {
            let (speaker, id) = table(word - SIGNED);
            format!("what signer {speaker} signed under identifier {id}")
        }
        DELIVERED..OWED => {
            let board = (word - DELIVERED) / TABLE + 1;
            let (speaker, id) = table((word - DELIVERED) % TABLE);
            format!("what board {board} delivered of speaker {speaker} under identifier {id}")
        }
        _ => {
            let (speaker, id) = table(word - OWED);
            format!("the boards that are owed what speaker {speaker} signed under identifier {id}")
        }
    }
}

const PARTS: [&str; STANDING] = [
    "status",
    "decided round",
    "decided value",
    "round",
    "estimate",
    "stage",
    "suspected boards",
    "last identifier of its signer",
];

/// Says in words what a word of a row holds.
pub fn meaning(word: usize, content: u32) -> String {
    let said = match word {
        2 | OWED.. => members(content),
        HEAD..SIGNED => match (word - HEAD) % STANDING {
            0 => pick(&["not started", "voting", "spent", "decided"], content),
            5 => pick(&["A", "B", "C"], content),
            6 => members(content),
            _ => None,
        },
        SIGNED..OWED if content == 0 => Some("nothing".into()),
        SIGNED..OWED => Some(format!("value {}", content - 1)),
        _ => None,
    };
    said.map_or(content.to_string(), |said| format!("{content} ({said})"))
}

fn pick(names: &[&str], content: u32) -> Option<String> {
    names.get(content as usize).map(|name| name.to_string())
}

fn members(content: u32) -> Option<String> {
    let set = Boards(u8::try_from(content).ok()?);
    if set.is_empty() {
        return Some("no board".into());
    }
    let boards: Vec<_> = set.iter().map(|k| k.to_string()).collect();
    Some(format!("boards {}", boards.join(", ")))
}

#[cfg(test)]
mod tests {
    use super::*;
    use crate::machine::Event;

    fn row_after(n: u8, faulty: u8, events: &[Event]) -> Box<[u32; ROW]> {
        let mut bench = Bench::new(n, Boards(faulty));
        let mut row = Box::new([77; ROW]);
        let mut answer = 0;
        for &e in events {
            answer = bench.event(e).answer;
        }
        write_row(&bench, answer, &mut row);
        row
    }

    /// The words that are not 0, by place.
    fn filled(row: &[u32; ROW]) -> Vec<(usize, u32)> {
        let places = row.iter().copied().enumerate();
        places.filter(|&(_, word)| word != 0).collect()
    }

    #[test]
    fn a_row_has_its_length() {
        assert_eq!(ROW, 4091);
        assert_eq!((SIGNED, DELIVERED, OWED), (59, 507, 3643));
    }

    #[test]
    fn a_fresh_bench() {
        assert_eq!(filled(&row_after(3, 0b010, &[])), [(1, 3), (2, 0b101)]);
    }

    /// Board 1 of four opens, and board 4, which is faulty, signs under the highest identifier.
    #[test]
    fn each_part_of_a_row() {
        let row = row_after(
            4,
            0b1000,
            &[
                Event::propose(1, 700),
                Event::suspect(2, 4),
                Event::turn(1),
                Event::deliver(3, 1, 1, 700),
                Event::sign(4, 64, 0),
                Event::deliver(3, 4, 64, 0),
                Event::turn(2),
            ],
        );
        let heads = [(0, 15), (1, 4), (2, 0b111)];
        let first = [(3, 1), (6, 1), (7, 700), (8, 1), (10, 1)];
        let others = [(3 + 8 + 6, 0b1000), (3 + 24 + 7, 64)];
        let signed = [(59, 701), (59 + 3 * 64 + 63, 1)];
        let delivered = [
            (507, 701),
            (507 + 2 * 448, 701),
            (507 + 2 * 448 + 3 * 64 + 63, 1),
        ];
        let owed = [(3643, 0b010), (3643 + 3 * 64 + 63, 0b011)];
        let parts: [&[_]; 6] = [&heads, &first, &others, &signed, &delivered, &owed];
        assert_eq!(filled(&row), parts.concat());
    }

    #[test]
    fn a_decided_board_keeps_its_place() {
        let turn = Event::turn(1);
        let row = row_after(1, 0, &[Event::propose(1, 7), turn, turn, turn]);
        assert_eq!(row[3..11], [3, 1, 7, 1, 7, 2, 0, 2]);
        assert_eq!(row[59..62], [8, 8, 0]);
    }

    #[test]
    fn words_have_names() {
        assert_eq!(name(3 + 8 * 2 + 6), "board 3: suspected boards");
        assert_eq!(name(59), "what signer 1 signed under identifier 1");
        assert_eq!(
            name(507 + 448 + 64 + 4),
            "what board 2 delivered of speaker 2 under identifier 5"
        );
        assert!(name(ROW - 1).ends_with("speaker 7 signed under identifier 64"));
        assert_eq!(meaning(3, 3), "3 (decided)");
        assert_eq!(meaning(59, 1), "1 (value 0)");
        assert_eq!(meaning(ROW - 1, 5), "5 (boards 1, 3)");
    }
}
