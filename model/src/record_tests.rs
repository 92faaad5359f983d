//! The record finds each part of demand 3 broken where it is, and nothing where it is not.

use super::*;
use crate::file::Schedule;
use crate::generate::Kind;
use crate::trial::{run, Corpus};

const DONE: Effect = Effect {
    answer: 0,
    signed: None,
    decided: None,
};

/// A bench and a record of it, to which the same events are given.
struct Pair {
    bench: Bench,
    record: Record,
}

impl Pair {
    fn new(n: u8, faulty: u8) -> Pair {
        Pair {
            bench: Bench::new(n, Boards(faulty)),
            record: Record::new(n, Boards(faulty)),
        }
    }

    fn play(&mut self, events: &[Event]) {
        for &e in events {
            let effect = self.bench.event(e);
            assert_eq!(effect.answer, 0, "{e:?}");
            self.record.note(e, effect);
            assert_eq!(self.record.violation(&self.bench), None, "{e:?}");
        }
    }

    fn violation(&self) -> String {
        self.record
            .violation(&self.bench)
            .expect("something is wrong")
    }
}

/// Three sound boards; board 1 has decided 700 in round 1, and board 2 has its statements.
fn decided() -> Pair {
    let mut pair = Pair::new(3, 0);
    let turn = Event::turn;
    pair.play(&[
        Event::propose(1, 700),
        Event::propose(2, 600),
        turn(1),
        turn(2),
        Event::deliver(2, 1, 1, 700),
        turn(1),
        turn(2),
        Event::deliver(1, 2, 2, 700),
        Event::deliver(2, 1, 2, 700),
        Event::suspect(1, 3),
        turn(1),
    ]);
    pair
}

#[test]
fn generated_votes_keep_demand_3() {
    let corpus = Corpus {
        schedules: 60,
        seed: 1,
        kind: None,
        save: ".".into(),
        progress: false,
    };
    let (coverage, failure) = run(&corpus, &mut Check::of_model()).expect("no files");
    assert!(failure.is_none(), "{failure:?}");
    assert!(coverage.events > 5000);
    let living = Corpus {
        kind: Some(Kind::Living),
        ..corpus
    };
    assert!(run(&living, &mut Check::of_model())
        .expect("no files")
        .1
        .is_none());
}

/// Part one: two boards decide differently, or one board does so twice.
#[test]
fn a_disagreement_is_found() {
    for board in [1, 2] {
        let mut pair = decided();
        pair.record.note(Event::announce(board, 3, 1, 600), DONE);
        let told = pair.violation();
        let expected =
            format!("board 1 decided 700 in round 1, and board {board} decided 600 in round 1");
        assert_eq!(told, expected);
    }
}

/// The same value in another round is no disagreement.
#[test]
fn rounds_may_differ() {
    let mut pair = decided();
    pair.record.note(Event::announce(2, 1, 4, 700), DONE);
    assert_eq!(pair.record.disagreement(), None);
}

/// Part two: a value that nobody may have brought in. A faulty board's ballot does not bring it
/// in, nor its opening of a round that another board coordinates; its own opening does.
#[test]
fn a_foreign_value_is_found() {
    for (id, known) in [(2, false), (3, false), (1, true), (7, true), (8, false)] {
        let mut pair = Pair::new(3, 0b001);
        pair.play(&[Event::propose(2, 5), Event::sign(1, id, 9)]);
        pair.record.note(Event::announce(2, 1, 1, 9), DONE);
        assert_eq!(
            pair.record.foreign_value().is_none(),
            known,
            "identifier {id}"
        );
        if !known {
            assert!(pair
                .violation()
                .starts_with("board 2 decided 9, which no sound board"));
        }
    }
}

/// A sound board's opening does not bring a value in either; its proposal does.
#[test]
fn a_sound_opening_brings_nothing_in() {
    let mut pair = Pair::new(2, 0);
    let signed = Effect {
        signed: Some((1, 9)),
        ..DONE
    };
    pair.record.note(Event::turn(1), signed);
    pair.record.note(Event::announce(2, 1, 1, 9), DONE);
    assert!(pair.record.foreign_value().is_some());
    pair.record.note(Event::propose(1, 9), DONE);
    assert!(pair.record.foreign_value().is_none());
}

/// Part three, by the record alone: a statement of a sound board that never made it.
#[test]
fn a_missing_debt_is_found() {
    let mut pair = Pair::new(2, 0);
    pair.record.note(Event::deliver(1, 2, 1, 9), DONE);
    assert_eq!(
        pair.violation(),
        "nothing is owed, and the boards did not deliver the same"
    );
}

/// Part three the other way round: a copy is owed that all have.
#[test]
fn a_needless_debt_is_found() {
    let mut pair = decided();
    pair.record.owed[2].clear();
    pair.record.delivered[2] = pair.record.delivered[0].clone();
    assert_eq!(pair.record.wrong_debt(), None);
    pair.record.owed[2].insert((1, 1, 700));
    assert_eq!(
        pair.violation(),
        "copies are owed, and all boards delivered the same"
    );
}

#[test]
fn a_bench_that_forgets_a_debt_is_found() {
    let mut pair = decided();
    pair.bench.owed[0][0] = Boards::NONE;
    assert_eq!(
        pair.violation(),
        "the bench shows other copies owed to board 3"
    );
}

#[test]
fn a_bench_that_delivers_unasked_is_found() {
    let mut pair = decided();
    pair.bench.boards[2].delivered.put(1, 1, 700);
    assert_eq!(
        pair.violation(),
        "the bench shows other deliveries of board 3"
    );
}

#[test]
fn a_bench_that_decides_otherwise_is_found() {
    let forged = [
        Status::Voting,
        Status::Decided {
            round: 2,
            value: 700,
        },
        Status::Decided {
            round: 1,
            value: 600,
        },
    ];
    for status in forged {
        let mut pair = decided();
        pair.bench.boards[0].status = status;
        assert_eq!(
            pair.violation(),
            "the bench shows another decision of board 1"
        );
    }
}

/// Refused events leave no trace in the record.
#[test]
fn refused_events_are_not_recorded() {
    let mut pair = decided();
    let refused = Effect { answer: 21, ..DONE };
    pair.record.note(Event::announce(3, 1, 1, 600), refused);
    pair.record.note(Event::sign(1, 64, 5), refused);
    assert_eq!(pair.record.violation(&pair.bench), None);
}

/// Believes every announcement of a faulty board.
fn credulous(bench: &mut Bench, e: Event) -> Effect {
    let effect = bench.event(e);
    if effect.answer != 21 {
        return effect;
    }
    let (round, value) = (e.id, e.value);
    bench.boards[e.a as usize - 1].status = Status::Decided { round, value };
    Effect {
        decided: Some((round, value)),
        ..DONE
    }
}

/// Drops what a delivery makes owed.
fn silent(bench: &mut Bench, e: Event) -> Effect {
    let effect = bench.event(e);
    if e.kind == DELIVER && effect.answer == 0 {
        bench.owed[e.b as usize - 1][e.id as usize - 1] = Boards::NONE;
    }
    effect
}

/// What is told of a wrong event call, and the shortened schedule that shows it.
fn caught(name: &str, event: fn(&mut Bench, Event) -> Effect) -> (String, Schedule) {
    let folder = format!("model-check-{}-{name}", std::process::id());
    let save = std::env::temp_dir().join(folder);
    std::fs::create_dir_all(&save).expect("a folder for the test");
    let corpus = Corpus {
        schedules: 100,
        seed: 1,
        kind: None,
        save: save.clone(),
        progress: false,
    };
    let (_, failure) = run(&corpus, &mut Check { event }).expect("files can be written");
    let failure = failure.expect("the violation is found");
    let short = std::fs::read(&failure.saved[1]).expect("saved");
    assert!(failure.saved[1].ends_with(format!(
        "violation-{}-{}-short.bin",
        failure.kind.name(),
        failure.seed
    )));
    std::fs::remove_dir_all(save).expect("the folder of the test");
    let short = Schedule::read(&short).expect("a schedule");
    (failure.short_trouble, short)
}

/// One board starts and believes a value that nobody brought in.
#[test]
fn a_credulous_bench_is_caught_and_shortened() {
    let (told, short) = caught("credulous", credulous);
    assert!(told.contains("decided"), "{told}");
    let kinds: Vec<_> = short.events.iter().map(|e| e.kind).collect();
    assert_eq!(kinds, [PROPOSE, ANNOUNCE]);
}

/// A faulty board signs, one board delivers, and no other is owed a copy.
#[test]
fn a_silent_bench_is_caught_and_shortened() {
    let (told, short) = caught("silent", silent);
    assert!(
        told.contains("the bench shows other copies owed to board"),
        "{told}"
    );
    assert!(short.events.len() <= 4, "{short:?}");
    assert_eq!(short.events.last().map(|e| e.kind), Some(DELIVER));
}
