//! The schedules that are timed.

use super::histories::{
    coordinator, deciding, everyone, going_on, opening_value, waiting_at_b, waiting_at_c,
    ANNOUNCER, PROBED,
};
use super::sides::Way;
use crate::file::Schedule;
use crate::generate::script::Script;
use crate::generate::{file, Kind, Wish};
use crate::limits::{opening_of, BOARDS, EVENTS};
use crate::machine::{Event, DELIVER};
use crate::random::Random;

/// How many living schedules are timed together, and how long they are.
const SHORT_FILES: u64 = 300;
const SHORT_EVENTS: (u64, u64) = (20, 60);
/// The trace is timed for so many of them, the first.
const TRACED_FILES: usize = 30;
/// The rounds at which single events are timed.
const ROUNDS_SEEN: [u8; 2] = [2, 31];
/// How many events are appended to see what one of them costs.
const APPENDED: usize = 1800;
/// Where seven events are what is sought, so many are played in a run, in files played again.
const PLAYED: usize = 60_000;

/// Files to play, files whose cost is taken off, and how many units the rest is shared by.
pub struct Case {
    pub name: String,
    pub way: Way,
    pub unit: &'static str,
    pub units: usize,
    pub with: Vec<Vec<u8>>,
    pub without: Vec<Vec<u8>>,
    /// How often they are timed in one run.
    pub times: usize,
}

impl Case {
    /// The cost of some files by themselves.
    fn of(
        name: String,
        way: Way,
        (units, unit): (usize, &'static str),
        files: Vec<Vec<u8>>,
    ) -> Case {
        Case {
            name,
            way,
            unit,
            units,
            with: files,
            without: Vec::new(),
            times: 1,
        }
    }

    /// The cost of so many events, which stand at the end of `with` and not of `without`.
    fn of_last(name: String, events: usize, with: Vec<u8>, without: Vec<u8>) -> Case {
        Case {
            without: vec![without],
            ..Case::of(name, Way::Report, (events, "event"), vec![with])
        }
    }
}

pub fn all() -> Vec<Case> {
    let short = short_files();
    let long = long_file();
    let mut cases = vec![
        Case::of(
            format!(
                "{SHORT_FILES} living files of {} to {} events",
                SHORT_EVENTS.0, SHORT_EVENTS.1
            ),
            Way::Report,
            (short.len(), "file"),
            short.clone(),
        ),
        Case::of(
            format!(
                "{EVENTS} events with {BOARDS} boards, {} accepted",
                accepted(&long)
            ),
            Way::Report,
            (EVENTS, "event"),
            vec![long.clone()],
        ),
    ];
    for probe in &PROBES {
        cases.extend(ROUNDS_SEEN.map(|round| probe_case(probe, round)));
    }
    for end in &ENDS {
        cases.extend(ROUNDS_SEEN.map(|round| end_case(end, round)));
    }
    cases.push(trace_case(short));
    cases.push(by_value_case(long));
    cases
}

/// A row for each event, and one for each file's fresh bench.
fn trace_case(mut files: Vec<Vec<u8>>) -> Case {
    files.truncate(TRACED_FILES);
    let events = files.iter().map(|file| answers(file).len()).sum();
    let name = format!("the trace of {TRACED_FILES} of the living files");
    Case::of(name, Way::Trace, (events, "event"), files)
}

fn by_value_case(long: Vec<u8>) -> Case {
    let name = format!("the {EVENTS} events by `apply`: a bench by value, in and out");
    Case::of(name, Way::ByValue, (EVENTS, "event"), vec![long])
}

pub fn short_files() -> Vec<Vec<u8>> {
    let mut random = Random::new(7);
    let mut short = |seed| {
        let events = random.between(SHORT_EVENTS.0, SHORT_EVENTS.1) as usize;
        let wish = Wish {
            boards: None,
            events: Some(events),
        };
        file(Kind::Living, seed, wish)
    };
    (0..SHORT_FILES).map(&mut short).collect()
}

/// The first full stubborn file of seven boards, at least five of them sound, of whose events
/// most are accepted and in which openings were read in many rounds.
pub fn long_file() -> Vec<u8> {
    let wish = Wish {
        boards: Some(BOARDS as u8),
        events: Some(EVENTS),
    };
    let mut files = (0..200).map(|seed| file(Kind::Stubborn, seed, wish));
    let long = files.find(|file| accepted(file) * 4 >= EVENTS * 3 && is_busy(file));
    long.expect("some file is busy enough")
}

/// Whether five boards or more are sound, and ballots with a value are delivered often.
fn is_busy(file: &[u8]) -> bool {
    let Ok(opened) = crate::file::open(file) else {
        return false;
    };
    let ballots = opened
        .events()
        .filter(|e| e.kind == DELIVER && e.id % 2 == 0 && e.value != 0);
    opened.faulty.count() <= 2 && ballots.count() >= 500
}

/// How many events of a file are accepted; 0 for a file that is refused.
fn accepted(file: &[u8]) -> usize {
    answers(file).iter().filter(|&&answer| answer == 0).count()
}

fn answers(file: &[u8]) -> Vec<u8> {
    let Ok(opened) = crate::file::open(file) else {
        return Vec::new();
    };
    let mut bench = opened.bench();
    opened.events().map(|e| bench.event(e).answer).collect()
}

/// An event that is repeated at a round, and the answer that it should have.
struct Probe {
    name: &'static str,
    answer: u8,
    prepare: fn(u8) -> Script,
    event: fn(u8) -> Event,
}

const PROBES: [Probe; 5] = [
    Probe {
        name: "a turn that waits at stage B",
        answer: 22,
        prepare: waiting_at_b,
        event: |_| Event::turn(PROBED),
    },
    Probe {
        name: "a turn that waits at stage C",
        answer: 22,
        prepare: waiting_at_c,
        event: |_| Event::turn(PROBED),
    },
    Probe {
        name: "an announcement answered 21",
        answer: 21,
        prepare: waiting_at_c,
        event: |round| Event::announce(PROBED, ANNOUNCER, round, opening_value(round)),
    },
    Probe {
        name: "a delivery answered 19",
        answer: 19,
        prepare: waiting_at_c,
        event: |round| {
            let id = opening_of(round);
            Event::deliver(PROBED, coordinator(round), id, opening_value(round))
        },
    },
    Probe {
        name: "a suspicion answered 0",
        answer: 0,
        prepare: waiting_at_c,
        event: |_| Event::suspect(PROBED, ANNOUNCER),
    },
];

fn probe_case(probe: &Probe, round: u8) -> Case {
    let mut schedule = (probe.prepare)(round).finish();
    let without = schedule.to_bytes();
    append(&mut schedule, &[(probe.event)(round); APPENDED]);
    let with = schedule.to_bytes();
    assert!(answers(&with).ends_with(&[probe.answer; APPENDED]));
    let name = format!("{}, round {round}", probe.name);
    Case::of_last(name, APPENDED, with, without)
}

fn append(schedule: &mut Schedule, events: &[Event]) {
    schedule.events.extend(events);
    assert!(schedule.events.len() <= EVENTS, "the history is too long");
}

/// How a round ends: a turn of each board that is made once, since it changes the board.
struct End {
    name: &'static str,
    prepare: fn(u8) -> Script,
}

const ENDS: [End; 2] = [
    End {
        name: "a turn that decides",
        prepare: deciding,
    },
    End {
        name: "a turn that goes on to the next round",
        prepare: going_on,
    },
];

fn end_case(end: &End, round: u8) -> Case {
    let mut schedule = (end.prepare)(round).finish();
    let without = schedule.to_bytes();
    let turns: Vec<Event> = everyone().map(Event::turn).collect();
    append(&mut schedule, &turns);
    let with = schedule.to_bytes();
    assert!(answers(&with).ends_with(&[0; BOARDS]));
    let name = format!("{}, round {round}", end.name);
    Case {
        times: PLAYED / schedule.events.len(),
        ..Case::of_last(name, turns.len(), with, without)
    }
}

#[cfg(test)]
mod tests {
    use super::*;
    use crate::board::{Stage, Status};

    /// Each appended event has the answer that it is timed for, at the round it is timed for.
    #[test]
    fn probes_are_answered_as_meant() {
        for probe in PROBES {
            for round in ROUNDS_SEEN {
                let case = probe_case(&probe, round);
                let answers = answers(&case.with[0]);
                let appended = &answers[answers.len() - APPENDED..];
                assert!(appended.iter().all(|&answer| answer == probe.answer));
                let before = &answers[..answers.len() - APPENDED];
                assert!(before.iter().all(|&answer| answer == 0), "{}", case.name);
                let bench = (probe.prepare)(round).bench;
                assert_eq!(bench.board(PROBED).round, round);
            }
        }
    }

    /// Each turn that ends a round is answered 0, and ends it as it is timed for.
    #[test]
    fn ends_are_as_meant() {
        for round in ROUNDS_SEEN {
            let (mut deciding, mut going_on) = (deciding(round).bench, going_on(round).bench);
            for a in everyone() {
                let effect = deciding.event(Event::turn(a));
                assert_eq!(effect.decided, Some((round, opening_value(round))));
                let before = going_on.board(a);
                assert_eq!((before.round, before.stage), (round, Stage::C));
                assert_eq!(going_on.event(Event::turn(a)).answer, 0);
                let after = going_on.board(a);
                assert_eq!((after.round, after.status), (round + 1, Status::Voting));
                assert_eq!(after.estimate, opening_value(round));
            }
            for end in &ENDS {
                let case = end_case(end, round);
                assert_eq!(
                    answers(&case.with[0])[..],
                    [0; EVENTS][..count(&case.with[0])]
                );
                assert_eq!(count(&case.with[0]), count(&case.without[0]) + BOARDS);
                assert_eq!(case.units, BOARDS);
            }
        }
    }

    fn count(file: &[u8]) -> usize {
        answers(file).len()
    }

    #[test]
    fn files_are_good() {
        let cases = all();
        assert_eq!(cases.len(), 18);
        assert_eq!(cases[0].with.len() as u64, SHORT_FILES);
        for case in &cases {
            assert!(case.with.iter().all(|file| !answers(file).is_empty()));
            assert!(case.units > 0 && case.times > 0, "{}", case.name);
        }
    }
}
