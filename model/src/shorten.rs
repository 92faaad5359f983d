//! Makes a file that fails a trial as short and as plain as it can be while it still fails.

use crate::file::Schedule;

/// Asks whether a file still fails.
type Fails<'a> = &'a mut dyn FnMut(&[u8]) -> bool;

/// A file from which nothing more can be taken; the file itself if it does not fail.
pub fn shorten(file: &[u8], fails: Fails) -> Vec<u8> {
    match Schedule::read(file) {
        Ok(schedule) => shorten_schedule(schedule, fails).to_bytes(),
        Err(_) => without_parts(file.to_vec(), &mut |bytes| fails(bytes)),
    }
}

fn shorten_schedule(mut schedule: Schedule, fails: Fails) -> Schedule {
    loop {
        let before = schedule.clone();
        let (n, faulty) = (schedule.n, schedule.faulty);
        schedule.events = without_parts(schedule.events, &mut |events| {
            let events = events.to_vec();
            fails(&Schedule { n, faulty, events }.to_bytes())
        });
        drop_faults(&mut schedule, fails);
        drop_boards(&mut schedule, fails);
        lower_values(&mut schedule, fails);
        if schedule == before {
            return schedule;
        }
    }
}

/// Takes parts out of a list while it still fails: halves first, single items last.
fn without_parts<T: Clone>(mut list: Vec<T>, fails: &mut dyn FnMut(&[T]) -> bool) -> Vec<T> {
    let mut part = list.len();
    while part > 0 {
        let mut end = list.len();
        while end > 0 {
            let start = end.saturating_sub(part);
            let shorter = [&list[..start], &list[end..]].concat();
            if fails(&shorter) {
                list = shorter;
            }
            end = start;
        }
        part /= 2;
    }
    list
}

/// Takes the changed schedule over if it still fails.
fn try_change(schedule: &mut Schedule, fails: Fails, change: impl FnOnce(&mut Schedule)) -> bool {
    let mut changed = schedule.clone();
    change(&mut changed);
    let kept = changed != *schedule && fails(&changed.to_bytes());
    if kept {
        *schedule = changed;
    }
    kept
}

/// Marks faulty boards as sound where that does not matter.
fn drop_faults(schedule: &mut Schedule, fails: Fails) {
    for k in schedule.faulty.iter() {
        try_change(schedule, fails, |changed| {
            changed.faulty = changed.faulty.without(k)
        });
    }
}

/// Leaves out the last board where that does not matter.
fn drop_boards(schedule: &mut Schedule, fails: Fails) {
    while schedule.n > 1 {
        let dropped = try_change(schedule, fails, |changed| {
            changed.faulty = changed.faulty.without(changed.n);
            changed.n -= 1;
        });
        if !dropped {
            return;
        }
    }
}

/// Puts the lowest values it can in place of those that are there, each wherever it stands.
fn lower_values(schedule: &mut Schedule, fails: Fails) {
    let mut values: Vec<u16> = schedule.events.iter().map(|e| e.value).collect();
    values.sort_unstable();
    values.dedup();
    for value in values {
        for low in (1..value).take(4) {
            let lowered = try_change(schedule, fails, |changed| {
                let same = changed.events.iter_mut().filter(|e| e.value == value);
                same.for_each(|e| e.value = low);
            });
            if lowered {
                break;
            }
        }
    }
}

#[cfg(test)]
mod tests {
    use super::*;
    use crate::boards::Boards;
    use crate::machine::Event;

    /// Fails while two given events stand in this order and there are three boards.
    #[test]
    fn only_what_matters_is_left() {
        let noise = (0..200).map(|i| Event::new(2, i as u8, 0, 0, 40_000 + i));
        let mut events: Vec<_> = noise.collect();
        events[31] = Event::propose(1, 3_000);
        events[170] = Event::turn(1);
        let long = Schedule {
            n: 7,
            faulty: Boards(0b110),
            events,
        };
        let mut tries = 0;
        let short = shorten(&long.to_bytes(), &mut |file| {
            tries += 1;
            let Schedule { n, events, .. } = Schedule::read(file).expect("a schedule stays one");
            let first = events.iter().position(|e| e.kind == 1);
            let second = events.iter().position(|e| *e == Event::turn(1));
            n >= 3 && first.is_some() && second > first
        });
        let short = Schedule::read(&short).expect("a schedule stays one");
        assert_eq!(short.events, [Event::propose(1, 1), Event::turn(1)]);
        assert_eq!((short.n, short.faulty), (3, Boards::NONE));
        assert!(tries < 500, "{tries}");
    }

    #[test]
    fn a_file_that_is_refused_loses_bytes() {
        let short = shorten(&[9, 1, 2, 3, 4, 5, 6, 7], &mut |file| file.contains(&5));
        assert_eq!(short, [5]);
    }

    #[test]
    fn what_does_not_fail_stays() {
        let file = [1, 0, 0, 1, 1, 1, 0, 0, 0, 9];
        assert_eq!(shorten(&file, &mut |_| false), file);
    }
}
