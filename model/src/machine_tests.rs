//! The table of answers, its order, and the rules of the vote, on small benches.

use super::*;

/// Plays events that are all accepted.
fn after(n: u8, faulty: u8, events: &[Event]) -> Bench {
    let mut bench = Bench::new(n, Boards(faulty));
    accept(&mut bench, events);
    bench
}

fn accept(bench: &mut Bench, events: &[Event]) {
    for &e in events {
        assert_eq!(bench.event(e).answer, 0, "{e:?}");
    }
}

/// The answer to an event. If it is refused, the bench must be as it was.
fn answer(bench: &Bench, e: Event) -> u8 {
    let mut changed = bench.clone();
    let effect = changed.event(e);
    if effect.answer != 0 {
        assert!(changed == *bench, "{e:?} was refused and changed the bench");
        assert_eq!((effect.signed, effect.decided), (None, None));
    }
    effect.answer
}

fn with_b(e: Event, b: u8) -> Event {
    Event { b, ..e }
}

fn with_id(e: Event, id: u8) -> Event {
    Event { id, ..e }
}

fn with_value(e: Event, value: u16) -> Event {
    Event { value, ..e }
}

fn turn(a: u8) -> Event {
    Event::turn(a)
}

fn deliver(to: u8, speaker: u8, id: u8, value: u16) -> Event {
    Event::deliver(to, speaker, id, value)
}

fn announce(to: u8, by: u8, round: u8, value: u16) -> Event {
    Event::announce(to, by, round, value)
}

/// Four boards: 1 decided 700 in round 1, 2 waits at stage C of round 1 with its own ballot for
/// 700, 3 has not started, and 4 is faulty and has voted for 700.
fn mixed() -> Bench {
    after(
        4,
        0b1000,
        &[
            Event::propose(1, 700),
            Event::propose(2, 600),
            turn(1),
            turn(2),
            deliver(2, 1, 1, 700),
            turn(1),
            turn(2),
            Event::sign(4, 2, 700),
            deliver(1, 2, 2, 700),
            deliver(1, 4, 2, 700),
            Event::suspect(1, 3),
            turn(1),
        ],
    )
}

/// Asks the mixed bench for its answers to these events.
fn expect(answers: &[(u8, &[Event])]) {
    let bench = mixed();
    for &(expected, events) in answers {
        for &e in events {
            assert_eq!(answer(&bench, e), expected, "{e:?}");
        }
    }
}

#[test]
fn answers_to_what_is_no_kind() {
    let kinds = [0, 8, 9, 255].map(|kind| Event::new(kind, 1, 0, 0, 0));
    expect(&[(10, &kinds)]);
}

#[test]
fn answers_to_proposals() {
    let propose = Event::propose;
    let good = propose(3, 5);
    expect(&[
        (0, &[good, propose(3, u16::MAX)]),
        (11, &[propose(0, 5), propose(5, 5), propose(255, 5)]),
        (12, &[propose(3, 0), with_b(good, 1), with_id(good, 1)]),
        (13, &[propose(4, 5)]),
        (15, &[propose(1, 5), propose(2, 600)]),
    ]);
}

#[test]
fn answers_to_turns() {
    let good = turn(2);
    expect(&[
        (11, &[turn(0), turn(5)]),
        (
            12,
            &[with_b(good, 1), with_id(good, 1), with_value(good, 1)],
        ),
        (13, &[turn(4)]),
        (15, &[turn(3)]),
        (16, &[turn(1)]),
        (22, &[turn(2)]),
    ]);
}

#[test]
fn answers_to_deliveries() {
    let good = deliver(3, 1, 1, 700);
    expect(&[
        (0, &[good, deliver(2, 4, 2, 700), deliver(2, 1, 2, 700)]),
        (11, &[deliver(0, 1, 1, 700), deliver(5, 1, 1, 700)]),
        (11, &[with_b(good, 0), with_b(good, 5)]),
        (
            12,
            &[with_id(good, 0), with_id(good, 65), with_id(good, 255)],
        ),
        (13, &[deliver(4, 1, 1, 700), deliver(4, 4, 2, 700)]),
        (
            17,
            &[with_value(good, 701), with_value(good, 0), with_b(good, 4)],
        ),
        (
            17,
            &[
                deliver(3, 1, 64, 0),
                deliver(3, 3, 1, 700),
                deliver(2, 1, 1, 0),
            ],
        ),
        (
            19,
            &[
                deliver(2, 1, 1, 700),
                deliver(1, 1, 1, 700),
                deliver(1, 4, 2, 700),
            ],
        ),
    ]);
}

#[test]
fn answers_to_announcements() {
    let good = announce(2, 1, 1, 700);
    expect(&[
        (11, &[announce(0, 1, 1, 700), announce(5, 1, 1, 700)]),
        (11, &[with_b(good, 0), with_b(good, 5)]),
        (
            12,
            &[with_id(good, 0), with_id(good, 33), with_value(good, 0)],
        ),
        (13, &[announce(4, 1, 1, 700)]),
        (14, &[announce(2, 2, 1, 700)]),
        (15, &[announce(3, 1, 1, 700)]),
        (16, &[announce(1, 4, 1, 700)]),
        (
            20,
            &[with_id(good, 2), with_value(good, 701), with_b(good, 3)],
        ),
        (21, &[good, announce(2, 4, 1, 700), announce(2, 4, 32, 5)]),
    ]);
}

#[test]
fn answers_to_suspicions() {
    for kind in [SUSPECT, TRUST] {
        let said = |a, b| Event::new(kind, a, b, 0, 0);
        expect(&[
            (0, &[said(1, 2), said(2, 4), said(3, 1)]),
            (11, &[said(0, 1), said(5, 1), said(1, 0), said(1, 5)]),
            (12, &[with_id(said(1, 2), 1), with_value(said(1, 2), 1)]),
            (13, &[said(4, 1)]),
            (14, &[said(1, 1), said(3, 3)]),
        ]);
    }
}

#[test]
fn answers_to_signatures() {
    let sign = Event::sign;
    expect(&[
        (0, &[sign(4, 3, 0), sign(4, 64, 65_535)]),
        (11, &[sign(0, 3, 5), sign(5, 3, 5)]),
        (
            12,
            &[sign(4, 0, 5), sign(4, 65, 5), with_b(sign(4, 3, 5), 1)],
        ),
        (13, &[sign(1, 3, 5), sign(3, 3, 5)]),
        (18, &[sign(4, 2, 5), sign(4, 1, 700), sign(4, 2, 700)]),
    ]);
}

/// Where several rows of the table apply, the first of them answers. Here it is one about the
/// fields alone, and the later rows that apply too are named beside it.
#[test]
fn the_order_of_the_rows_about_fields() {
    let (suspect, sign) = (Event::suspect, Event::sign);
    expect(&[
        // Every other field is out of bounds too.
        (10, &[Event::new(8, 9, 9, 99, 0)]),
        // 12, 13 or 14.
        (
            11,
            &[Event::propose(9, 0), deliver(9, 1, 65, 0), suspect(9, 9)],
        ),
        (
            11,
            &[
                suspect(4, 9),
                announce(4, 9, 33, 0),
                with_b(sign(0, 0, 0), 1),
            ],
        ),
        // 13.
        (
            12,
            &[Event::propose(4, 0), deliver(4, 1, 0, 700), sign(1, 0, 5)],
        ),
        // 14.
        (12, &[with_id(suspect(2, 2), 1), announce(1, 1, 0, 700)]),
        // 15, 16 and 22.
        (12, &[Event::propose(1, 0), with_value(turn(3), 1)]),
        (12, &[with_value(turn(1), 1), with_id(turn(2), 1)]),
        // 17, 18, 20 and 21.
        (12, &[deliver(3, 1, 65, 9), sign(4, 0, 5)]),
        (12, &[announce(2, 3, 33, 5), announce(2, 4, 1, 0)]),
    ]);
}

/// The same where the first row that applies is about the marks or the state.
#[test]
fn the_order_of_the_rows_about_boards() {
    expect(&[
        // 14, 15, 17, 18 and 20.
        (13, &[Event::suspect(4, 4), announce(4, 4, 1, 700), turn(4)]),
        (
            13,
            &[
                deliver(4, 1, 1, 9),
                Event::sign(1, 1, 5),
                announce(4, 3, 1, 700),
            ],
        ),
        // 15, 16, 20 and 21.
        (
            14,
            &[
                announce(3, 3, 1, 700),
                announce(1, 1, 1, 701),
                announce(2, 2, 1, 700),
            ],
        ),
        // 20 and 21.
        (15, &[announce(3, 2, 1, 700), announce(3, 4, 1, 700)]),
        (16, &[announce(1, 2, 1, 700), announce(1, 4, 9, 9)]),
        // 21.
        (20, &[announce(2, 3, 1, 700), announce(2, 1, 1, 701)]),
    ]);
}

#[test]
fn a_fresh_bench_by_call() {
    let alone = Bench::new(1, Boards::NONE);
    for n in [0, 8, 255] {
        assert_eq!(Bench::fresh(n, &[0; 7]), (2, alone.clone()));
        assert_eq!(Bench::fresh(n, &[9; 7]), (2, alone.clone()));
    }
    assert_eq!(Bench::fresh(3, &[0, 1, 2, 0, 0, 0, 0]), (3, alone.clone()));
    assert_eq!(
        Bench::fresh(2, &[0, 1, 2, 9, 9, 9, 9]),
        (0, Bench::new(2, Boards(2)))
    );
    assert_eq!(Bench::fresh(7, &[1; 7]).1.sound(), Boards::NONE);
}

/// The copies that are owed, as they come and go.
#[test]
fn copies_are_owed_and_echoed() {
    let mut bench = after(4, 0b1000, &[Event::propose(1, 7), turn(1)]);
    assert_eq!(bench.owed(1, 1), Boards(0b0110));
    accept(&mut bench, &[deliver(2, 1, 1, 7)]);
    assert_eq!(bench.owed(1, 1), Boards(0b0100));
    accept(&mut bench, &[Event::sign(4, 1, 0)]);
    assert_eq!(bench.owed(4, 1), Boards::NONE);
    accept(&mut bench, &[deliver(3, 4, 1, 0)]);
    assert_eq!(bench.owed(4, 1), Boards(0b0011));
    accept(
        &mut bench,
        &[
            deliver(1, 4, 1, 0),
            deliver(2, 4, 1, 0),
            deliver(3, 1, 1, 7),
        ],
    );
    assert_eq!(
        (bench.owed(4, 1), bench.owed(1, 1)),
        (Boards::NONE, Boards::NONE)
    );
}

#[test]
fn a_decided_board_still_echoes() {
    let mut bench = mixed();
    accept(&mut bench, &[Event::sign(4, 9, 3), deliver(1, 4, 9, 3)]);
    assert_eq!(bench.owed(4, 9), Boards(0b0110));
    assert_eq!(bench.board(1).delivered.get(4, 9), Some(3));
}

/// What a turn signed or decided is handed back.
#[test]
fn turns_hand_back_what_they_did() {
    let mut bench = after(1, 0, &[Event::propose(1, 9)]);
    let effects: Vec<_> = (0..3).map(|_| bench.event(turn(1))).collect();
    assert_eq!(effects[0].signed, Some((1, 9)));
    assert_eq!(effects[1].signed, Some((2, 9)));
    assert_eq!(
        (effects[2].signed, effects[2].decided),
        (None, Some((1, 9)))
    );
}

#[test]
fn stage_b_waits_for_the_opening_or_a_suspicion() {
    let bench = after(3, 0, &[Event::propose(2, 5), turn(2)]);
    assert_eq!(answer(&bench, turn(2)), 22);
    let mut suspecting = bench.clone();
    accept(&mut suspecting, &[Event::suspect(2, 1)]);
    assert_eq!(suspecting.event(turn(2)).signed, Some((2, 0)));
    let mut trusting = bench.clone();
    accept(&mut trusting, &[Event::suspect(2, 1), Event::trust(2, 1)]);
    assert_eq!(answer(&trusting, turn(2)), 22);
}

/// A suspected coordinator's opening counts all the same, if it is there.
#[test]
fn an_opening_counts_though_its_board_is_suspected() {
    let mut bench = after(
        3,
        0,
        &[
            Event::propose(1, 7),
            Event::propose(2, 5),
            turn(1),
            turn(2),
            Event::suspect(2, 1),
            deliver(2, 1, 1, 7),
        ],
    );
    assert_eq!(bench.event(turn(2)).signed, Some((2, 7)));
}

/// Enough ballots do not end a round while a silent board is not suspected.
#[test]
fn stage_c_waits_for_the_unsuspected() {
    let bench = mixed();
    let mut ready = bench.clone();
    accept(&mut ready, &[deliver(2, 1, 2, 700), deliver(2, 4, 2, 700)]);
    assert_eq!(answer(&ready, turn(2)), 22);
    accept(&mut ready, &[Event::suspect(2, 3)]);
    assert_eq!(ready.event(turn(2)).decided, Some((1, 700)));
    let mut lonely = bench;
    accept(
        &mut lonely,
        &[
            Event::suspect(2, 1),
            Event::suspect(2, 3),
            Event::suspect(2, 4),
        ],
    );
    assert_eq!(answer(&lonely, turn(2)), 22);
}

/// With four boards two ballots carry a value on, and one does not.
#[test]
fn estimates_follow_enough_ballots() {
    for (last_ballot, estimate) in [(7, 7), (0, 5)] {
        let mut bench = after(
            4,
            0b1101,
            &[
                Event::propose(2, 5),
                Event::sign(1, 1, 7),
                Event::sign(1, 2, 7),
                Event::sign(3, 2, last_ballot),
                turn(2),
                Event::suspect(2, 1),
                Event::suspect(2, 4),
                turn(2),
                deliver(2, 1, 1, 7),
                deliver(2, 1, 2, 7),
                deliver(2, 3, 2, last_ballot),
            ],
        );
        accept(&mut bench, &[turn(2)]);
        let board = bench.board(2);
        assert_eq!(
            (board.round, board.stage, board.estimate),
            (2, Stage::A, estimate)
        );
    }
}

/// A board of three that goes through all rounds; the ballot of board 2 in round 1 stays away.
fn spent() -> Bench {
    let mut bench = after(
        3,
        0b110,
        &[
            Event::propose(1, 700),
            Event::suspect(1, 2),
            Event::suspect(1, 3),
            Event::sign(2, 2, 700),
        ],
    );
    for round in 1..=ROUNDS as u8 {
        let id = ballot_of(round);
        assert_eq!(bench.board(1).round, round);
        accept(
            &mut bench,
            &[
                Event::sign(3, id, 0),
                deliver(1, 3, id, 0),
                turn(1),
                turn(1),
                turn(1),
            ],
        );
    }
    bench
}

#[test]
fn a_board_is_spent_after_the_last_round() {
    let bench = spent();
    let board = bench.board(1);
    assert_eq!((board.status, board.round), (Status::Spent, ROUNDS as u8));
    assert_eq!((board.stage, board.estimate), (Stage::C, 700));
    assert_eq!(answer(&bench, turn(1)), 16);
    assert_eq!(answer(&bench, Event::propose(1, 5)), 15);
    assert_eq!(answer(&bench, announce(1, 2, 1, 700)), 21);
    assert_eq!(bench.signer(1).last(), 64);
}

#[test]
fn a_spent_board_decides_by_announcement() {
    let mut bench = spent();
    accept(&mut bench, &[deliver(1, 2, 2, 700), announce(1, 3, 1, 700)]);
    let board = bench.board(1);
    let decided = Status::Decided {
        round: 1,
        value: 700,
    };
    assert_eq!((board.status, board.round), (decided, ROUNDS as u8));
    assert_eq!((board.stage, board.estimate), (Stage::C, 700));
    assert_eq!(answer(&bench, announce(1, 2, 1, 700)), 16);
    assert_eq!(answer(&bench, turn(1)), 16);
}

/// In the last round, too, the estimate follows the ballots. All rounds before it are open, so
/// that board 2 may open the last one with 8; its ballot comes after board 1 has voted blank.
#[test]
fn the_last_round_still_moves_the_estimate() {
    let suspicions = [Event::suspect(1, 2), Event::suspect(1, 3)];
    let mut bench = after(3, 0b110, &[Event::propose(1, 5)]);
    accept(&mut bench, &suspicions);
    for round in 1..=ROUNDS as u8 {
        let id = ballot_of(round);
        let last = round as usize == ROUNDS;
        accept(&mut bench, &[turn(1), turn(1)]);
        if last {
            accept(
                &mut bench,
                &[Event::sign(2, id - 1, 8), deliver(1, 2, id - 1, 8)],
            );
        }
        let vote = if last { 8 } else { 0 };
        accept(
            &mut bench,
            &[Event::sign(2, id, vote), Event::sign(3, id, 0)],
        );
        accept(
            &mut bench,
            &[deliver(1, 2, id, vote), deliver(1, 3, id, 0), turn(1)],
        );
    }
    let board = bench.board(1);
    assert_eq!((board.status, board.estimate), (Status::Spent, 8));
}

/// Board 2 has the estimate 600 and the stage of its ballot when it learns of the decision.
#[test]
fn a_decided_board_keeps_round_estimate_and_stage() {
    let mut bench = mixed();
    accept(&mut bench, &[deliver(2, 1, 2, 700), deliver(2, 4, 2, 700)]);
    accept(&mut bench, &[announce(2, 1, 1, 700)]);
    let board = bench.board(2);
    let decided = Status::Decided {
        round: 1,
        value: 700,
    };
    assert_eq!((board.status, board.estimate), (decided, 600));
    assert_eq!((board.round, board.stage), (1, Stage::C));
    let own = bench.board(1);
    assert_eq!((own.round, own.stage, own.estimate), (1, Stage::C, 700));
}

/// An announcement may be of a round that the board has not come to.
#[test]
fn a_decision_is_in_the_round_announced() {
    let mut bench = after(3, 0b011, &[Event::propose(3, 5)]);
    for a in [1, 2] {
        accept(&mut bench, &[Event::sign(a, 2, 0), deliver(3, a, 2, 0)]);
    }
    accept(
        &mut bench,
        &[
            Event::sign(2, 3, 9),
            Event::sign(1, 4, 9),
            Event::sign(2, 4, 9),
        ],
    );
    accept(&mut bench, &[deliver(3, 1, 4, 9), deliver(3, 2, 4, 9)]);
    assert_eq!(
        answer(&bench, announce(3, 1, 2, 9)),
        21,
        "the opening is not there yet"
    );
    accept(&mut bench, &[deliver(3, 2, 3, 9)]);
    assert_eq!(answer(&bench, announce(3, 1, 1, 9)), 21);
    assert_eq!(bench.event(announce(3, 1, 2, 9)).decided, Some((2, 9)));
    let board = bench.board(3);
    assert_eq!(board.status, Status::Decided { round: 2, value: 9 });
    assert_eq!((board.round, board.estimate, board.stage), (1, 5, Stage::A));
}

/// The answer 20 is for sound announcers alone; a faulty one may say what it likes.
#[test]
fn a_faulty_board_may_announce() {
    let mut bench = mixed();
    accept(&mut bench, &[deliver(2, 1, 2, 700), deliver(2, 4, 2, 700)]);
    assert_eq!(answer(&bench, announce(2, 3, 1, 700)), 20);
    assert_eq!(answer(&bench, announce(2, 4, 1, 700)), 0);
    assert_eq!(answer(&bench, announce(2, 1, 1, 700)), 0);
}

/// Suspicions are kept from before the start, and saying one again changes nothing.
#[test]
fn suspicions_repeat_and_outlast_the_start() {
    let mut bench = after(
        3,
        0,
        &[
            Event::suspect(2, 1),
            Event::suspect(2, 3),
            Event::trust(2, 3),
        ],
    );
    let before = bench.clone();
    accept(&mut bench, &[Event::suspect(2, 1), Event::trust(2, 3)]);
    assert!(bench == before);
    accept(&mut bench, &[Event::propose(2, 5)]);
    assert_eq!(bench.board(2).suspected, Boards(1));
}
