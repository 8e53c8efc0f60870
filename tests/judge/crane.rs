//! RULES 18: the crane plan with its runs P1 to P12, those in which a lock is taken
//! again, and the values that are given for them; and the mistakes that are close at
//! hand, each of which must show on the run that is meant to show it. They are the
//! second protocol's where nothing else is said; every row by both protocols is in
//! `tests/cases/runs.txt`.

use crate::draft::Draft;
use crate::eager::Eager;
use crate::event::Event::{self, Acquire, Finish, Release, Tick, Unlock, Work};
use crate::lazy::{Lazy, Word};
use crate::plan::{Lock, Plan, MOST_ACCEPTED};
use crate::protocol::{ByProtocol, Protocol, PROTOCOLS};
use crate::replay::{replay, Answer};
use crate::report;
use crate::wrong::Wrong;

/// Four tasks and two locks: task 0 shares lock 0 with task 2 and lock 1 with
/// task 1; task 3 uses none. Lock 0 raises task 0 to its maximum.
pub fn plan() -> Plan {
    Plan {
        bases: vec![1, 3, 5, 7],
        maxima: vec![5, 5, 5, 7],
        locks: vec![
            Lock {
                ceiling: 5,
                limit: 4,
            },
            Lock {
                ceiling: 3,
                limit: 10,
            },
        ],
        uses: vec![(0, 0), (0, 1), (1, 1), (2, 0)],
    }
}

/// The twelve runs; P11 is about the plan alone and has the empty list.
#[rustfmt::skip]
pub const RUNS: [(&str, &[Event]); 12] = [
    ("P1", &[Release(0), Acquire(0), Release(1), Work(2), Unlock(0), Finish, Finish]),
    ("P2", &[Release(0), Acquire(1), Acquire(0), Release(1), Unlock(0), Unlock(1)]),
    ("P3", &[Release(0), Acquire(0), Release(2), Unlock(0)]),
    ("P4", &[Release(0), Acquire(0), Release(2), Release(3), Finish]),
    ("P5", &[Release(0), Acquire(0), Work(4), Work(1)]),
    ("P6", &[Release(0), Acquire(1), Acquire(0), Unlock(1)]),
    ("P7", &[Release(0), Acquire(0), Finish]),
    ("P8", &[Release(0), Release(0)]),
    ("P9", &[Release(1), Acquire(0)]),
    ("P10", &[]),
    ("P11", &[]),
    ("P12", &[Release(0), Acquire(1), Release(1), Work(10), Work(1)]),
];

/// RULES 18.12: the runs in which a lock is taken again.
#[rustfmt::skip]
pub const TAKEN_AGAIN: [(&str, &[Event]); 7] = [
    ("T1", &[
        Release(0), Acquire(0), Work(1), Acquire(0), Release(2), Work(2), Unlock(0), Work(1), Work(1),
    ]),
    ("T2", &[
        Release(0), Acquire(0), Work(1), Acquire(0), Release(2), Work(2), Unlock(0), Work(1),
        Unlock(0), Finish,
    ]),
    ("T3", &[
        Release(0), Acquire(1), Work(3), Acquire(0), Acquire(1), Work(4), Unlock(1), Unlock(0),
        Work(3), Unlock(1), Acquire(1), Work(10),
    ]),
    ("T4", &[Release(0), Acquire(0), Acquire(0), Unlock(0), Finish]),
    ("T5", &[
        Release(0), Acquire(0), Acquire(0), Acquire(0), Acquire(0), Acquire(0), Acquire(0),
        Acquire(0), Acquire(0), Acquire(0),
    ]),
    ("T6", &[Release(0), Acquire(0), Acquire(1), Acquire(0), Unlock(1)]),
    ("T7", &[
        Release(0), Acquire(1), Acquire(0), Unlock(0), Acquire(1), Release(1), Work(10), Unlock(1),
        Unlock(1), Finish,
    ]),
];

/// RULES 18.11: the plan and the run of the paper that takes of an open lock follow.
pub fn plan_of_paper() -> Plan {
    let lock = |ceiling, limit| Lock { ceiling, limit };
    Plan {
        bases: vec![1, 2, 3],
        maxima: vec![3, 2, 3],
        locks: vec![lock(2, 4), lock(3, 2)],
        uses: vec![(0, 0), (0, 1), (1, 0), (2, 1)],
    }
}

#[rustfmt::skip]
pub const RUN_OF_PAPER: [Event; 8] = [
    Release(0), Acquire(0), Acquire(1), Acquire(0), Unlock(0), Unlock(1), Unlock(0), Finish,
];

/// What the program prints for P1, letter for letter, by the second protocol.
const P1_PRINTED: &str = "\
event running user next call
1 0 1 0 0
2 0 5 0 0
3 0 5 3 0
4 0 5 3 0
5 1 3 1 1
6 0 1 0 0
7 - 0 0 0
calls 1 2
delayed 0 2 0 0
";

/// The same by the first: the third column is the kernel word, under its old head.
/// Both releases and the finishes leave the user word there, and so does the call.
const P1_PRINTED_BY_FIRST: &str = "\
event running user next call
1 0 1 1 0
2 0 5 1 0
3 0 5 5 0
4 0 5 5 0
5 1 3 3 1
6 0 1 1 0
7 - 0 0 0
calls 1 2
delayed 0 2 0 0
";

/// Lock 1 (limit 10) with lock 0 (limit 4) three times inside it: 4, 4 and 3
/// units. The last work would bring lock 1 to 11.
#[rustfmt::skip]
pub const NEST: [Event; 10] = [
    Release(0), Acquire(1), Acquire(0), Work(4), Unlock(0),
    Acquire(0), Work(4), Unlock(0), Acquire(0), Work(3),
];

/// RULES 18.6: lock 1 (ceiling 3) inside lock 0 (ceiling 5) raises nothing, nor
/// does it raise task 1, whose base is 3.
#[rustfmt::skip]
pub const FAIR: [Event; 11] = [
    Release(0), Acquire(0), Acquire(1), Unlock(1), Tick, Unlock(0), Finish,
    Release(1), Acquire(1), Unlock(1), Finish,
];

/// So many events: P1 as often as it goes, which leaves nobody released, and
/// then ticks.
pub fn again_and_again(length: usize) -> Vec<Event> {
    let (_, p1) = RUNS[0];
    let mut events = p1.repeat(length / p1.len());
    events.resize(length, Tick);
    events
}

pub fn book(events: &[Event]) -> Vec<u8> {
    Draft::of(&plan(), events).bytes()
}

/// Collects the tests that fail, in words.
struct Tests {
    done: usize,
    failed: Vec<String>,
}

impl Tests {
    fn expect<T: PartialEq + std::fmt::Debug>(&mut self, what: &str, got: T, wanted: T) {
        self.done += 1;
        if got != wanted {
            self.failed
                .push(format!("{what}: got {got:?}, wanted {wanted:?}"));
        }
    }
}

fn answer(events: &[Event], wrong: Wrong) -> Answer {
    answers(events, wrong).second
}

fn answers(events: &[Event], wrong: Wrong) -> ByProtocol<Answer> {
    replay(&book(events), 4 * events.len(), wrong).answers
}

fn run(name: &str) -> Answer {
    answer(events_of(name), Wrong::Nothing)
}

fn events_of(name: &str) -> &'static [Event] {
    let mut all = RUNS.iter().chain(&TAKEN_AGAIN);
    let found = all.find(|(known, _)| *known == name);
    found.expect("a run of the tables").1
}

/// The row of the event at a place, from 0.
fn row(answer: &Answer, place: usize) -> [u8; 4] {
    let four = &answer.rows[4 * place..4 * place + 4];
    [four[0], four[1], four[2], four[3]]
}

/// Runs all tests of this file; the number done and those that failed.
pub fn test() -> (usize, Vec<String>) {
    let mut tests = Tests {
        done: 0,
        failed: Vec::new(),
    };
    runs_p1_to_p4(&mut tests);
    runs_p5_to_p12(&mut tests);
    eager_calls(&mut tests);
    runs_t1_to_t7(&mut tests);
    run_of_paper(&mut tests);
    for protocol in PROTOCOLS {
        single_steps(&mut tests, protocol);
    }
    wrong_ways(&mut tests);
    wrong_ways_of_takes(&mut tests);
    (tests.done, tests.failed)
}

fn runs_p1_to_p4(tests: &mut Tests) {
    let p1 = run("P1");
    let bytes = book(RUNS[0].1);
    tests.expect("P1: length of the book", bytes.len(), 84);
    tests.expect(
        "P1: the tasks, each its base and its maximum",
        bytes[32..40].to_vec(),
        vec![1, 5, 3, 5, 5, 5, 7, 7],
    );
    tests.expect("P1: nothing refused", (p1.number, p1.place), (0, 0));
    tests.expect(
        "P1: the whole report",
        report::of_answer(&p1, RUNS[0].1.len()).as_str(),
        P1_PRINTED,
    );
    let by_first = answers(RUNS[0].1, Wrong::Nothing).first;
    tests.expect(
        "P1: the whole report by the first protocol",
        report::of_answer(&by_first, RUNS[0].1.len()).as_str(),
        P1_PRINTED_BY_FIRST,
    );

    let p2 = run("P2");
    tests.expect("P2: nothing refused", p2.number, 0);
    tests.expect(
        "P2: the first unlock leaves task 0 running without a call",
        row(&p2, 4),
        [0, 3, 3, 0],
    );
    tests.expect(
        "P2: the second unlock calls, and task 1 runs",
        (row(&p2, 5)[0], row(&p2, 5)[3]),
        (1, 1),
    );
    tests.expect("P2: calls in all", (p2.lazy_calls, p2.eager_calls), (1, 4));

    let p3 = run("P3");
    tests.expect("P3: nothing refused", p3.number, 0);
    tests.expect(
        "P3: task 0 still runs, both words are 5",
        row(&p3, 2),
        [0, 5, 5, 0],
    );
    tests.expect(
        "P3: the unlock calls, and task 2 runs",
        (row(&p3, 3)[0], row(&p3, 3)[3]),
        (2, 1),
    );

    let p4 = run("P4");
    tests.expect("P4: nothing refused", p4.number, 0);
    tests.expect("P4: task 3 runs", row(&p4, 3)[0], 3);
    tests.expect("P4: after its finish task 0 goes on", row(&p4, 4)[0], 0);
}

fn runs_p5_to_p12(tests: &mut Tests) {
    let p5 = run("P5");
    tests.expect(
        "P5: the unit past the limit is refused",
        (p5.number, p5.place),
        (21, 3),
    );
    let p6 = run("P6");
    tests.expect("P6: refused", (p6.number, p6.place), (19, 3));
    let p7 = run("P7");
    tests.expect("P7: refused", (p7.number, p7.place), (22, 2));
    let p8 = run("P8");
    tests.expect("P8: refused", (p8.number, p8.place), (14, 1));
    let p9 = run("P9");
    tests.expect("P9: refused", (p9.number, p9.place), (15, 1));

    let p10 = run("P10");
    tests.expect("P10: nothing refused", (p10.number, p10.place), (0, 0));
    tests.expect("P10: no rows", p10.rows.len(), 0);
    let plan = plan();
    for protocol in PROTOCOLS {
        let fresh = Lazy::new(&plan, protocol, Wrong::Nothing);
        tests.expect("P10: nobody runs", fresh.running, None);
        tests.expect(
            "P10: both words are 0",
            (fresh.user_word, fresh.second_word),
            (Word(0), Word(0)),
        );
    }

    tests.expect("P11: bounds", run("P11").bounds, vec![0, 10, 4, 0]);

    let p12 = run("P12");
    tests.expect("P12: the delay of task 1", p12.delays[1], 10);
    tests.expect(
        "P12: the unit past the limit is refused",
        (p12.number, p12.place),
        (21, 4),
    );
}

/// RULES 18.6, and what the twelve runs come to: of acquires and unlocks only
/// those count that change the priority of their task.
fn eager_calls(tests: &mut Tests) {
    let counted = RUNS.map(|(name, _)| run(name).eager_calls);
    tests.expect(
        "eager calls of P1 to P12",
        counted,
        [2, 4, 2, 1, 1, 2, 1, 0, 0, 0, 0, 1],
    );
    let fair = answer(&FAIR, Wrong::Nothing);
    tests.expect(
        "two of six acquires and unlocks change a priority",
        (fair.number, fair.lazy_calls, fair.eager_calls),
        (0, 0, 2),
    );
    let every_lock_act = answer(&FAIR, Wrong::EveryLockAct);
    tests.expect(
        "every-lock-act: all six are calls",
        every_lock_act.eager_calls,
        6,
    );
    let acquires = answer(RUNS[0].1, Wrong::AcquiresAlone);
    tests.expect("acquires-alone: P1 has one", acquires.eager_calls, 1);
}

/// RULES 18.12: what each run comes to.
fn runs_t1_to_t7(tests: &mut Tests) {
    let t1 = run("T1");
    tests.expect(
        "T1: the unit past the limit is refused, over both takes",
        (t1.number, t1.place),
        (21, 8),
    );
    tests.expect("T1: the delay of task 2", t1.delays[2], 3);

    let t2 = run("T2");
    tests.expect("T2: nothing refused", t2.number, 0);
    tests.expect(
        "T2: the first unlock does not call, and task 0 goes on",
        row(&t2, 6),
        [0, 5, 5, 0],
    );
    tests.expect(
        "T2: the second calls, and task 2 runs",
        row(&t2, 8),
        [2, 5, 1, 1],
    );
    tests.expect("T2: the delay of task 2", t2.delays[2], 3);
    tests.expect("T2: calls in all", (t2.lazy_calls, t2.eager_calls), (1, 2));

    let t3 = run("T3");
    tests.expect("T3: nothing refused", t3.number, 0);
    tests.expect("T3: calls in all", (t3.lazy_calls, t3.eager_calls), (0, 5));

    let t4 = run("T4");
    tests.expect("T4: refused", (t4.number, t4.place), (22, 4));
    let t5 = run("T5");
    tests.expect("T5: refused", (t5.number, t5.place), (18, 9));
    tests.expect("T5: one of eight takes is a call", t5.eager_calls, 1);
    let t6 = run("T6");
    tests.expect("T6: refused", (t6.number, t6.place), (19, 4));
    let t7 = run("T7");
    tests.expect("T7: nothing refused", t7.number, 0);
    tests.expect("T7: the delay of task 1", t7.delays[1], 10);
    tests.expect("T7: calls in all", (t7.lazy_calls, t7.eager_calls), (1, 4));
}

/// RULES 18.11: task 0 runs at 1, and then at 2, 3, 3, 3, 2 and 1.
fn run_of_paper(tests: &mut Tests) {
    let plan = plan_of_paper();
    let book = Draft::of(&plan, &RUN_OF_PAPER).bytes();
    let answers = replay(&book, 4 * RUN_OF_PAPER.len(), Wrong::Nothing).answers;
    for answer in [answers.second, answers.first] {
        let ran = (0..7).map(|place| (row(&answer, place)[0], row(&answer, place)[1]));
        tests.expect(
            "the paper's run: the words of task 0",
            ran.collect::<Vec<_>>(),
            [1, 2, 3, 3, 3, 2, 1].map(|word| (0, word)).to_vec(),
        );
        tests.expect(
            "the paper's run: its end",
            (answer.number, answer.lazy_calls, answer.eager_calls),
            (0, 0, 4),
        );
        tests.expect("the paper's run: nobody waits", answer.delays, vec![0; 3]);
        tests.expect("the paper's run: bounds", answer.bounds, vec![0, 4, 2]);
    }
}

/// What no book can show: 11, 20, and the order of 11 before 20 before 12.
fn single_steps(tests: &mut Tests, protocol: Protocol) {
    let plan = plan();
    let mut eager = Eager::new(&plan, Wrong::Nothing);
    let mut lazy = Lazy::new(&plan, protocol, Wrong::Nothing);
    tests.expect(
        "eager: work of 0 is 20, before 12",
        eager.step(Work(0)),
        Err(20),
    );
    tests.expect(
        "lazy: work of 0 is 20, before 12",
        lazy.step(Work(0)),
        Err(20),
    );
    tests.expect(
        "eager: work with nobody running is 12",
        eager.step(Work(1)),
        Err(12),
    );
    tests.expect(
        "lazy: work with nobody running is 12",
        lazy.step(Work(1)),
        Err(12),
    );
    let mut accepted = 0;
    while eager.step(Tick).is_ok() && lazy.step(Tick).is_ok() {
        accepted += 1;
    }
    tests.expect("so many ticks are accepted", accepted, MOST_ACCEPTED);
    tests.expect("eager: then work of 0 is 11", eager.step(Work(0)), Err(11));
    tests.expect("lazy: then a tick is 11", lazy.step(Tick), Err(11));
    tests.expect("lazy: then work of 0 is 11", lazy.step(Work(0)), Err(11));
}

/// RULES 18.4: each of the four mistakes, on the run that is meant to show it.
fn wrong_ways(tests: &mut Tests) {
    let p2 = RUNS[1].1;
    let p4 = RUNS[3].1;

    // Task 2 runs while task 0 has lock 0 open, and its acquire meets 17.
    let mut p4_and_acquire = p4.to_vec();
    p4_and_acquire.push(Acquire(0));
    let tail = answer(&p4_and_acquire, Wrong::Tail);
    tests.expect("tail: P4's finish lets 2 run", row(&tail, 4)[0], 2);
    tests.expect(
        "tail: lock 0 is open for another",
        (tail.number, tail.place),
        (17, 5),
    );

    // The first unlock of P2 calls too.
    let at_or_above = answer(p2, Wrong::AtOrAbove);
    tests.expect("at-or-above: P2 calls twice", at_or_above.lazy_calls, 2);

    // The first unlock of P2 switches, though lock 1 is still open.
    let base = answer(p2, Wrong::Base);
    tests.expect(
        "base: P2 switches one unlock too early",
        row(&base, 4)[0],
        1,
    );

    // The outer section of a nest gets past its limit.
    let nest = answer(&NEST, Wrong::Nothing);
    tests.expect(
        "nest: 21 at its last work",
        (nest.number, nest.place),
        (21, 9),
    );
    let newest = answer(&NEST, Wrong::Newest);
    tests.expect("newest: the nest's last work is accepted", newest.number, 0);
}

/// RULES 18.12: each of the four mistakes there, on the run that is meant to show it.
fn wrong_ways_of_takes(tests: &mut Tests) {
    let (t1, t5) = (events_of("T1"), events_of("T5"));

    let units = answer(t1, Wrong::UnitsAtFirstReturn);
    tests.expect(
        "units-at-first-return: T1 goes on past the limit",
        units.number,
        0,
    );
    let charged = answer(t1, Wrong::ChargedByTake);
    tests.expect(
        "charged-by-take: T1's second work is refused",
        (charged.number, charged.place),
        (21, 5),
    );
    let counted = answer(t5, Wrong::LocksCounted);
    tests.expect("locks-counted: T5 goes on", counted.number, 0);

    // After T2's first unlock the lock is free, though task 0 has a take of it left.
    let plan = plan();
    let free_after_first = |wrong| {
        let mut lazy = Lazy::new(&plan, Protocol::Second, wrong);
        let accepted = events_of("T2")[..7].iter();
        let is_whole = accepted.map(|event| lazy.step(*event)).all(|it| it.is_ok());
        (is_whole, lazy.sections[0].holder)
    };
    let right = free_after_first(Wrong::Nothing);
    tests.expect("T2: lock 0 is still task 0's", right, (true, Some(0)));
    let wrong = free_after_first(Wrong::OwnerAtFirstReturn);
    tests.expect("owner-at-first-return: it is free", wrong, (true, None));
}
