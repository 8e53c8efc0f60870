//! Set pieces: books at the edges of the rules, each with the number and place
//! that the rules give, worked out by hand. They test the judge itself, and
//! they are among the first books that a program is sent.

use crate::book::CONTENTS_BYTES;
use crate::crane;
use crate::draft::Draft;
use crate::event::Event::{self, Acquire, Finish, Release, Tick, Unlock, Work};
use crate::generate::Case;
use crate::plan::{
    Lock, Plan, MOST_EVENTS, MOST_LOCKS, MOST_TAKES, MOST_TASKS, MOST_UNITS, MOST_USES, NOBODY,
};
use crate::wire::MOST_BYTES;

pub struct SetPiece {
    pub case: Case,
    pub number: u8,
    pub place: u32,
}

struct Shelf {
    pieces: Vec<SetPiece>,
}

impl Shelf {
    fn bytes(&mut self, name: &str, book: Vec<u8>, row_space: usize, number: u8, place: u32) {
        let case = Case { name: format!("set piece \"{name}\""), book, row_space };
        self.pieces.push(SetPiece { case, number, place });
    }

    fn draft(&mut self, name: &str, draft: &Draft, number: u8, place: u32) {
        self.bytes(name, draft.bytes(), 4 * draft.events.len(), number, place);
    }

    fn events(&mut self, name: &str, plan: &Plan, events: &[Event], number: u8, place: u32) {
        self.draft(name, &Draft::of(plan, events), number, place);
    }
}

/// Tasks of base 1 to 3 in turn; every lock used by every task. Where there are
/// locks, there are two tasks or more. The maxima are the least.
fn full_plan(tasks: usize, locks: usize) -> Plan {
    let bases: Vec<u8> = (0..tasks).map(|task| (task % 3) as u8 + 1).collect();
    let ceiling = bases.iter().copied().max().unwrap_or(1);
    let mut uses = Vec::new();
    for task in 0..tasks {
        for lock in 0..locks {
            uses.push((task as u8, lock as u8));
        }
    }
    Plan::with_least_maxima(bases, vec![Lock { ceiling, limit: MOST_UNITS }; locks], uses)
}

/// As many tasks, locks and uses as can be.
fn greatest_plan() -> Plan {
    let mut plan = full_plan(MOST_TASKS, MOST_LOCKS);
    plan.uses.truncate(MOST_USES);
    plan
}

/// The ids of the last places, and of those behind them.
const LAST_TASK: u8 = (MOST_TASKS - 1) as u8;
const LAST_LOCK: u8 = (MOST_LOCKS - 1) as u8;
const NO_TASK: u8 = MOST_TASKS as u8;
const NO_LOCK: u8 = MOST_LOCKS as u8;

pub fn set_pieces() -> Vec<SetPiece> {
    let mut shelf = Shelf { pieces: Vec::new() };
    runs_of_the_crane(&mut shelf);
    sizes(&mut shelf);
    contents(&mut shelf);
    records(&mut shelf);
    maxima(&mut shelf);
    event_records_and_row_space(&mut shelf);
    steps(&mut shelf);
    nests(&mut shelf);
    takes_of_one_lock(&mut shelf);
    shelf.pieces
}

fn runs_of_the_crane(shelf: &mut Shelf) {
    let answers = [
        (0, 0), (0, 0), (0, 0), (0, 0), (21, 3), (19, 3),
        (22, 2), (14, 1), (15, 1), (0, 0), (0, 0), (21, 4),
    ];
    for ((name, events), (number, place)) in crane::RUNS.iter().zip(answers) {
        shelf.events(name, &crane::plan(), events, number, place);
    }
    shelf.events("nest", &crane::plan(), &crane::NEST, 21, 9);
    let answers = [(21, 8), (0, 0), (0, 0), (22, 4), (18, 9), (19, 4)];
    for ((name, events), (number, place)) in crane::TAKEN_AGAIN.iter().zip(answers) {
        shelf.events(name, &crane::plan(), events, number, place);
    }
    shelf.events("the paper's run", &crane::plan_of_paper(), &crane::RUN_OF_PAPER, 0, 0);
}

/// The greatest counts and one more of each, the largest book, and lengths that
/// don't fit the contents.
fn sizes(shelf: &mut Shelf) {
    shelf.events("the most tasks", &full_plan(MOST_TASKS, 0), &[Release(LAST_TASK)], 0, 0);
    shelf.events("one task too many", &full_plan(MOST_TASKS + 1, 0), &[Release(NO_TASK)], 2, 1);
    shelf.events("no task", &full_plan(0, 0), &[Tick], 2, 1);
    let last_taken = [Release(0), Acquire(LAST_LOCK)];
    shelf.events("the most locks", &full_plan(2, MOST_LOCKS), &last_taken, 0, 0);
    shelf.events("one lock too many", &full_plan(2, MOST_LOCKS + 1), &last_taken, 2, 2);
    shelf.events("the most uses", &greatest_plan(), &last_taken, 0, 0);
    let mut draft = Draft::of(&greatest_plan(), &[Tick]);
    draft.uses.push([LAST_TASK, LAST_LOCK]);
    shelf.draft("one use too many", &draft, 2, 3);
    shelf.events("the most events", &crane::plan(), &[Tick; MOST_EVENTS], 0, 0);
    shelf.events("one event too many", &crane::plan(), &[Tick; MOST_EVENTS + 1], 2, 4);

    let largest = Draft::of(&greatest_plan(), &[Tick; MOST_EVENTS]).bytes();
    let rows = 4 * MOST_EVENTS;
    shelf.bytes("the largest book", largest.clone(), rows, 0, 0);
    shelf.bytes("the largest book, more row space", largest.clone(), MOST_BYTES, 0, 0);
    let mut longer = largest;
    longer.resize(MOST_BYTES, 0);
    shelf.bytes("a book longer than the largest", longer, rows, 3, 5);

    let p1 = crane::book(crane::RUNS[0].1);
    let contents = CONTENTS_BYTES;
    shelf.bytes("an empty book", Vec::new(), 0, 1, 0);
    shelf.bytes("one byte of the contents missing", p1[..contents - 1].to_vec(), 28, 1, 0);
    shelf.bytes("the contents alone", p1[..contents].to_vec(), 28, 3, 5);
    shelf.bytes("contents of zeros", vec![0; contents], 28, 2, 1);
    shelf.bytes("one byte missing", p1[..p1.len() - 1].to_vec(), 28, 3, 5);
    shelf.bytes("one spare byte", [&p1[..], &[0]].concat(), 28, 3, 5);
}

/// 2 before 3, the lowest entry of 3, and what a legal but wrong count does.
fn contents(shelf: &mut Shelf) {
    let p1 = crane::book(crane::RUNS[0].1);
    let changed = |changes: &[(usize, u8)]| {
        let mut book = p1.clone();
        for (at, byte) in changes {
            book[*at] = *byte;
        }
        book
    };
    // Entry e starts at 8 (e - 1): kind at +0, count at +2, offset at +4.
    shelf.bytes("count 4 before kind 1", changed(&[(0, 9), (27, u8::MAX)]), 28, 2, 4);
    let [low, high] = (MOST_TASKS as u16 + 1).to_le_bytes();
    shelf.bytes("range by position", changed(&[(0, 4), (2, low), (3, high)]), 28, 2, 1);
    let more_than_tasks = changed(&[(24, 1), (26, low), (27, high)]);
    shelf.bytes("kind 1 in entry 4, more events than tasks can be", more_than_tasks, 28, 3, 4);
    shelf.bytes("kinds 2 and 3 wrong", changed(&[(8, 3), (16, 2)]), 28, 3, 2);
    shelf.bytes("kind 257", changed(&[(1, 1)]), 28, 3, 1);
    shelf.bytes("first offset 33", changed(&[(4, 33)]), 28, 3, 1);
    shelf.bytes("high byte of an offset", changed(&[(31, 128)]), 28, 3, 4);
    shelf.bytes("one task more counted", changed(&[(2, 5)]), 28, 3, 2);
    shelf.bytes("one lock fewer counted", changed(&[(10, 1)]), 28, 3, 3);
    shelf.bytes("one use more counted", changed(&[(18, 5)]), 28, 3, 4);
    shelf.bytes("one event more counted", changed(&[(26, 8)]), 32, 3, 5);
    let mut empty = Draft::of(&full_plan(2, 0), &[Tick]).bytes();
    empty[12] = 0;
    shelf.bytes("offset 0 for an empty body", empty, 4, 3, 2);
}

/// 4 to 7 and 24: their order, and the first offender of each.
fn records(shelf: &mut Shelf) {
    let right = Draft::of(&crane::plan(), crane::RUNS[0].1);
    let mut damaged = |name: &str, damage: &dyn Fn(&mut Draft), number: u8, place: u32| {
        let mut draft = right.clone();
        damage(&mut draft);
        shelf.draft(name, &draft, number, place);
    };
    damaged("base 0", &|draft| draft.tasks[3][0] = 0, 4, 3);
    damaged("maximum one below the base", &|draft| draft.tasks[3][1] = 6, 4, 3);
    damaged("maximum 0", &|draft| draft.tasks[1][1] = 0, 4, 1);
    damaged("ceiling 0", &|draft| draft.locks[0][0] = 0, 5, 0);
    damaged("second byte of a lock", &|draft| draft.locks[1][1] = u8::MAX, 5, 1);
    damaged("limit 0", &|draft| draft.locks[1][2] = 0, 5, 1);
    damaged("limit 256", &|draft| (draft.locks[1][2], draft.locks[1][3]) = (0, 1), 0, 0);
    damaged("unknown task in a use", &|draft| draft.uses[3] = [4, 0], 6, 3);
    damaged("unknown lock in a use", &|draft| draft.uses[1] = [0, 2], 6, 1);
    damaged("equal uses", &|draft| draft.uses[1] = [0, 0], 6, 1);
    damaged("uses out of order", &|draft| draft.uses.swap(2, 3), 6, 3);
    damaged("order by task first", &|draft| draft.uses.swap(1, 2), 6, 2);
    damaged("no user left", &|draft| draft.uses.clear(), 7, 0);
    damaged("lock 1 without users", &|draft| draft.uses.retain(|pair| pair[1] == 0), 7, 1);
    damaged("ceiling too low", &|draft| draft.locks[1][0] = 1, 7, 1);
    damaged("ceiling too high", &|draft| draft.locks[0][0] = 7, 7, 0);
    damaged("greatest user gone", &|draft| draft.uses.truncate(3), 7, 0);
    damaged("greatest user alone", &|draft| draft.uses.retain(|pair| *pair != [0, 0]), 7, 0);
    damaged("greatest user of lock 1 alone", &|draft| draft.uses.retain(|pair| *pair != [0, 1]), 7, 1);
    damaged(
        "5 at lock 1 before 7 at lock 0",
        &|draft| (draft.locks[0][0], draft.locks[1][1]) = (7, 1),
        5, 1,
    );
    damaged(
        "4 before 5 before 6",
        &|draft| (draft.tasks[3][1], draft.locks[0][0], draft.uses[0]) = (1, 0, [9, 9]),
        4, 3,
    );
    damaged(
        "6 at the last use before 7 at lock 0",
        &|draft| (draft.locks[0][0], draft.uses[3]) = (7, [2, 2]),
        6, 3,
    );
    damaged(
        "7 before 8",
        &|draft| (draft.locks[1][0], draft.events[0]) = (5, [0; 4]),
        7, 1,
    );
}

/// 24: the use is named, after 7 and before 8. In the crane plan uses 0 and 1 are
/// task 0's, of ceilings 5 and 3; uses 2 and 3 are of ceilings that raise nobody.
fn maxima(shelf: &mut Shelf) {
    let right = Draft::of(&crane::plan(), crane::RUNS[0].1);
    let mut damaged = |name: &str, damage: &dyn Fn(&mut Draft), number: u8, place: u32| {
        let mut draft = right.clone();
        damage(&mut draft);
        shelf.draft(name, &draft, number, place);
    };
    damaged("greatest maxima", &|draft| draft.tasks.iter_mut().for_each(|task| task[1] = u8::MAX), 0, 0);
    damaged("maximum at the base", &|draft| draft.tasks[1][1] = 3, 0, 0);
    damaged("ceiling one above the maximum", &|draft| draft.tasks[0][1] = 4, 24, 0);
    damaged("both ceilings above the maximum", &|draft| draft.tasks[0][1] = 1, 24, 0);
    damaged(
        "4 at task 3 before 24 at use 0",
        &|draft| (draft.tasks[0][1], draft.tasks[3][1]) = (4, 6),
        4, 3,
    );
    damaged(
        "7 at lock 1 before 24 at use 0",
        &|draft| (draft.tasks[0][1], draft.locks[1][0]) = (4, 4),
        7, 1,
    );
    damaged(
        "24 before 8",
        &|draft| (draft.tasks[0][1], draft.events[0]) = (4, [0; 4]),
        24, 0,
    );
    let mut low = right.clone();
    low.tasks[0][1] = 4;
    shelf.bytes("24 before 9", low.bytes(), 0, 24, 0);

    // All ceilings and all maxima are 3, and then one maximum is 2. That is below the
    // base of task 2, and else the first use of the task is named: the last has base 2.
    let last = usize::from(LAST_TASK);
    let full = Draft::of(&greatest_plan(), &[Tick]);
    for (task, number, place) in [
        (0, 24, 0),
        (1, 24, MOST_LOCKS),
        (2, 4, 2),
        (last, 24, MOST_LOCKS * last),
    ] {
        let mut draft = full.clone();
        draft.tasks[task][1] = 2;
        shelf.draft(&format!("maximum of task {task} too low"), &draft, number, place as u32);
    }
    // The last task keeps its last use alone.
    let mut draft = full;
    let last_use = MOST_LOCKS * last;
    draft.uses.drain(last_use..MOST_USES - 1);
    draft.tasks[last][1] = 2;
    shelf.draft("24 at the last use", &draft, 24, last_use as u32);
}

/// 8 before 9 before any event's own refusal.
fn event_records_and_row_space(shelf: &mut Shelf) {
    let bad_records: [(&str, [u8; 4]); 15] = [
        ("kind 0", [0, 0, 0, 0]),
        ("kind 7", [7, 0, 0, 0]),
        ("the greatest kind", [u8::MAX, 0, 0, 0]),
        ("amount in a release", [1, 1, 1, 0]),
        ("high amount in a release", [1, 1, 0, 1]),
        ("amount in an acquire", [2, 0, 1, 0]),
        ("amount in an unlock", [3, 0, 0, 128]),
        ("id in a work", [4, 1, 1, 0]),
        ("work of 0", [4, 0, 0, 0]),
        ("work of 0 with an id", [4, 1, 0, 0]),
        ("id in a finish", [5, 1, 0, 0]),
        ("amount in a finish", [5, 0, 1, 0]),
        ("id in a tick", [6, u8::MAX, 0, 0]),
        ("amount in a tick", [6, 0, u8::MAX, 0]),
        ("high amount in a tick", [6, 0, 0, 1]),
    ];
    for (name, record) in bad_records {
        let mut draft = Draft::of(&crane::plan(), crane::RUNS[0].1);
        draft.events[3] = record;
        draft.events[6] = [0; 4];
        shelf.draft(name, &draft, 8, 3);
    }
    let mut draft = Draft::of(&crane::plan(), &[Release(4), Tick, Tick, Tick, Tick, Tick]);
    shelf.bytes("13 at event 0", draft.bytes(), 24, 13, 0);
    shelf.bytes("9 before 13 at event 0", draft.bytes(), 23, 9, 0);
    draft.events[5][0] = 7;
    shelf.bytes("8 at event 5 before 13 at event 0", draft.bytes(), 24, 8, 5);
    shelf.bytes("8 before 9", draft.bytes(), 0, 8, 5);

    let p1 = crane::book(crane::RUNS[0].1);
    shelf.bytes("row space one byte short", p1.clone(), 27, 9, 0);
    shelf.bytes("row space 0", p1.clone(), 0, 9, 0);
    shelf.bytes("row space with one byte more", p1.clone(), 29, 0, 0);
    shelf.bytes("row space with a row more", p1, 32, 0, 0);
    shelf.bytes("no events, row space 0", crane::book(&[]), 0, 0, 0);
    shelf.bytes("no events, row space 3", crane::book(&[]), 3, 0, 0);
}

/// The order of an event's tests, and what is accepted with nobody running.
fn steps(shelf: &mut Shelf) {
    let crane = &crane::plan();
    shelf.events("tick with nobody", crane, &[Tick, Tick], 0, 0);
    shelf.events("acquire with nobody", crane, &[Tick, Acquire(0)], 12, 1);
    shelf.events("12 before 13 in acquire", crane, &[Acquire(2)], 12, 0);
    shelf.events("unlock with nobody", crane, &[Unlock(0)], 12, 0);
    shelf.events("12 before 13 in unlock", crane, &[Unlock(u8::MAX)], 12, 0);
    shelf.events("work with nobody", crane, &[Release(3), Finish, Work(1)], 12, 2);
    shelf.events("finish with nobody", crane, &[Finish], 12, 0);
    shelf.events("release of task 4", crane, &[Release(3), Release(4)], 13, 1);
    shelf.events("release of the greatest id", crane, &[Release(u8::MAX)], 13, 0);
    let past_the_last = [Release(LAST_TASK), Release(NO_TASK)];
    let crowd = full_plan(MOST_TASKS, 1);
    shelf.events("release past the last", &crowd, &past_the_last, 13, 1);
    shelf.events("release of nobody", &crowd, &[Release(LAST_TASK), Release(NOBODY)], 13, 1);
    let mut come_and_go: Vec<Event> = (0..=LAST_TASK).rev().map(Release).collect();
    come_and_go.extend([Finish; MOST_TASKS]);
    shelf.events("all tasks come and go", &crowd, &come_and_go, 0, 0);
    come_and_go.push(Finish);
    shelf.events("and one more goes", &crowd, &come_and_go, 12, 2 * MOST_TASKS as u32);
    let mut behind_the_last = vec![Release(LAST_TASK), Acquire(0)];
    behind_the_last.extend((0..LAST_TASK).map(Release));
    behind_the_last.extend([Work(MOST_UNITS), Work(1)]);
    shelf.events("all wait for the last", &crowd, &behind_the_last, 21, MOST_TASKS as u32 + 2);
    shelf.events("acquire of lock 2", crane, &[Release(0), Acquire(2)], 13, 1);
    shelf.events("unlock of lock 2", crane, &[Release(0), Unlock(2)], 13, 1);
    let past_the_last = [Release(0), Acquire(NO_LOCK)];
    shelf.events("acquire past the last", &full_plan(2, MOST_LOCKS), &past_the_last, 13, 1);
    shelf.events("release of the running", crane, &[Release(3), Release(3)], 14, 1);
    shelf.events("release of a waiting", crane, &[Release(3), Release(0), Release(0)], 14, 2);
    shelf.events("release after finish", crane, &[Release(0), Finish, Release(0)], 0, 0);
    shelf.events("unlock with none open", crane, &[Release(0), Unlock(0)], 19, 1);
    let others_unlock = [Release(0), Acquire(0), Release(3), Unlock(0)];
    shelf.events("unlock of another's lock", crane, &others_unlock, 19, 3);
    let others_acquire = [Release(0), Acquire(0), Release(3), Acquire(0)];
    shelf.events("15 before 17 for another's lock", crane, &others_acquire, 15, 3);
    // Task 0 goes on, and takes its lock again.
    let p4_and_acquire = [Release(0), Acquire(0), Release(2), Release(3), Finish, Acquire(0)];
    shelf.events("P4, then acquire 0", crane, &p4_and_acquire, 0, 0);
    let delay_reset = [
        Release(0), Acquire(0), Release(1), Work(2), Unlock(0), Finish, Finish, Release(1),
    ];
    shelf.events("P1, then release 1", crane, &delay_reset, 0, 0);

    let full = full_plan(3, 2);
    let to_the_limit = [Release(0), Acquire(0), Release(1), Work(MOST_UNITS), Work(1)];
    shelf.events("the greatest limit", &full, &to_the_limit, 21, 4);
    let no_section = [Release(0), Work(MOST_UNITS), Work(MOST_UNITS), Work(MOST_UNITS)];
    shelf.events("work without a section", &full, &no_section, 0, 0);
    let tie = full_plan(4, 0); // tasks 0 and 3 have base 1
    shelf.events("a tie", &tie, &[Release(3), Release(0), Tick, Finish, Finish], 0, 0);
}

/// As many locks open as can be, one more, and the order of 13, 15 and 18
/// there. Task 0 may not take the last lock of the plan. (17 is nowhere in a book.)
fn nests(shelf: &mut Shelf) {
    let most = MOST_TAKES as u8;
    let (one_more, undeclared, unknown) = (most, most + 1, most + 2);
    let mut plan = full_plan(3, MOST_TAKES + 2);
    plan.uses.retain(|pair| *pair != (0, undeclared));
    let mut events = vec![Release(0)];
    events.extend((0..most).map(Acquire));
    shelf.events("as many open as can be", &plan, &events, 0, 0);
    for (name, last, number) in [
        ("one more open", Acquire(one_more), 18),
        ("15 before 18", Acquire(undeclared), 15),
        ("one more take, of an open lock", Acquire(3), 18),
        ("one more take, of the newest lock", Acquire(most - 1), 18),
        ("13 before 18", Acquire(unknown), 13),
        ("19 with the most open", Unlock(0), 19),
        ("22 with the most open", Finish, 22),
        ("unlock with the most open", Unlock(most - 1), 0),
    ] {
        let mut longer = events.clone();
        longer.push(last);
        let place = if number == 0 { 0 } else { events.len() as u32 };
        shelf.events(name, &plan, &longer, number, place);
    }
    let mut again = events.clone();
    again.extend([Unlock(most - 1), Acquire(one_more), Acquire(most - 1)]);
    let place = again.len() as u32 - 1;
    shelf.events("another in place of one, then one more", &plan, &again, 18, place);
    let mut again = events.clone();
    again.extend([Unlock(most - 1), Acquire(0), Acquire(one_more)]);
    let place = again.len() as u32 - 1;
    shelf.events("an open one in place of one, then one more", &plan, &again, 18, place);
}

/// As many takes of one lock as can be, and one more, of it and of another, and the order of
/// 13, 15 and 18 there; of two locks; and what they come to when they are given back. Task 0
/// may take locks 0 and 1, and not lock 2.
fn takes_of_one_lock(shelf: &mut Shelf) {
    let mut plan = full_plan(3, 3);
    plan.uses.retain(|pair| *pair != (0, 2));
    plan.locks[0].limit = 4;
    let with = |first: &[Event], others: &[Event]| [first, others].concat();
    let mut one = vec![Release(0)];
    one.extend([Acquire(0); MOST_TAKES]);
    let last = one.len() as u32;
    shelf.events("eight takes of one lock", &plan, &one, 0, 0);
    shelf.events("nine takes of one lock", &plan, &with(&one, &[Acquire(0)]), 18, last);
    shelf.events("another lock over eight takes", &plan, &with(&one, &[Acquire(1)]), 18, last);
    shelf.events("15 before 18, takes of one lock", &plan, &with(&one, &[Acquire(2)]), 15, last);
    shelf.events("13 before 18, takes of one lock", &plan, &with(&one, &[Acquire(3)]), 13, last);
    shelf.events("19 with eight takes of one lock", &plan, &with(&one, &[Unlock(1)]), 19, last);
    shelf.events("22 with eight takes of one lock", &plan, &with(&one, &[Finish]), 22, last);
    let seven = with(&one, &[Unlock(0); MOST_TAKES - 1]);
    let last = seven.len() as u32;
    shelf.events("22 with one of eight takes left", &plan, &with(&seven, &[Finish]), 22, last);
    let all = with(&seven, &[Unlock(0)]);
    shelf.events("all eight takes given back", &plan, &with(&all, &[Finish]), 0, 0);
    shelf.events("one given back too many", &plan, &with(&all, &[Unlock(0)]), 19, last + 1);

    // A unit under each of four takes, and on the way back none is left, up to the last return.
    let one_each = [Acquire(0), Work(1)].repeat(4);
    let full = with(&[Release(0)], &one_each);
    let last = full.len() as u32;
    shelf.events("a unit for each of four takes", &plan, &full, 0, 0);
    shelf.events("a fifth unit", &plan, &with(&full, &[Work(1)]), 21, last);
    shelf.events("a fifth after a fifth take", &plan, &with(&full, &[Acquire(0), Work(1)]), 21, last + 1);
    let in_part = with(&full, &[Unlock(0), Unlock(0), Unlock(0)]);
    shelf.events("a fifth after three returns", &plan, &with(&in_part, &[Work(1)]), 21, last + 3);
    let anew = with(&in_part, &[Unlock(0), Work(1), Acquire(0), Work(4)]);
    shelf.events("four more after four returns", &plan, &anew, 0, 0);
    // Lock 0 has four takes and lock 1 has four, in turn.
    let mut two = vec![Release(0)];
    two.extend([Acquire(0), Acquire(1)].repeat(MOST_TAKES / 2));
    let last = two.len() as u32;
    shelf.events("eight takes of two locks", &plan, &two, 0, 0);
    shelf.events("nine takes of two locks", &plan, &with(&two, &[Acquire(0)]), 18, last);
    shelf.events("19 for the older of two locks", &plan, &with(&two, &[Unlock(0)]), 19, last);
    // All of it counts once in lock 0, though it is taken four times.
    shelf.events("work in two locks", &plan, &with(&two, &[Work(4)]), 0, 0);
    shelf.events("a unit too many in two locks", &plan, &with(&two, &[Work(5)]), 21, last);
    let back = [Unlock(1), Unlock(0)].repeat(MOST_TAKES / 2);
    shelf.events("two locks given back in turn", &plan, &with(&with(&two, &back), &[Finish]), 0, 0);
}

/// The judge's own answers against the expected ones; those that differ.
pub fn test(pieces: &[SetPiece]) -> Vec<String> {
    let mut failed = Vec::new();
    for piece in pieces {
        let outcome = piece.case.replay(crate::wrong::Wrong::Nothing);
        for answer in [&outcome.answers.second, &outcome.answers.first] {
            let got = (answer.number, answer.place);
            if got != (piece.number, piece.place) {
                let wanted = (piece.number, piece.place);
                failed.push(format!("{}: got {got:?}, wanted {wanted:?}", piece.case.name));
            }
        }
        if let Some(words) = outcome.violation {
            failed.push(format!("{}: {words}", piece.case.name));
        }
    }
    failed
}
