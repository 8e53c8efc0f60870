//! States that are mostly not sound: a sound state with exactly one figure
//! changed, or with one thing changed that needs several figures, so that all
//! else stays as the rules give it. Whether the result is sound is for the test
//! of soundness to say.

use crate::aims::{times, Scene};
use crate::plan::{MOST_ACCEPTED, MOST_LOCKS, MOST_TAKES, MOST_TASKS, NOBODY};
use crate::plans;
use crate::protocol::Protocol;
use crate::random::Random;
use crate::sound;
use crate::states::{self, drop_takes, push, refit};
use crate::whole::{
    slot, Field, Per, Whole, ACCEPTED, BASE, CEILING, DEPTH, FIELDS, LIMIT, LOCKS, MAXIMUM, OWNER,
    RELEASED, ROW, RUNNING, SAVED, SECOND, TASKS, UNITS, USER, USES,
};

/// Gives a figure another value.
pub fn change(random: &mut Random, whole: &mut Whole, field: Field, place: usize) {
    let before = whole.get(field, place);
    let greatest = field.greatest();
    let after = match random.below(8) {
        0 => 0,
        1 | 2 => before.wrapping_add(1) & greatest,
        3 | 4 => before.wrapping_sub(1) & greatest,
        5 => greatest,
        6 => whole.get(field, random.below(field.count())),
        _ => random.draw() & greatest,
    };
    let after = if after == before { before ^ 1 } else { after };
    whole.set(field, place, after);
}

/// A figure to change: every field as often as any other, and mostly a place of
/// the plan's tasks and locks; of rows, half of the time a place in use.
pub fn some_figure(random: &mut Random, whole: &Whole) -> (Field, usize) {
    let field = random.pick(&FIELDS);
    if field.per == Per::Slot && random.one_in(2) {
        if let Some(place) = random.pick_any(&used_slots(whole)) {
            return (field, place);
        }
    }
    let (tasks, locks) = (whole.get(TASKS, 0) as usize, whole.get(LOCKS, 0) as usize);
    let of_plan = match field.per {
        Per::One => 1,
        Per::Task => tasks,
        Per::Lock => locks,
        Per::Slot => slot(tasks, 0),
    };
    let places = if of_plan == 0 || random.one_in(4) {
        field.count()
    } else {
        of_plan
    };
    (field, random.below(places))
}

fn used_slots(whole: &Whole) -> Vec<usize> {
    let tasks = 0..whole.get(TASKS, 0) as usize;
    let of_task = |task| (0..whole.get(DEPTH, task) as usize).map(move |at| slot(task, at));
    tasks.flat_map(of_task).collect()
}

/// One thing that takes several figures; false where the state has no place for
/// it, and then nothing is changed.
type Change = fn(&mut Random, &mut Whole) -> bool;

#[rustfmt::skip] // a line each
const CHANGES: [(&str, Change); 28] = [
    ("nobody runs", nobody_runs),
    ("an unreleased task runs", unreleased_runs),
    ("a lock open for two tasks", open_for_two),
    ("a lock taken twice by one task and open for another", again_and_open_for_two),
    ("a lock taken twice without owner", again_without_owner),
    ("a lock taken twice with another owner", again_of_another),
    ("a lock taken twice with another saved word", again_with_other_word),
    ("a take given back, and no owner for the other", in_part_without_owner),
    ("all takes of a lock given back but not its units", returned_with_units),
    ("all takes of a lock given back but not its owner", returned_with_owner),
    ("a lock open for an unreleased task", open_at_rest),
    ("an undeclared lock open", undeclared_open),
    ("an unknown lock open", unknown_open),
    ("one take more than can be", one_more_take),
    ("two equal release numbers", equal_numbers),
    ("fewer accepted events than a release number", fewer_accepted),
    ("more accepted events than can be", more_accepted),
    ("a section past its limit", past_limit),
    ("a lock without limit", without_limit),
    ("a lock without users", without_users),
    ("a lock with one user", with_one_user),
    ("a use of an unknown lock", unknown_use),
    ("a maximum below its base", below_base),
    ("a maximum below a ceiling", below_ceiling),
    ("a maximum past the last task", past_tasks),
    ("more tasks than places", more_tasks),
    ("more locks than places", more_locks),
    ("no tasks", no_tasks),
];

/// Makes one of the changes, if the state has a place for one of those that are
/// tried, and names it. The second word stays one that the protocol allows.
pub fn change_several(
    random: &mut Random,
    whole: &mut Whole,
    protocol: Protocol,
) -> Option<&'static str> {
    let kernel_word = whole.get(SECOND, 0);
    let tried = (0..4).map(|_| random.pick(&CHANGES)).collect::<Vec<_>>();
    let (name, _) = tried
        .into_iter()
        .find(|(_, change)| change(random, whole))?;
    if protocol == Protocol::First {
        // Some changes have put the next word there.
        whole.set(SECOND, 0, kernel_word.min(whole.get(USER, 0)));
    }
    Some(name)
}

/// Changes the second word alone, to what the one protocol allows and the other
/// mostly does not, or to what neither does, and names the change.
pub fn change_second_word(random: &mut Random, whole: &mut Whole) -> &'static str {
    let user = whole.get(USER, 0);
    let greatest = SECOND.greatest();
    let (name, word) = match random.below(8) {
        0 | 1 => ("the next word", sound::next_by_rule(whole)),
        2 => ("a kernel word of 0", 0),
        3 => ("a kernel word at the user word", user),
        4 => {
            let word = random.between(0, user as usize) as u64;
            ("a kernel word in its bound", word)
        }
        5 | 6 => {
            let word = (user + 1).min(greatest);
            ("a second word one above the user word", word)
        }
        _ => ("the greatest second word", greatest),
    };
    whole.set(SECOND, 0, word);
    name
}

/// One of the plan's tasks for which this is so.
fn some_task(
    random: &mut Random,
    whole: &Whole,
    is_so: impl Fn(&Whole, usize) -> bool,
) -> Option<usize> {
    let tasks = 0..whole.get(TASKS, 0) as usize;
    let tasks: Vec<usize> = tasks.filter(|task| is_so(whole, *task)).collect();
    random.pick_any(&tasks)
}

/// One of the plan's locks for which this is so.
fn some_lock(
    random: &mut Random,
    whole: &Whole,
    is_so: impl Fn(&Whole, usize) -> bool,
) -> Option<usize> {
    let locks = 0..whole.get(LOCKS, 0) as usize;
    let locks: Vec<usize> = locks.filter(|lock| is_so(whole, *lock)).collect();
    random.pick_any(&locks)
}

fn rests(whole: &Whole, task: usize) -> bool {
    !whole.is_released(task)
}

fn is_closed(whole: &Whole, lock: usize) -> bool {
    whole.get(OWNER, lock) == 0
}

/// Whether its owner has two takes of a lock or more.
fn is_taken_again(whole: &Whole, lock: usize) -> bool {
    let owner = whole.get(OWNER, lock) as usize;
    owner > 0 && times(&whole.takes(owner - 1), lock) > 1
}

/// Whether the task is released and its row has a free place.
fn has_place(whole: &Whole, task: usize) -> bool {
    whole.is_released(task) && (whole.get(DEPTH, task) as usize) < MOST_TAKES
}

fn nobody_runs(_: &mut Random, whole: &mut Whole) -> bool {
    if whole.running().is_none() {
        return false;
    }
    whole.set(RUNNING, 0, u64::from(NOBODY));
    refit(whole);
    true
}

/// One of the plan, or one past it.
fn unreleased_runs(random: &mut Random, whole: &mut Whole) -> bool {
    let last = usize::from(NOBODY) - 1;
    let past = random.between(last.min(whole.get(TASKS, 0) as usize), last);
    let task = some_task(random, whole, rests).filter(|_| !random.one_in(3));
    whole.set(RUNNING, 0, task.unwrap_or(past) as u64);
    refit(whole);
    true
}

fn open_for_two(random: &mut Random, whole: &mut Whole) -> bool {
    match some_lock(random, whole, |whole, lock| !is_closed(whole, lock)) {
        Some(lock) => open_for_another(random, whole, lock),
        None => false,
    }
}

fn again_and_open_for_two(random: &mut Random, whole: &mut Whole) -> bool {
    match some_lock(random, whole, is_taken_again) {
        Some(lock) => open_for_another(random, whole, lock),
        None => false,
    }
}

/// Puts an open lock into the row of another task too. Either may be noted as its owner.
fn open_for_another(random: &mut Random, whole: &mut Whole, lock: usize) -> bool {
    let owner = whole.get(OWNER, lock);
    let second = some_task(random, whole, |whole, task| {
        has_place(whole, task) && whole.uses(task, lock) && task as u64 + 1 != owner
    });
    let Some(second) = second else {
        return false;
    };
    push(whole, second, lock);
    refit(whole);
    let owner = random.pick(&[owner, second as u64 + 1]);
    whole.set(OWNER, lock, owner);
    true
}

fn again_without_owner(random: &mut Random, whole: &mut Whole) -> bool {
    let Some(lock) = some_lock(random, whole, is_taken_again) else {
        return false;
    };
    whole.set(OWNER, lock, 0);
    true
}

/// Another task of the plan, released or not, or one that it has not.
fn again_of_another(random: &mut Random, whole: &mut Whole) -> bool {
    let Some(lock) = some_lock(random, whole, is_taken_again) else {
        return false;
    };
    let (owner, last) = (whole.get(OWNER, lock), whole.get(TASKS, 0));
    let any = random.between(1, last as usize) as u64;
    let other = random.pick(&[owner - 1, owner + 1, last + 1, any]);
    whole.set(OWNER, lock, other.min(OWNER.greatest()));
    other != owner
}

/// The word of a take that another of the same lock is under: what was before the first of
/// them, none, or one off.
fn again_with_other_word(random: &mut Random, whole: &mut Whole) -> bool {
    let is_again = |whole: &Whole, task| !taken_again(whole, task).is_empty();
    let Some(task) = some_task(random, whole, is_again) else {
        return false;
    };
    let at = random.pick(&taken_again(whole, task));
    let lock = whole.get(ROW, slot(task, at));
    let is_of_lock = |place: &usize| whole.get(ROW, slot(task, *place)) == lock;
    let first = (at..whole.get(DEPTH, task) as usize).rfind(is_of_lock);
    let before = first.map_or(0, |first| whole.get(SAVED, slot(task, first)));
    let saved = whole.get(SAVED, slot(task, at));
    let other = random.pick(&[before, before, 0, saved - 1, saved.wrapping_add(1)]);
    whole.set(SAVED, slot(task, at), other & SAVED.greatest());
    true
}

/// The places of a task's row that have a lock which is at an older place too.
fn taken_again(whole: &Whole, task: usize) -> Vec<usize> {
    let depth = whole.get(DEPTH, task) as usize;
    let lock_at = |at: usize| whole.get(ROW, slot(task, at));
    let is_again = |at: &usize| (at + 1..depth).any(|older| lock_at(older) == lock_at(*at));
    (0..depth).filter(is_again).collect()
}

/// One of two takes or more is gone, and the lock's owner with it.
fn in_part_without_owner(random: &mut Random, whole: &mut Whole) -> bool {
    let Some(lock) = some_lock(random, whole, is_taken_again) else {
        return false;
    };
    let task = whole.get(OWNER, lock) as usize - 1;
    drop_takes(whole, task, |other, after| other == lock && after == 0);
    refit(whole);
    whole.set(OWNER, lock, 0);
    true
}

fn returned_with_units(random: &mut Random, whole: &mut Whole) -> bool {
    let has_units = |whole: &Whole, lock| !is_closed(whole, lock) && whole.get(UNITS, lock) > 0;
    let Some(lock) = some_lock(random, whole, has_units) else {
        return false;
    };
    return_all(whole, lock);
    true
}

fn returned_with_owner(random: &mut Random, whole: &mut Whole) -> bool {
    let Some(lock) = some_lock(random, whole, |whole, lock| !is_closed(whole, lock)) else {
        return false;
    };
    let owner = whole.get(OWNER, lock);
    return_all(whole, lock);
    whole.set(UNITS, lock, 0);
    whole.set(OWNER, lock, owner);
    true
}

/// Takes an open lock out of its owner's row.
fn return_all(whole: &mut Whole, lock: usize) {
    let task = whole.get(OWNER, lock) as usize - 1;
    drop_takes(whole, task, |other, _| other == lock);
    refit(whole);
}

fn open_at_rest(random: &mut Random, whole: &mut Whole) -> bool {
    let Some(task) = some_task(random, whole, rests) else {
        return false;
    };
    open_another(random, whole, task, true)
}

fn undeclared_open(random: &mut Random, whole: &mut Whole) -> bool {
    let Some(task) = some_task(random, whole, has_place) else {
        return false;
    };
    open_another(random, whole, task, false)
}

/// Opens a closed lock that the task declares, or doesn't.
fn open_another(random: &mut Random, whole: &mut Whole, task: usize, declared: bool) -> bool {
    let lock = some_lock(random, whole, |whole, lock| {
        is_closed(whole, lock) && whole.uses(task, lock) == declared
    });
    let Some(lock) = lock else {
        return false;
    };
    push(whole, task, lock);
    refit(whole);
    true
}

fn unknown_open(random: &mut Random, whole: &mut Whole) -> bool {
    let Some(task) = some_task(random, whole, has_place) else {
        return false;
    };
    let first = whole.get(LOCKS, 0) as usize;
    let greatest = usize::from(u8::MAX);
    let any = random.between(first, greatest);
    let lock = random.pick(&[first, MOST_LOCKS, greatest, any]);
    push(whole, task, lock);
    refit(whole);
    true
}

fn one_more_take(random: &mut Random, whole: &mut Whole) -> bool {
    let is_full = |whole: &Whole, task| whole.get(DEPTH, task) == MOST_TAKES as u64;
    let Some(task) = some_task(random, whole, is_full) else {
        return false;
    };
    let depth = random.pick(&[MOST_TAKES as u64 + 1, DEPTH.greatest()]);
    whole.set(DEPTH, task, depth);
    true
}

fn equal_numbers(random: &mut Random, whole: &mut Whole) -> bool {
    let first = some_task(random, whole, Whole::is_released);
    let second = some_task(random, whole, |whole, task| {
        whole.is_released(task) && Some(task) != first
    });
    let (Some(first), Some(second)) = (first, second) else {
        return false;
    };
    whole.set(RELEASED, first, whole.get(RELEASED, second));
    true
}

fn fewer_accepted(random: &mut Random, whole: &mut Whole) -> bool {
    let Some(task) = some_task(random, whole, Whole::is_released) else {
        return false;
    };
    let number = whole.get(RELEASED, task);
    whole.set(ACCEPTED, 0, number - 1);
    true
}

fn more_accepted(random: &mut Random, whole: &mut Whole) -> bool {
    let most = u64::from(MOST_ACCEPTED);
    let more = random.pick(&[most + 1, most + 2, ACCEPTED.greatest()]);
    whole.set(ACCEPTED, 0, more);
    true
}

fn past_limit(random: &mut Random, whole: &mut Whole) -> bool {
    let can_pass =
        |whole: &Whole, lock| !is_closed(whole, lock) && whole.get(LIMIT, lock) < UNITS.greatest();
    let Some(lock) = some_lock(random, whole, can_pass) else {
        return false;
    };
    let units = random.pick(&[whole.get(LIMIT, lock) + 1, UNITS.greatest()]);
    whole.set(UNITS, lock, units);
    true
}

fn without_limit(random: &mut Random, whole: &mut Whole) -> bool {
    let Some(lock) = some_lock(random, whole, is_closed) else {
        return false;
    };
    whole.set(LIMIT, lock, 0);
    true
}

fn without_users(random: &mut Random, whole: &mut Whole) -> bool {
    let Some(lock) = some_lock(random, whole, is_closed) else {
        return false;
    };
    for task in 0..whole.get(TASKS, 0) as usize {
        let uses = whole.get(USES, task) & !(1 << lock);
        whole.set(USES, task, uses);
    }
    true
}

/// The user that stays has the lock's ceiling as its base, so that all else is
/// right.
fn with_one_user(random: &mut Random, whole: &mut Whole) -> bool {
    let Some(lock) = some_lock(random, whole, is_closed) else {
        return false;
    };
    let tasks = 0..whole.get(TASKS, 0) as usize;
    let is_greatest = |task: &usize| {
        whole.uses(*task, lock) && whole.get(BASE, *task) == whole.get(CEILING, lock)
    };
    let greatest: Vec<usize> = tasks.clone().filter(is_greatest).collect();
    if greatest.is_empty() {
        return false;
    }
    let stays = random.pick(&greatest);
    for task in tasks.filter(|task| *task != stays) {
        let uses = whole.get(USES, task) & !(1 << lock);
        whole.set(USES, task, uses);
    }
    true
}

fn unknown_use(random: &mut Random, whole: &mut Whole) -> bool {
    let first = whole.get(LOCKS, 0) as usize;
    if first == MOST_LOCKS {
        return false;
    }
    let task = random.below(whole.get(TASKS, 0) as usize);
    let lock = random.between(first, MOST_LOCKS - 1);
    let uses = whole.get(USES, task) | 1 << lock;
    whole.set(USES, task, uses);
    true
}

/// Of a task without locks, if there is one: of another the ceilings are then above
/// the maximum too.
fn below_base(random: &mut Random, whole: &mut Whole) -> bool {
    let uses_none = |whole: &Whole, task| whole.get(USES, task) == 0;
    let without_locks = some_task(random, whole, uses_none);
    let task = without_locks.unwrap_or_else(|| random.below(whole.get(TASKS, 0) as usize));
    let base = whole.get(BASE, task);
    let any = random.below(base as usize) as u64;
    let maximum = random.pick(&[base - 1, base - 1, 0, any]);
    whole.set(MAXIMUM, task, maximum);
    true
}

/// The base stays at most the maximum, so that all else is right: who has the lock
/// open has the priority that the rules give, though it is above that maximum.
fn below_ceiling(random: &mut Random, whole: &mut Whole) -> bool {
    let raises = |whole: &Whole, task, lock| {
        whole.uses(task, lock) && whole.get(CEILING, lock) > whole.get(BASE, task)
    };
    let locks = 0..whole.get(LOCKS, 0) as usize;
    let is_raised = |whole: &Whole, task| locks.clone().any(|lock| raises(whole, task, lock));
    let Some(task) = some_task(random, whole, is_raised) else {
        return false;
    };
    let lock = some_lock(random, whole, |whole, lock| raises(whole, task, lock));
    let lock = lock.expect("a lock raises the task");
    let (base, below) = (whole.get(BASE, task), whole.get(CEILING, lock) - 1);
    let any = random.between(base as usize, below as usize) as u64;
    let maximum = random.pick(&[below, below, base, any]);
    whole.set(MAXIMUM, task, maximum);
    true
}

fn past_tasks(random: &mut Random, whole: &mut Whole) -> bool {
    let first = whole.get(TASKS, 0) as usize;
    if first == MOST_TASKS {
        return false;
    }
    let any = random.between(first, MOST_TASKS - 1);
    let place = random.pick(&[first, any, MOST_TASKS - 1]);
    let maximum = random.pick(&[1, MAXIMUM.greatest()]);
    whole.set(MAXIMUM, place, maximum);
    true
}

/// A plan that has no place left, and one task more than that.
fn more_tasks(random: &mut Random, whole: &mut Whole) -> bool {
    *whole = of_greatest_plan(random);
    let more = too_many(random, MOST_TASKS);
    whole.set(TASKS, 0, more);
    true
}

fn more_locks(random: &mut Random, whole: &mut Whole) -> bool {
    *whole = of_greatest_plan(random);
    let more = too_many(random, MOST_LOCKS);
    whole.set(LOCKS, 0, more);
    true
}

/// A sound state whose plan has a task and a lock in every place.
fn of_greatest_plan(random: &mut Random) -> Whole {
    let plan = plans::contended(random);
    states::of_plan(random, &plan)
}

fn too_many(random: &mut Random, most: usize) -> u64 {
    let most = most as u64;
    random.pick(&[
        most + 1,
        most + 2,
        most + (1 << 8),
        most + (1 << 32),
        u64::MAX,
    ])
}

/// A plan without tasks and locks; of the state only the counts are left.
fn no_tasks(_: &mut Random, whole: &mut Whole) -> bool {
    let mut blank = Whole::blank();
    blank.set(RUNNING, 0, u64::from(NOBODY));
    blank.set(ACCEPTED, 0, whole.get(ACCEPTED, 0));
    *whole = blank;
    true
}
