//! When a plan and a state are sound, as a list of named conditions. Each is
//! tested by itself, whatever the others say: figures past the last place are
//! not looked at, and an unknown lock counts as one of ceiling 0. So every
//! condition can be the only one that is broken.
//!
//! Two conditions are about the second word, and each protocol asks one of them:
//! the next word is what the rules give, the kernel word has only a bound. All
//! others are asked by both.
//!
//! That no delay is greater than the rules allow is not in the list: a delay's
//! two bytes cannot hold more. The number of uses is in it with the other
//! counts, but cannot be too great while every task may use every lock.

use crate::plan::{MOST_ACCEPTED, MOST_LOCKS, MOST_TAKES, MOST_TASKS, MOST_USES, NOBODY};
use crate::protocol::Protocol;
use crate::whole::{
    slot, Field, Whole, ACCEPTED, BASE, CEILING, DELAY, DEPTH, EAGER, KEPT, LAZY, LIMIT, LOCKS,
    MAXIMUM, OWNER, RELEASED, ROW, RUNNING, SAVED, SECOND, TASKS, UNITS, USER, USES,
};
use crate::wrong::Wrong;
use std::collections::HashMap;

pub struct Condition {
    pub name: &'static str,
    /// The protocol that alone asks it.
    of: Option<Protocol>,
    holds: fn(&Whole) -> bool,
}

const fn condition(name: &'static str, holds: fn(&Whole) -> bool) -> Condition {
    let of = None;
    Condition { name, of, holds }
}

const fn of_one(of: Protocol, name: &'static str, holds: fn(&Whole) -> bool) -> Condition {
    let of = Some(of);
    Condition { name, of, holds }
}

const TWO_USERS: &str = "each lock has two users or more";
const OPEN_FOR_ONE: &str = "no lock is open for two tasks";
const NOT_BELOW_BASE: &str = "no maximum is below its base";
const WITHIN_MAXIMUM: &str = "no ceiling is above a user's maximum";

#[rustfmt::skip] // a line each
pub const CONDITIONS: [Condition; 33] = [
    // Of the plan: 2, 4, 5, 6, 7 and 24, and nothing past its tasks and locks.
    condition("counts of the plan in range", counts_in_range),
    condition("no base is 0", bases),
    condition(NOT_BELOW_BASE, maxima),
    condition("no ceiling or limit is 0", locks_have_figures),
    condition("uses are of locks of the plan", uses_are_known),
    condition("ceilings are as the users give them", ceilings),
    condition(TWO_USERS, two_users),
    condition(WITHIN_MAXIMUM, within_maxima),
    condition("unused places of the plan are 0", plan_rest),
    // Who runs, and the priorities that follow from it.
    condition("somebody runs if a task is released, and only then", nobody),
    condition("whoever runs is released", runner_is_released),
    condition("user word", user_word),
    of_one(Protocol::Second, "next word", next_word),
    of_one(Protocol::First, "kernel word at most the user word", kernel_word),
    condition("kept priorities of released tasks", kept),
    condition("saved priorities", saved),
    // Counts and release numbers.
    condition("accepted events", accepted),
    condition("release numbers differ", numbers_differ),
    condition("release numbers of accepted events", numbers_in_range),
    condition("no more lazy calls than events", lazy_calls),
    condition("no more eager calls than events", eager_calls),
    // Takes and open locks.
    condition("number of takes", takes_in_range),
    condition("takes are of locks of the plan", takes_are_known),
    condition("takes are of declared locks", takes_are_declared),
    condition("no take of an unreleased task", no_take_at_rest),
    condition(OPEN_FOR_ONE, open_for_one),
    condition("sections within their limits", sections),
    condition("an owner is who has the lock open", owners),
    // All else is 0.
    condition("units of closed locks are 0", closed_units),
    condition("nothing is kept for unreleased tasks", kept_at_rest),
    condition("unused places of rows are 0", row_rest),
    condition("unused places of saved priorities are 0", saved_rest),
    condition("unused places of the state are 0", state_rest),
];

impl Condition {
    pub fn is_asked(&self, protocol: Protocol) -> bool {
        self.of.is_none_or(|of| of == protocol)
    }

    /// The same by a judge that may have gone wrong.
    fn is_asked_by(&self, protocol: Protocol, wrong: Wrong) -> bool {
        let is_bound = self.of == Some(Protocol::First);
        match wrong {
            Wrong::KernelWordUnbounded if is_bound => false,
            Wrong::KernelWordAsNext if !is_bound => true,
            Wrong::OneUser | Wrong::OneUserInState if self.name == TWO_USERS => false,
            Wrong::AboveMaximumInState if self.name == WITHIN_MAXIMUM => false,
            Wrong::BelowBaseInState if self.name == NOT_BELOW_BASE => false,
            Wrong::OpenForTwoInState if self.name == OPEN_FOR_ONE => false,
            _ => self.is_asked(protocol),
        }
    }

    fn holds_by(&self, whole: &Whole, wrong: Wrong) -> bool {
        match wrong {
            Wrong::AgainInStateRefused if self.name == OPEN_FOR_ONE => taken_once(whole),
            _ => (self.holds)(whole),
        }
    }
}

/// The places of all conditions that are broken; none for a state that is sound by
/// this protocol.
pub fn broken(whole: &Whole, protocol: Protocol) -> Vec<usize> {
    broken_by(whole, protocol, Wrong::Nothing)
}

/// The same by a judge that may have gone wrong.
pub fn broken_by(whole: &Whole, protocol: Protocol, wrong: Wrong) -> Vec<usize> {
    (0..CONDITIONS.len())
        .filter(|place| CONDITIONS[*place].is_asked_by(protocol, wrong))
        .filter(|place| !CONDITIONS[*place].holds_by(whole, wrong))
        .collect()
}

pub fn names(places: &[usize]) -> Vec<&'static str> {
    places.iter().map(|place| CONDITIONS[*place].name).collect()
}

/// The tasks that the plan says it has, as far as there are places.
fn tasks(whole: &Whole) -> std::ops::Range<usize> {
    0..whole.get(TASKS, 0).min(MOST_TASKS as u64) as usize
}

fn locks(whole: &Whole) -> std::ops::Range<usize> {
    0..whole.get(LOCKS, 0).min(MOST_LOCKS as u64) as usize
}

fn users(whole: &Whole, lock: usize) -> impl Iterator<Item = usize> + '_ {
    tasks(whole).filter(move |task| whole.uses(*task, lock))
}

fn is_released(whole: &Whole, task: usize) -> bool {
    whole.get(RELEASED, task) != 0
}

fn runs(whole: &Whole, task: usize) -> bool {
    whole.get(RUNNING, 0) == task as u64
}

fn none_released(whole: &Whole) -> bool {
    !tasks(whole).any(|task| is_released(whole, task))
}

/// How many places of a task's row are in use.
fn used(whole: &Whole, task: usize) -> usize {
    whole.get(DEPTH, task).min(MOST_TAKES as u64) as usize
}

/// The takes of a task, each by its lock, newest first. One lock may be there more than
/// once.
fn row(whole: &Whole, task: usize) -> impl Iterator<Item = usize> + '_ {
    (0..used(whole, task)).map(move |at| whole.get(ROW, slot(task, at)) as usize)
}

/// Which locks some task has open.
fn open_locks(whole: &Whole) -> [bool; MOST_LOCKS] {
    let mut open = [false; MOST_LOCKS];
    for lock in tasks(whole).flat_map(|task| row(whole, task)) {
        if let Some(place) = open.get_mut(lock) {
            *place = true;
        }
    }
    open
}

/// The priority of a task as its takes from this place of the row on give it: the
/// greatest of their locks' ceilings and the base.
fn priority_from(whole: &Whole, task: usize, at: usize) -> u64 {
    row(whole, task)
        .skip(at)
        .filter(|lock| locks(whole).contains(lock))
        .map(|lock| whole.get(CEILING, lock))
        .fold(whole.get(BASE, task), u64::max)
}

pub fn priority(whole: &Whole, task: usize) -> u64 {
    priority_from(whole, task, 0)
}

/// What a take saved: the priority under it, which is the same as over it where the lock
/// was open already.
pub fn saved_by_rule(whole: &Whole, task: usize, at: usize) -> u64 {
    priority_from(whole, task, at + 1)
}

/// The priority of the task that runs; 0 where no released task does.
pub fn user_by_rule(whole: &Whole) -> u64 {
    tasks(whole)
        .find(|task| runs(whole, *task) && is_released(whole, *task))
        .map_or(0, |task| priority(whole, task))
}

/// The greatest priority among the released tasks that don't run; 0 without one.
pub fn next_by_rule(whole: &Whole) -> u64 {
    tasks(whole)
        .map(|task| kept_by_rule(whole, task))
        .max()
        .unwrap_or(0)
}

/// The priority of a released task that doesn't run; 0 for another.
pub fn kept_by_rule(whole: &Whole, task: usize) -> u64 {
    if is_released(whole, task) && !runs(whole, task) {
        priority(whole, task)
    } else {
        0
    }
}

fn counts_in_range(whole: &Whole) -> bool {
    let uses: u32 = tasks(whole)
        .map(|task| whole.get(USES, task).count_ones())
        .sum();
    (1..=MOST_TASKS as u64).contains(&whole.get(TASKS, 0))
        && whole.get(LOCKS, 0) <= MOST_LOCKS as u64
        && uses as usize <= MOST_USES
}

fn bases(whole: &Whole) -> bool {
    tasks(whole).all(|task| whole.get(BASE, task) != 0)
}

pub fn maxima(whole: &Whole) -> bool {
    tasks(whole).all(|task| whole.get(MAXIMUM, task) >= whole.get(BASE, task))
}

fn locks_have_figures(whole: &Whole) -> bool {
    locks(whole).all(|lock| whole.get(CEILING, lock) != 0 && whole.get(LIMIT, lock) != 0)
}

fn uses_are_known(whole: &Whole) -> bool {
    let unknown = !0 << locks(whole).end;
    tasks(whole).all(|task| whole.get(USES, task) & unknown == 0)
}

fn ceilings(whole: &Whole) -> bool {
    locks(whole).all(|lock| {
        let greatest = users(whole, lock).map(|task| whole.get(BASE, task)).max();
        greatest == Some(whole.get(CEILING, lock))
    })
}

fn two_users(whole: &Whole) -> bool {
    locks(whole).all(|lock| users(whole, lock).count() >= 2)
}

/// A ceiling at the maximum of a user is right.
pub fn within_maxima(whole: &Whole) -> bool {
    locks(whole).all(|lock| {
        users(whole, lock).all(|task| whole.get(CEILING, lock) <= whole.get(MAXIMUM, task))
    })
}

fn plan_rest(whole: &Whole) -> bool {
    past_tasks_is_0(whole, &[BASE, MAXIMUM, USES]) && past_locks_is_0(whole, &[CEILING, LIMIT])
}

fn nobody(whole: &Whole) -> bool {
    (whole.get(RUNNING, 0) == u64::from(NOBODY)) == none_released(whole)
}

fn runner_is_released(whole: &Whole) -> bool {
    whole.get(RUNNING, 0) == u64::from(NOBODY)
        || tasks(whole).any(|task| runs(whole, task) && is_released(whole, task))
}

fn user_word(whole: &Whole) -> bool {
    whole.get(USER, 0) == user_by_rule(whole)
}

pub fn next_word(whole: &Whole) -> bool {
    whole.get(SECOND, 0) == next_by_rule(whole)
}

/// Nothing else is asked of it: it may be below the priority of another task.
pub fn kernel_word(whole: &Whole) -> bool {
    whole.get(SECOND, 0) <= whole.get(USER, 0)
}

fn kept(whole: &Whole) -> bool {
    tasks(whole)
        .filter(|task| is_released(whole, *task))
        .all(|task| whole.get(KEPT, task) == kept_by_rule(whole, task))
}

fn saved(whole: &Whole) -> bool {
    tasks(whole).all(|task| {
        (0..used(whole, task))
            .all(|at| whole.get(SAVED, slot(task, at)) == saved_by_rule(whole, task, at))
    })
}

fn accepted(whole: &Whole) -> bool {
    whole.get(ACCEPTED, 0) <= u64::from(MOST_ACCEPTED)
}

fn numbers_differ(whole: &Whole) -> bool {
    let mut numbers: Vec<u64> = tasks(whole)
        .filter(|task| is_released(whole, *task))
        .map(|task| whole.get(RELEASED, task))
        .collect();
    numbers.sort_unstable();
    numbers.windows(2).all(|pair| pair[0] != pair[1])
}

/// They are at least 1, since 0 stands for a task that isn't released.
fn numbers_in_range(whole: &Whole) -> bool {
    tasks(whole).all(|task| whole.get(RELEASED, task) <= whole.get(ACCEPTED, 0))
}

fn lazy_calls(whole: &Whole) -> bool {
    whole.get(LAZY, 0) <= whole.get(ACCEPTED, 0)
}

fn eager_calls(whole: &Whole) -> bool {
    whole.get(EAGER, 0) <= whole.get(ACCEPTED, 0)
}

fn takes_in_range(whole: &Whole) -> bool {
    tasks(whole).all(|task| whole.get(DEPTH, task) <= MOST_TAKES as u64)
}

fn takes_are_known(whole: &Whole) -> bool {
    tasks(whole)
        .flat_map(|task| row(whole, task))
        .all(|lock| locks(whole).contains(&lock))
}

fn takes_are_declared(whole: &Whole) -> bool {
    tasks(whole).all(|task| {
        row(whole, task)
            .filter(|lock| locks(whole).contains(lock))
            .all(|lock| whole.uses(task, lock))
    })
}

fn no_take_at_rest(whole: &Whole) -> bool {
    tasks(whole).all(|task| is_released(whole, task) || whole.get(DEPTH, task) == 0)
}

/// The task in whose row a lock is, by the lock: it is there in one row at most, as often as
/// it may be.
fn open_for_one(whole: &Whole) -> bool {
    let mut holders = HashMap::new();
    tasks(whole).all(|task| {
        let is_own = |lock| *holders.entry(lock).or_insert(task) == task;
        row(whole, task).all(is_own)
    })
}

/// Only a wrong way asks it: a lock is at one place of all rows at most.
fn taken_once(whole: &Whole) -> bool {
    let mut taken: Vec<usize> = tasks(whole).flat_map(|task| row(whole, task)).collect();
    taken.sort_unstable();
    taken.windows(2).all(|pair| pair[0] != pair[1])
}

fn sections(whole: &Whole) -> bool {
    let open = open_locks(whole);
    locks(whole).all(|lock| !open[lock] || whole.get(UNITS, lock) <= whole.get(LIMIT, lock))
}

/// The owner is the task that has the lock open, plus one, and 0 for a closed
/// lock. Where more than one has it open, any of these will do.
fn owners(whole: &Whole) -> bool {
    let open = open_locks(whole);
    locks(whole).all(|lock| match whole.get(OWNER, lock) {
        0 => !open[lock],
        owner => {
            let task = owner as usize - 1;
            tasks(whole).contains(&task) && row(whole, task).any(|held| held == lock)
        }
    })
}

fn closed_units(whole: &Whole) -> bool {
    let open = open_locks(whole);
    locks(whole).all(|lock| open[lock] || whole.get(UNITS, lock) == 0)
}

/// The other figures of an unreleased task: its row and its saved priorities
/// are unused places, and its delay may be any.
fn kept_at_rest(whole: &Whole) -> bool {
    tasks(whole).all(|task| is_released(whole, task) || whole.get(KEPT, task) == 0)
}

fn row_rest(whole: &Whole) -> bool {
    slots_rest_is_0(whole, ROW)
}

fn saved_rest(whole: &Whole) -> bool {
    slots_rest_is_0(whole, SAVED)
}

fn slots_rest_is_0(whole: &Whole, field: Field) -> bool {
    tasks(whole)
        .all(|task| (used(whole, task)..MOST_TAKES).all(|at| whole.get(field, slot(task, at)) == 0))
}

fn state_rest(whole: &Whole) -> bool {
    let mut slots = slot(tasks(whole).end, 0)..slot(MOST_TASKS, 0);
    past_tasks_is_0(whole, &[RELEASED, KEPT, DELAY, DEPTH])
        && slots.all(|place| whole.get(ROW, place) == 0 && whole.get(SAVED, place) == 0)
        && past_locks_is_0(whole, &[UNITS, OWNER])
}

fn past_tasks_is_0(whole: &Whole, fields: &[Field]) -> bool {
    (tasks(whole).end..MOST_TASKS)
        .all(|task| fields.iter().all(|field| whole.get(*field, task) == 0))
}

fn past_locks_is_0(whole: &Whole, fields: &[Field]) -> bool {
    (locks(whole).end..MOST_LOCKS)
        .all(|lock| fields.iter().all(|field| whole.get(*field, lock) == 0))
}
