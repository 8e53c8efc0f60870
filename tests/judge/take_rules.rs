//! What makes a generated step an example of a rule about takes that only single steps can
//! show: states with a lock taken again that break one thing and nothing else, and sound
//! ones that no fresh start reaches.

use crate::aims::{open_locks, times, Scene};
use crate::event::Event;
use crate::sound::CONDITIONS;
use crate::step::Outcome;
use crate::step_rules::is_accepted;
use crate::trials::Trial;
use crate::whole::{slot, Whole, DEPTH, LOCKS, OWNER, ROW, SAVED, TASKS};

/// Whether nothing is broken but the condition of this name.
fn is_alone(outcome: &Outcome, name: &str) -> bool {
    matches!(outcome.broken[..], [only] if CONDITIONS[only].name == name)
}

fn tasks(whole: &Whole) -> std::ops::Range<usize> {
    0..whole.get(TASKS, 0) as usize
}

/// The locks that a task has taken twice or more.
fn repeated(whole: &Whole, task: usize) -> Vec<usize> {
    let takes = whole.takes(task);
    let mut open = open_locks(&takes);
    open.retain(|lock| times(&takes, *lock) > 1);
    open
}

pub fn two_holders(trial: &Trial, outcome: &Outcome) -> bool {
    let given = &trial.given;
    let is_shared = |task: usize| {
        let others = |lock| tasks(given).filter(move |other| given.takes(*other).contains(lock));
        let again = repeated(given, task);
        again.iter().any(|lock| others(lock).count() > 1)
    };
    is_alone(outcome, "no lock is open for two tasks") && tasks(given).any(is_shared)
}

/// The owner of a lock that is taken twice or more, where it alone is broken.
fn wrong_owner(trial: &Trial, outcome: &Outcome) -> Option<u64> {
    let given = &trial.given;
    if !is_alone(outcome, "an owner is who has the lock open") {
        return None;
    }
    let mut owners = tasks(given).flat_map(|task| {
        let again = repeated(given, task).into_iter();
        again.map(move |lock| (task, given.get(OWNER, lock)))
    });
    let wrong = owners.find(|(task, owner)| *owner != *task as u64 + 1);
    wrong.map(|(_, owner)| owner)
}

pub fn no_owner(trial: &Trial, outcome: &Outcome) -> bool {
    wrong_owner(trial, outcome) == Some(0)
}

pub fn other_owner(trial: &Trial, outcome: &Outcome) -> bool {
    wrong_owner(trial, outcome).is_some_and(|owner| owner > 0)
}

/// The lock has no place in the rows.
pub fn owner_of_closed(trial: &Trial, outcome: &Outcome) -> bool {
    let given = &trial.given;
    let is_taken = |lock: usize| tasks(given).any(|task| given.takes(task).contains(&lock));
    let mut locks = 0..given.get(LOCKS, 0) as usize;
    is_alone(outcome, "an owner is who has the lock open")
        && locks.any(|lock| given.get(OWNER, lock) > 0 && !is_taken(lock))
}

/// At a place of a row whose lock is at an older place too, the saved word is not that of
/// the rules; whatever it is at other places.
pub fn wrong_saved(trial: &Trial, outcome: &Outcome) -> bool {
    let given = &trial.given;
    let is_again = |task: usize, at: usize| {
        let mut older = at + 1..given.get(DEPTH, task) as usize;
        let lock = given.get(ROW, slot(task, at));
        older.any(|place| given.get(ROW, slot(task, place)) == lock)
    };
    let is_wrong = |task: usize, at: usize| {
        let saved = given.get(SAVED, slot(task, at));
        saved != crate::sound::saved_by_rule(given, task, at)
    };
    let has_wrong = |task: usize| {
        let mut places = 0..given.get(DEPTH, task) as usize;
        places.any(|at| is_again(task, at) && is_wrong(task, at))
    };
    is_alone(outcome, "saved priorities") && tasks(given).any(has_wrong)
}

/// A task that waits, or that would not run if the most urgent did.
pub fn waits_with_takes(trial: &Trial, outcome: &Outcome) -> bool {
    let given = &trial.given;
    let waits = |task: usize| given.running() != Some(task) && !repeated(given, task).is_empty();
    is_accepted(outcome) && tasks(given).any(waits)
}

/// The restored word is the user word, and the next word is above it.
pub fn call_in_part(trial: &Trial, outcome: &Outcome) -> bool {
    let (Event::Unlock(lock), Some(task)) = (trial.event, trial.given.running()) else {
        return false;
    };
    outcome.stepped.call == 1 && times(&trial.given.takes(task), usize::from(lock)) > 1
}
