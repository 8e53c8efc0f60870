//! What makes a generated step an example of a rule about the maxima: who runs at
//! its maximum, and plans that break one thing about them and nothing else.

use crate::aims::Scene;
use crate::sound;
use crate::step::Outcome;
use crate::step_rules::is_accepted;
use crate::trials::Trial;
use crate::whole::{Whole, BASE, CEILING, LOCKS, MAXIMUM, TASKS, USER};

/// One more would have to be cut.
pub fn at_maximum(trial: &Trial, outcome: &Outcome) -> bool {
    let given = &trial.given;
    let Some(task) = given.running().filter(|_| is_accepted(outcome)) else {
        return false;
    };
    let user = given.get(USER, 0);
    user > given.get(BASE, task) && user == given.get(MAXIMUM, task)
}

pub fn one_above_maximum(trial: &Trial, outcome: &Outcome) -> bool {
    let given = &trial.given;
    let is_one_above = |task, lock| given.get(CEILING, lock) == given.get(MAXIMUM, task) + 1;
    is_above_alone(trial, outcome) && uses(given).any(|(task, lock)| is_one_above(task, lock))
}

/// The lock is open for the task, whose priority is above its maximum then.
pub fn above_open(trial: &Trial, outcome: &Outcome) -> bool {
    let given = &trial.given;
    let is_open = |(task, lock): (usize, usize)| {
        given.get(CEILING, lock) > given.get(MAXIMUM, task) && given.takes(task).contains(&lock)
    };
    is_above_alone(trial, outcome) && uses(given).any(is_open)
}

pub fn one_below_base(trial: &Trial, outcome: &Outcome) -> bool {
    let given = &trial.given;
    let is_one_below = |task| given.get(MAXIMUM, task) + 1 == given.get(BASE, task);
    outcome.broken.len() == 1
        && !sound::maxima(given)
        && (0..given.get(TASKS, 0) as usize).any(is_one_below)
}

/// The plan has no more tasks than places, and nothing but that maximum is wrong.
pub fn maximum_past_tasks(trial: &Trial, outcome: &Outcome) -> bool {
    let given = &trial.given;
    let mut past = given.get(TASKS, 0) as usize..MAXIMUM.count();
    let is_there = past.any(|task| given.get(MAXIMUM, task) != 0);
    outcome.broken.len() == 1 && is_there
}

/// Whether nothing is broken but that no ceiling is above the maximum of a user.
fn is_above_alone(trial: &Trial, outcome: &Outcome) -> bool {
    outcome.broken.len() == 1 && !sound::within_maxima(&trial.given)
}

/// The tasks and locks of all uses of a plan whose counts are in range.
fn uses(whole: &Whole) -> impl Iterator<Item = (usize, usize)> + '_ {
    let (tasks, locks) = (whole.get(TASKS, 0) as usize, whole.get(LOCKS, 0) as usize);
    let of_task = move |task| (0..locks).map(move |lock| (task, lock));
    (0..tasks)
        .flat_map(of_task)
        .filter(|(task, lock)| whole.uses(*task, *lock))
}
