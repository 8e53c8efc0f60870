//! What makes a generated step an example of a rule about the second word: the rules
//! of the kernel word, and states that are sound by one protocol alone.

use crate::aims::Scene;
use crate::event::Event;
use crate::protocol::Protocol;
use crate::sound::{kernel_word, next_by_rule, next_word, CONDITIONS};
use crate::step::Outcome;
use crate::step_rules::{is_accepted, raising, working};
use crate::trials::Trial;
use crate::whole::{slot, Whole, DEPTH, SAVED, SECOND, USER};

fn second(whole: &Whole) -> u64 {
    whole.get(SECOND, 0)
}

fn user(whole: &Whole) -> u64 {
    whole.get(USER, 0)
}

pub fn sound_by_second(trial: &Trial, outcome: &Outcome) -> bool {
    outcome.broken.is_empty() && !kernel_word(&trial.given)
}

pub fn sound_by_first(trial: &Trial, outcome: &Outcome) -> bool {
    outcome.broken.is_empty() && !next_word(&trial.given)
}

/// Nothing is broken but what is asked of the second word, which the other
/// protocol would allow.
pub fn sound_by_first_alone(trial: &Trial, outcome: &Outcome) -> bool {
    is_broken_by_word(trial, outcome) && kernel_word(&trial.given)
}

pub fn sound_by_second_alone(trial: &Trial, outcome: &Outcome) -> bool {
    is_broken_by_word(trial, outcome) && next_word(&trial.given)
}

/// Whether the condition on the second word is the only one that is broken.
fn is_broken_by_word(trial: &Trial, outcome: &Outcome) -> bool {
    let other = match trial.protocol {
        Protocol::First => Protocol::Second,
        Protocol::Second => Protocol::First,
    };
    match outcome.broken[..] {
        [only] => !CONDITIONS[only].is_asked(other),
        _ => false,
    }
}

pub fn one_above_user(trial: &Trial, outcome: &Outcome) -> bool {
    is_broken_by_word(trial, outcome) && second(&trial.given) == user(&trial.given) + 1
}

pub fn greatest_word(trial: &Trial, outcome: &Outcome) -> bool {
    is_broken_by_word(trial, outcome) && second(&trial.given) == SECOND.greatest()
}

pub fn word_of_nobody(trial: &Trial, outcome: &Outcome) -> bool {
    is_broken_by_word(trial, outcome)
        && second(&trial.given) == 1
        && trial.given.running().is_none()
}

pub fn accepted_at_0(trial: &Trial, outcome: &Outcome) -> bool {
    is_accepted(outcome) && user(&trial.given) > 0 && second(&trial.given) == 0
}

pub fn accepted_at_user(trial: &Trial, outcome: &Outcome) -> bool {
    is_accepted(outcome) && user(&trial.given) > 0 && second(&trial.given) == user(&trial.given)
}

/// Whether the event was a call, and the running task is the same after it.
fn call_of_same(trial: &Trial, outcome: &Outcome) -> Option<bool> {
    let is_same = trial.given.running() == outcome.stepped.after.running();
    (outcome.stepped.call == 1).then_some(is_same)
}

pub fn same_again(trial: &Trial, outcome: &Outcome) -> bool {
    call_of_same(trial, outcome) == Some(true)
}

pub fn another(trial: &Trial, outcome: &Outcome) -> bool {
    call_of_same(trial, outcome) == Some(false)
}

/// The word that an accepted unlock restores.
fn restored(trial: &Trial, outcome: &Outcome) -> Option<u64> {
    let Event::Unlock(_) = trial.event else {
        return None;
    };
    let task = trial.given.running().filter(|_| is_accepted(outcome))?;
    Some(trial.given.get(SAVED, slot(task, 0)))
}

pub fn call_by_one(trial: &Trial, outcome: &Outcome) -> bool {
    restored(trial, outcome).is_some_and(|word| second(&trial.given) == word + 1)
}

pub fn no_call_at_word(trial: &Trial, outcome: &Outcome) -> bool {
    restored(trial, outcome).is_some_and(|word| second(&trial.given) == word)
}

/// Somebody waits with more than the restored word, and the kernel word does not
/// tell: no fresh start leads there.
pub fn no_call_below(trial: &Trial, outcome: &Outcome) -> bool {
    let below = restored(trial, outcome).filter(|_| outcome.stepped.call == 0);
    below.is_some_and(|word| word < next_by_rule(&trial.given))
}

/// Whether an accepted event with a lock open for the running task leaves that task
/// running and raises the kernel word.
fn raises_inside(trial: &Trial, outcome: &Outcome) -> bool {
    let (given, after) = (&trial.given, &outcome.stepped.after);
    let is_inside = given
        .running()
        .is_some_and(|task| given.get(DEPTH, task) > 0);
    let goes_on = is_accepted(outcome) && given.running() == after.running();
    is_inside && goes_on && second(given) < second(after)
}

pub fn tick_inside(trial: &Trial, outcome: &Outcome) -> bool {
    trial.event == Event::Tick && raises_inside(trial, outcome)
}

pub fn release_inside(trial: &Trial, outcome: &Outcome) -> bool {
    matches!(trial.event, Event::Release(_)) && raises_inside(trial, outcome)
}

pub fn acquire_after_entry(trial: &Trial, outcome: &Outcome) -> bool {
    let (given, after) = (&trial.given, &outcome.stepped.after);
    raising(trial, outcome) && second(given) == user(given) && second(after) < user(after)
}

pub fn finish_sets(trial: &Trial, outcome: &Outcome) -> bool {
    let is_other = second(&trial.given) != second(&outcome.stepped.after);
    trial.event == Event::Finish && is_accepted(outcome) && is_other
}

pub fn delays_at_0(trial: &Trial, outcome: &Outcome) -> bool {
    let delays = working(trial, outcome).is_some_and(|(_, delays)| delays);
    delays && second(&trial.given) == 0
}

pub fn delays_at_base(trial: &Trial, outcome: &Outcome) -> bool {
    working(trial, outcome) == Some((0, true))
}
