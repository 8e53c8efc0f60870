//! The rules that are easy to miss, each with what makes a generated step an
//! example of it. Those of the kernel word, and what the protocols allow of each
//! other's word, are in `word_rules.rs`, those of the maxima in `maximum_rules.rs`, and
//! those of takes in `take_rules.rs`; what books meet of takes too is in `taken.rs`.

use crate::aims::{self, Scene};
use crate::event::Event;
use crate::maximum_rules::{
    above_open, at_maximum, maximum_past_tasks, one_above_maximum, one_below_base,
};
use crate::plan::MOST_UNITS;
use crate::protocol::{Protocol, PROTOCOLS};
use crate::sound::{next_by_rule, priority};
use crate::step::Outcome;
use crate::take_rules::{
    call_in_part, no_owner, other_owner, owner_of_closed, two_holders, waits_with_takes,
    wrong_saved,
};
use crate::trials::Trial;
use crate::whole::{DELAY, EAGER, RUNNING, SECOND, TASKS, USER};
use crate::word_rules::{
    accepted_at_0, accepted_at_user, acquire_after_entry, another, call_by_one, delays_at_0,
    delays_at_base, finish_sets, greatest_word, no_call_at_word, no_call_below, one_above_user,
    release_inside, same_again, sound_by_first, sound_by_first_alone, sound_by_second,
    sound_by_second_alone, tick_inside, word_of_nobody,
};

/// Whether a step is an example of a rule.
pub type IsMet = fn(&Trial, &Outcome) -> bool;

/// Which protocols can meet a rule.
const BOTH: &[Protocol] = &PROTOCOLS;
const SECOND_ALONE: &[Protocol] = &[Protocol::Second];
const FIRST_ALONE: &[Protocol] = &[Protocol::First];

#[rustfmt::skip] // a line each
pub const RULES: [(&str, &[Protocol], IsMet); 49] = [
    ("accepted with a lazy call", BOTH, accepted_with_call),
    ("accepted without a lazy call", BOTH, accepted_without_call),
    ("an acquire that is an eager call", BOTH, raising),
    ("an acquire that is no eager call", BOTH, raising_nothing),
    ("an unlock that is an eager call", BOTH, lowering),
    ("an unlock that is no eager call", BOTH, lowering_nothing),
    ("a release that switches, and not to the newcomer", BOTH, other_than_newcomer),
    ("a delay that sticks", BOTH, delay_sticks),
    ("an accepted event while another task is more urgent", BOTH, not_the_best_runs),
    ("19 for an older open lock", BOTH, older_lock),
    ("21 for an older section alone", BOTH, older_section),
    ("a changed figure that leaves the state sound", BOTH, still_sound),
    ("an accepted event while the running task is raised to its maximum", BOTH, at_maximum),
    ("10 for a ceiling one above a maximum alone", BOTH, one_above_maximum),
    ("10 for a ceiling above a maximum alone, of an open lock", BOTH, above_open),
    ("10 for a maximum one below its base alone", BOTH, one_below_base),
    ("10 for a maximum past the last task alone", BOTH, maximum_past_tasks),
    ("accepted while a task waits that has taken a lock twice", BOTH, waits_with_takes),
    ("10 for a lock open for two tasks alone, taken twice by one", BOTH, two_holders),
    ("10 for no owner of a lock taken twice alone", BOTH, no_owner),
    ("10 for another owner of a lock taken twice alone", BOTH, other_owner),
    ("10 for an owner of a lock without a take alone", BOTH, owner_of_closed),
    ("10 for a wrong saved word of a lock taken again alone", BOTH, wrong_saved),

    ("an unlock that calls with the priority unchanged", SECOND_ALONE, call_of_equal),
    ("an unlock that calls and leaves its lock open", SECOND_ALONE, call_in_part),
    ("a newcomer above both words", SECOND_ALONE, above_both),
    ("a newcomer above the user word, at the next word", SECOND_ALONE, at_the_next_word),
    ("work with the next word at the worker's base", SECOND_ALONE, spared_at_base),
    ("work that delays, with the next word one above the worker's base", SECOND_ALONE, delays_by_one),
    ("a next word above the user word: not sound by the first protocol", SECOND_ALONE, sound_by_second),
    ("10 for a word that is sound by the first protocol", SECOND_ALONE, sound_by_first_alone),

    ("a call that elects the same task again", FIRST_ALONE, same_again),
    ("a call that elects another task", FIRST_ALONE, another),
    ("a call with the kernel word one above the restored word", FIRST_ALONE, call_by_one),
    ("an unlock with the kernel word at the restored word", FIRST_ALONE, no_call_at_word),
    ("an unlock without a call before a more urgent task", FIRST_ALONE, no_call_below),
    ("a tick inside a section that raises the kernel word", FIRST_ALONE, tick_inside),
    ("a release inside a section that raises it and does not switch", FIRST_ALONE, release_inside),
    ("an acquire right after an entry that raises the user word alone", FIRST_ALONE, acquire_after_entry),
    ("a finish after which the kernel word is another", FIRST_ALONE, finish_sets),
    ("work that delays, with the kernel word 0", FIRST_ALONE, delays_at_0),
    ("work that delays, with the kernel word at the worker's base", FIRST_ALONE, delays_at_base),
    ("a kernel word that is not sound by the second protocol", FIRST_ALONE, sound_by_first),
    ("10 for a word that is sound by the second protocol", FIRST_ALONE, sound_by_second_alone),
    ("10 for a kernel word one above the user word", FIRST_ALONE, one_above_user),
    ("10 for the greatest kernel word", FIRST_ALONE, greatest_word),
    ("10 for a kernel word of 1 with nobody", FIRST_ALONE, word_of_nobody),
    ("accepted with the kernel word 0", FIRST_ALONE, accepted_at_0),
    ("accepted with the kernel word at the user word", FIRST_ALONE, accepted_at_user),
];

pub fn is_accepted(outcome: &Outcome) -> bool {
    outcome.stepped.number == 0
}

fn accepted_with_call(_: &Trial, outcome: &Outcome) -> bool {
    is_accepted(outcome) && outcome.stepped.call == 1
}

fn accepted_without_call(_: &Trial, outcome: &Outcome) -> bool {
    is_accepted(outcome) && outcome.stepped.call == 0
}

/// The newest take, which the unlock gives back, did not raise the running task.
fn call_of_equal(trial: &Trial, outcome: &Outcome) -> bool {
    let Some(task) = trial.given.running().filter(|_| outcome.stepped.call == 1) else {
        return false;
    };
    priority(&trial.given, task) == priority(&outcome.stepped.after, task)
}

/// By how much an accepted event raised the count of eager calls.
fn eager_calls(trial: &Trial, outcome: &Outcome) -> Option<u64> {
    let counted = outcome.stepped.after.get(EAGER, 0) - trial.given.get(EAGER, 0);
    Some(counted).filter(|_| is_accepted(outcome))
}

pub fn raising(trial: &Trial, outcome: &Outcome) -> bool {
    matches!(trial.event, Event::Acquire(_)) && eager_calls(trial, outcome) == Some(1)
}

fn raising_nothing(trial: &Trial, outcome: &Outcome) -> bool {
    matches!(trial.event, Event::Acquire(_)) && eager_calls(trial, outcome) == Some(0)
}

fn lowering(trial: &Trial, outcome: &Outcome) -> bool {
    matches!(trial.event, Event::Unlock(_)) && eager_calls(trial, outcome) == Some(1)
}

fn lowering_nothing(trial: &Trial, outcome: &Outcome) -> bool {
    matches!(trial.event, Event::Unlock(_)) && eager_calls(trial, outcome) == Some(0)
}

fn other_than_newcomer(trial: &Trial, outcome: &Outcome) -> bool {
    let Event::Release(task) = trial.event else {
        return false;
    };
    let runs = outcome.stepped.after.get(RUNNING, 0);
    is_accepted(outcome) && runs != trial.given.get(RUNNING, 0) && runs != u64::from(task)
}

/// The base of a newcomer that an accepted release brings, if it is above the user
/// word, and the next word before.
fn switching(trial: &Trial, outcome: &Outcome) -> Option<(u64, u64)> {
    let Event::Release(task) = trial.event else {
        return None;
    };
    if !is_accepted(outcome) {
        return None;
    }
    let base = u64::from(trial.given.plan().bases[usize::from(task)]);
    Some((base, trial.given.get(SECOND, 0))).filter(|_| base > trial.given.get(USER, 0))
}

fn above_both(trial: &Trial, outcome: &Outcome) -> bool {
    switching(trial, outcome).is_some_and(|(base, next)| base > next)
}

fn at_the_next_word(trial: &Trial, outcome: &Outcome) -> bool {
    switching(trial, outcome).is_some_and(|(base, next)| base == next)
}

/// How far the second word is above the base of a task that works, and whether a
/// delay grew.
pub fn working(trial: &Trial, outcome: &Outcome) -> Option<(i64, bool)> {
    let worker = trial.given.running().filter(|_| is_accepted(outcome))?;
    let Event::Work(_) = trial.event else {
        return None;
    };
    let base = i64::from(trial.given.plan().bases[worker]);
    let tasks = trial.given.get(TASKS, 0) as usize;
    let grew = |task| outcome.stepped.after.get(DELAY, task) > trial.given.get(DELAY, task);
    let above = trial.given.get(SECOND, 0) as i64 - base;
    Some((above, (0..tasks).any(grew)))
}

fn spared_at_base(trial: &Trial, outcome: &Outcome) -> bool {
    working(trial, outcome) == Some((0, false))
}

fn delays_by_one(trial: &Trial, outcome: &Outcome) -> bool {
    working(trial, outcome) == Some((1, true))
}

/// The sum would be more than a delay can be.
fn delay_sticks(trial: &Trial, outcome: &Outcome) -> bool {
    let Event::Work(amount) = trial.event else {
        return false;
    };
    let most = u64::from(MOST_UNITS);
    let tasks = trial.given.get(TASKS, 0) as usize;
    let sticks = |task| {
        let before = trial.given.get(DELAY, task);
        let after = outcome.stepped.after.get(DELAY, task);
        before < most && after == most && before + u64::from(amount) > most
    };
    is_accepted(outcome) && (0..tasks).any(sticks)
}

fn not_the_best_runs(trial: &Trial, outcome: &Outcome) -> bool {
    is_accepted(outcome) && next_by_rule(&trial.given) > trial.given.get(USER, 0)
}

fn older_lock(trial: &Trial, outcome: &Outcome) -> bool {
    let Event::Unlock(lock) = trial.event else {
        return false;
    };
    let task = trial
        .given
        .running()
        .filter(|_| outcome.stepped.number == 19);
    task.is_some_and(|task| trial.given.takes(task).contains(&usize::from(lock)))
}

/// The newest section would take the work, and an older one doesn't.
fn older_section(trial: &Trial, outcome: &Outcome) -> bool {
    let Event::Work(amount) = trial.event else {
        return false;
    };
    let task = trial
        .given
        .running()
        .filter(|_| outcome.stepped.number == 21);
    let newest = task.and_then(|task| trial.given.takes(task).pop());
    newest.is_some_and(|lock| {
        let left = aims::left(&trial.given.plan(), &trial.given, lock);
        usize::from(amount) <= left
    })
}

fn still_sound(trial: &Trial, outcome: &Outcome) -> bool {
    trial.changed.is_some() && outcome.broken.is_empty()
}
