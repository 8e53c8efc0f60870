//! What the judge demands of its own three schedulers while it judges: after
//! every event all refuse or accept it alike and run the same task, the words are
//! as defined, no lock has two holders, every section is within its limit and
//! every delay within its bound; no priority is above its task's maximum, and no
//! kernel entry finds anything to cut; the second protocol calls only where the first
//! does, and that one only where the eager scheduler does; and at the end the counts
//! and the open sections equal those over the history. What is demanded of a lock that
//! is taken again is in `taken_again.rs`, and what holds a job up in `spans.rs`.

use crate::aims::times;
use crate::book::Book;
use crate::eager::Eager;
use crate::event::Event;
use crate::lazy::{Lazy, Word};
use crate::plan::Plan;
use crate::protocol::ByProtocol;
use crate::replay::Answer;
use crate::spans::Spans;

/// An event from a fresh start, and what each scheduler made of it.
pub struct Happened {
    pub event: Event,
    /// The number that it is refused with, 0 if it is accepted.
    pub by_eager: u8,
    /// The same, and whether it was a lazy call.
    pub by_lazy: ByProtocol<(u8, bool)>,
    pub is_eager_call: bool,
    /// As it was before the event.
    pub kernel_word: Word,
}

/// The demands after one event; an error says in words what is wrong. The lazy
/// schedulers are those of the second protocol and of the first.
pub fn after_event(
    happened: &Happened,
    bounds: &[u16],
    eager: &Eager,
    [second, first]: [&Lazy; 2],
) -> Result<(), String> {
    let (by_second, by_first) = (happened.by_lazy.second, happened.by_lazy.first);
    let numbers = [happened.by_eager, by_second.0, by_first.0];
    if numbers != [numbers[0]; 3] {
        let words = "the eager, the second and the first scheduler answer";
        return Err(format!("{words} {numbers:?}"));
    }
    if numbers[0] == 17 {
        return Err("17 occurred from a fresh start".to_string());
    }
    nothing_is_cut([second, first])?;
    if numbers[0] != 0 {
        return Ok(());
    }
    same_figures(bounds, eager, second)?;
    same_kept_and_saved(second, first)?;
    within_maxima(&second.plan.maxima, eager)?;
    let next = eager.greatest_other_priority();
    if second.second_word.0 != next {
        let word = second.second_word.0;
        return Err(format!("the next word is {word}, not {next}"));
    }
    kernel_word(happened, next, first)?;
    let calls = [by_second.1, by_first.1, happened.is_eager_call];
    if !calls.is_sorted() {
        let words = "a call by the second, by the first and by the eager scheduler";
        return Err(format!("{words}: {calls:?}"));
    }
    let calls = [second.calls, first.calls, eager.calls()];
    if !calls.is_sorted() {
        let words = "calls by the second, by the first and by the eager scheduler";
        return Err(format!("{words}: {calls:?}"));
    }
    Ok(())
}

/// The second protocol's figures are the eager scheduler's, and within their
/// bounds.
fn same_figures(bounds: &[u16], eager: &Eager, lazy: &Lazy) -> Result<(), String> {
    if eager.running() != lazy.running {
        let (e, l) = (eager.running(), lazy.running);
        return Err(format!(
            "the eager scheduler runs {e:?}, the lazy one {l:?}"
        ));
    }
    let user = eager.running().map_or(0, |task| eager.priority(task));
    if lazy.user_word.0 != user {
        return Err(format!("the user word is {}, not {user}", lazy.user_word.0));
    }
    if eager.calls() != lazy.eager_calls {
        return Err("the counts of eager calls differ".to_string());
    }
    holders_and_sections(lazy.plan, eager, lazy)?;
    for (task, bound) in bounds.iter().enumerate() {
        if eager.release_number(task) != lazy.tasks[task].release_number {
            return Err(format!("the release numbers of task {task} differ"));
        }
        let takes = lazy.tasks[task].takes.iter().map(|take| &take.lock);
        if !eager.takes(task).iter().eq(takes) {
            return Err(format!("the takes of task {task} differ"));
        }
        let delay = eager.delays()[task];
        if delay != lazy.tasks[task].delay {
            return Err(format!("the delays of task {task} differ"));
        }
        if delay > *bound {
            return Err(format!(
                "the delay {delay} of task {task} passes its bound {bound}"
            ));
        }
    }
    Ok(())
}

/// By both protocols all is the same but the second word and the lazy calls: who
/// runs, the user word, and all figures of tasks and locks.
fn same_kept_and_saved(second: &Lazy, first: &Lazy) -> Result<(), String> {
    if second.running != first.running {
        let (s, f) = (second.running, first.running);
        return Err(format!("the second protocol runs {s:?}, the first {f:?}"));
    }
    if second.user_word != first.user_word {
        let (s, f) = (second.user_word.0, first.user_word.0);
        return Err(format!("the user words are {s} and {f}"));
    }
    let counts = |lazy: &Lazy| (lazy.accepted, lazy.eager_calls);
    if counts(second) != counts(first) {
        return Err("accepted events or eager calls differ by protocol".to_string());
    }
    let mut tasks = second.tasks.iter().zip(&first.tasks);
    if let Some(task) = tasks.position(|(second, first)| second != first) {
        return Err(format!("the figures of task {task} differ by protocol"));
    }
    let mut locks = second.sections.iter().zip(&first.sections);
    if let Some(lock) = locks.position(|(second, first)| second != first) {
        return Err(format!("the figures of lock {lock} differ by protocol"));
    }
    Ok(())
}

/// No event up to here has cut a user word.
fn nothing_is_cut(lazies: [&Lazy; 2]) -> Result<(), String> {
    match lazies.iter().find(|lazy| lazy.cuts > 0) {
        Some(lazy) => {
            let protocol = lazy.protocol.name();
            Err(format!("the {protocol} protocol has cut a user word"))
        }
        None => Ok(()),
    }
}

/// No released task, be it the running one or not, has a priority above its maximum.
/// So no entry that may come next has anything to cut.
fn within_maxima(maxima: &[u8], eager: &Eager) -> Result<(), String> {
    for (task, maximum) in maxima.iter().enumerate() {
        let priority = eager.priority(task);
        if eager.is_released(task) && priority > *maximum {
            return Err(format!(
                "task {task} has priority {priority}, above its maximum {maximum}"
            ));
        }
    }
    Ok(())
}

/// The kernel word is at least the priority of every other released task, of which
/// this is the greatest, and at most the user word. A kernel entry leaves the user
/// word there, and no other event changes it.
fn kernel_word(happened: &Happened, greatest: u8, first: &Lazy) -> Result<(), String> {
    let (word, user) = (first.second_word, first.user_word);
    if word < Word(greatest) {
        let word = word.0;
        return Err(format!(
            "the kernel word {word} is below {greatest}, a waiting task's priority"
        ));
    }
    if word > user {
        let (word, user) = (word.0, user.0);
        return Err(format!(
            "the kernel word {word} is above the user word {user}"
        ));
    }
    let left = match happened.event.is_entry(happened.by_lazy.first.1) {
        true => user,
        false => happened.kernel_word,
    };
    if word != left {
        let (word, left) = (word.0, left.0);
        return Err(format!("the kernel word is {word}, not {left}"));
    }
    Ok(())
}

/// No lock has two holders, who are tasks with a take of it or more, and every section is
/// within its limit.
fn holders_and_sections(plan: &Plan, eager: &Eager, lazy: &Lazy) -> Result<(), String> {
    let mut holders: Vec<Option<usize>> = vec![None; plan.locks.len()];
    for task in 0..plan.bases.len() {
        for lock in eager.takes(task) {
            let other = holders[*lock].replace(task);
            if let Some(other) = other.filter(|other| *other != task) {
                return Err(format!(
                    "lock {lock} is open for {other} and {task} at once"
                ));
            }
        }
    }
    for (lock, holder) in holders.iter().enumerate() {
        if *holder != lazy.sections[lock].holder {
            return Err(format!("the holders of lock {lock} differ"));
        }
        let units = eager.units(lock);
        if units != lazy.sections[lock].units {
            return Err(format!("the units of lock {lock} differ"));
        }
        if units > u32::from(plan.locks[lock].limit) {
            return Err(format!(
                "lock {lock}'s section has {units} units, past its limit"
            ));
        }
        if holder.is_none() && units != 0 {
            return Err(format!("lock {lock} is closed and has {units} units"));
        }
    }
    Ok(())
}

/// The counts of the answers against those over the history, which is the list
/// of accepted events and the rows written for them.
pub fn after_run(book: &Book, accepted: usize, answers: &ByProtocol<Answer>) -> Result<(), String> {
    let history = &book.events[..accepted];
    let (second, first) = (&answers.second, &answers.first);
    for answer in [second, first] {
        let calls = answer.rows.chunks(4).take(accepted);
        let calls = calls.filter(|row| row[3] == 1).count();
        if calls as u32 != answer.lazy_calls {
            let lazy = answer.lazy_calls;
            return Err(format!("{lazy} lazy calls, over the history {calls}"));
        }
    }
    let eager_calls = eager_over_history(&book.plan, history, &second.rows);
    if second.eager_calls != eager_calls {
        let calls = second.eager_calls;
        return Err(format!(
            "{calls} eager calls, over the history {eager_calls}"
        ));
    }
    for (task, delay) in second.delays.iter().enumerate() {
        let counted = delay_over_history(&book.plan, history, &second.rows, task);
        if counted != u64::from(*delay) {
            return Err(format!(
                "the delay of task {task} is {delay}, over the history {counted}"
            ));
        }
    }
    // By the first protocol the answer is the same but for the second words and
    // the lazy calls.
    let mut alike = first.clone();
    alike.lazy_calls = second.lazy_calls;
    let rows = alike.rows.chunks_mut(4).zip(second.rows.chunks(4));
    for (row, others) in rows.take(accepted) {
        row[2..].copy_from_slice(&others[2..]);
    }
    if alike != *second {
        return Err("the answers differ by protocol in more than the second word".to_string());
    }
    Ok(())
}

/// The sections that are open at the end, by the history, are those of the eager
/// scheduler: with as many takes and as many units.
pub fn sections_over_history(spans: &Spans, eager: &Eager, plan: &Plan) -> Result<(), String> {
    for lock in 0..plan.locks.len() {
        let span = spans.open.iter().find(|span| span.lock == lock);
        let takes = |task| times(eager.takes(task), lock);
        let has_its_takes = (0..plan.bases.len()).all(|task| {
            let counted = span.filter(|span| span.task == task);
            takes(task) == counted.map_or(0, |span| span.takes)
        });
        if !has_its_takes {
            return Err(format!(
                "the takes of lock {lock} are others over the history"
            ));
        }
        let units = span.map_or(0, |span| span.units);
        if u64::from(eager.units(lock)) != units {
            return Err(format!("lock {lock} has {units} units over the history"));
        }
    }
    Ok(())
}

/// The acquires and unlocks after which the task that did them has another
/// priority than before: the greatest of its base and the ceilings of the locks
/// that it has taken. The task that ran at an event is the one that the row
/// before names.
fn eager_over_history(plan: &Plan, history: &[Event], rows: &[u8]) -> u32 {
    let mut raised: Vec<Vec<u8>> = plan.bases.iter().map(|base| vec![*base]).collect();
    let mut calls = 0;
    for (place, event) in history.iter().enumerate() {
        let (Event::Acquire(lock) | Event::Unlock(lock)) = event else {
            continue;
        };
        let numbers = &mut raised[usize::from(rows[4 * (place - 1)])];
        let before = numbers.iter().max().copied();
        match event {
            Event::Acquire(_) => numbers.push(plan.locks[usize::from(*lock)].ceiling),
            _ => _ = numbers.pop(),
        }
        calls += u32::from(before != numbers.iter().max().copied());
    }
    calls
}

/// The units that tasks of lower base worked between the task's latest release
/// and the end of that job. The task that ran at an event is the one that the
/// row before names.
fn delay_over_history(plan: &Plan, history: &[Event], rows: &[u8], task: usize) -> u64 {
    let is_release = |event: &Event| *event == Event::Release(task as u8);
    let Some(released_at) = history.iter().rposition(is_release) else {
        return 0;
    };
    let mut units = 0;
    for place in released_at + 1..history.len() {
        let ran = usize::from(rows[4 * (place - 1)]);
        match history[place] {
            Event::Work(amount) if plan.bases[ran] < plan.bases[task] => {
                units += u64::from(amount);
            }
            Event::Finish if ran == task => break,
            _ => {}
        }
    }
    units
}
