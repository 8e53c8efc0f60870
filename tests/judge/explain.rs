//! RULES 19.9: `explain`, what the calls and the refusal of a book were about, in words.
//! It stands after the report.

use crate::book::{self, Refusal};
use crate::event::Event;
use crate::history::{History, Moment, Open, Refused};
use crate::meanings::{refused, refused_event};
use crate::protocol::Protocol;
use crate::record_lines::{bytes, entry, event, lock, pair, task, NOT_REACHED};
use crate::show::{read_part, tested};
use crate::wrong::Wrong;

/// The words by a protocol, from the line `in words` on.
pub fn explain(book: &[u8], protocol: Protocol, wrong: Wrong) -> String {
    let book = read_part(book);
    let protocol = match wrong {
        Wrong::ExplainedBySecond => Protocol::Second,
        _ => protocol,
    };
    let lines = match tested(book, wrong) {
        Ok(accepted) => of_history(&History::of(accepted, protocol, wrong), wrong),
        Err(refusal) => {
            let refused = refused(refusal.number, refusal.place);
            let mut lines = vec![NO_CALL.to_string(), refused, what_stands_at(book, refusal)];
            if wrong == Wrong::NoCallUnsaid {
                lines.remove(0);
            }
            lines
        }
    };
    let all = ["in words".to_string()].into_iter().chain(lines);
    all.map(|line| format!("{line}\n")).collect()
}

const NO_CALL: &str = "no call of the kernel";

/// The line of what a refusal of a book names.
fn what_stands_at(book: &[u8], refusal: Refusal) -> String {
    let place = refusal.place as usize;
    let records = book::cut(book).unwrap_or_default();
    match refusal.number {
        1 => bytes(book),
        3 if place == 5 => bytes(book),
        2 | 3 => entry(book, place),
        4 => task(&records, place),
        5 | 7 => lock(&records, place),
        6 | 24 => pair(&records, place),
        _ => event(&records, place, place + 1, NOT_REACHED),
    }
}

fn of_history(history: &History, wrong: Wrong) -> Vec<String> {
    let numbered = history.moments.iter().zip(1..);
    let calls = numbered.filter_map(|(moment, number)| call(moment, number, wrong));
    let mut lines: Vec<String> = calls.collect();
    if lines.is_empty() {
        lines.push(NO_CALL.to_string());
    }
    if let Some(refused) = &history.refused {
        let number = history.moments.len() + 1;
        let words = refused_event(refused.number, wrong);
        lines.push(format!("event {number}: {words}"));
        lines.extend(reason(history, refused, wrong));
    }
    lines
}

/// The line of an accepted event, if it is a call: then a task ran before it and
/// one runs after it, and it names a lock.
fn call(moment: &Moment, number: usize, wrong: Wrong) -> Option<String> {
    let (Event::Unlock(lock), true) = (moment.event, moment.is_call) else {
        return None;
    };
    let (before, after) = (moment.before?, moment.after?);
    let gave = format!("event {number}: task {before} gave lock {lock} back and called the kernel");
    let waited_for = match wrong {
        Wrong::WaitedForItself => after,
        _ => before,
    };
    Some(if after == before {
        format!("{gave}; nobody had waited for task {before}")
    } else {
        let word = moment.user_word;
        format!("{gave}; task {after} had waited for task {waited_for} and runs at {word}")
    })
}

/// Why an event was refused. There is none for a number that refuses no event of a book.
fn reason(history: &History, refused: &Refused, wrong: Wrong) -> Option<String> {
    let (tasks, locks) = (history.plan.bases.len(), history.plan.locks.len());
    let named = match refused.event {
        Event::Release(id) | Event::Acquire(id) | Event::Unlock(id) => usize::from(id),
        _ => 0,
    };
    match refused.number {
        12 => return Some("every task that was released has finished".to_string()),
        13 => {
            return Some(format!(
                "the plan has {tasks} tasks and {locks} locks, counted from 0"
            ))
        }
        14 => return Some(format!("task {named} has not finished since its release")),
        17 => {
            let holder = history.holder(named)?;
            return Some(format!(
                "task {holder} took lock {named} and has not given it back"
            ));
        }
        _ => {}
    }
    // All others are acts of the task that runs.
    let task = refused.running?;
    let taken = history.taken(task, wrong);
    let newest = match wrong {
        Wrong::OldestTake => taken.takes.first(),
        _ => taken.takes.last(),
    };
    Some(match refused.number {
        15 => format!("the plan gives task {task} no use of lock {named}"),
        18 => format!("task {task} may have no more"),
        19 => {
            let has = match newest {
                Some(newest) if wrong == Wrong::OldWords => {
                    format!("the newest lock of task {task} is {newest}")
                }
                Some(newest) => format!("the newest take of task {task} is of lock {newest}"),
                None => format!("task {task} has no lock open"),
            };
            format!("{has}, and lock {named} was to be given back")
        }
        21 => {
            let (lock, more) = passed(history, refused, wrong)?;
            let units = taken.units(lock);
            let limit = history.plan.locks[lock].limit;
            format!(
                "task {task} worked {units} units of the {limit} that lock {lock} allows, \
                 and {more} more would pass them"
            )
        }
        22 => format!("task {task} has lock {} open", newest?),
        _ => return None,
    })
}

/// The least lock whose section a work would take past its limit, and the units of the
/// work.
fn passed(history: &History, refused: &Refused, wrong: Wrong) -> Option<(usize, u64)> {
    let Event::Work(more) = refused.event else {
        return None;
    };
    let more = u64::from(more);
    let taken = history.taken(refused.running?, Wrong::Nothing);
    let limit = |lock: usize| u64::from(history.plan.locks[lock].limit);
    let is_passed = |open: &&Open| open.units + more > limit(open.lock);
    let passed = taken.open.iter().filter(is_passed).map(|open| open.lock);
    let named = match wrong {
        Wrong::NewestPassed => taken.takes.last().copied(),
        _ => passed.min(),
    };
    Some((named?, more))
}
