//! RULES 14.8: a take of an open lock raises nothing and calls nobody. It is asked of every
//! such take and of every unlock that leaves its lock open, by all three schedulers and in
//! every single step; and at moments of a run the schedulers are made to take an open lock
//! once more and to give it back, be that in the list or not.

use crate::aims::{times, Scene};
use crate::eager::Eager;
use crate::event::Event;
use crate::lazy::{Lazy, Section, Take, TaskFigures, Word};
use crate::plan::MOST_TAKES;
use crate::protocol::Protocol;
use crate::sound;
use crate::states::push;
use crate::whole::{slot, Whole, ACCEPTED, DEPTH, EAGER, LAZY, ROW, SAVED, SECOND, USER};

/// The schedulers as they were before an event that takes an open lock, or that gives one
/// back of several takes.
pub struct Before<'p> {
    event: Event,
    task: usize,
    eager: Eager<'p>,
    lazies: [Lazy<'p>; 2],
}

impl<'p> Before<'p> {
    /// Nothing for any other event. A take of an open lock is one, whatever it is answered.
    pub fn of(event: Event, eager: &Eager<'p>, lazies: [&Lazy<'p>; 2]) -> Option<Before<'p>> {
        let task = eager.running()?;
        let takes = eager.takes(task);
        let is_this = match event {
            Event::Acquire(lock) => takes.contains(&usize::from(lock)),
            Event::Unlock(lock) => {
                let lock = usize::from(lock);
                takes.last() == Some(&lock) && times(takes, lock) > 1
            }
            _ => false,
        };
        is_this.then(|| Before {
            event,
            task,
            eager: eager.clone(),
            lazies: lazies.map(Lazy::clone),
        })
    }

    /// What the event must have made of them, given its answer; an error says in words
    /// what is wrong.
    pub fn demand(&self, number: u8, eager: &Eager, lazies: [&Lazy; 2]) -> Result<(), String> {
        let takes = self.eager.takes(self.task);
        let expected = match self.event {
            Event::Acquire(_) if takes.len() == MOST_TAKES => 18,
            _ => 0,
        };
        if number != expected {
            return Err(format!(
                "of an open lock it is answered {number}, not {expected}"
            ));
        }
        if number != 0 {
            return Ok(());
        }
        let takes = match self.event {
            Event::Acquire(lock) => [takes, &[usize::from(lock)]].concat(),
            _ => takes[..takes.len() - 1].to_vec(),
        };
        if eager.takes(self.task) != takes {
            return Err("the takes of the eager scheduler are others".to_string());
        }
        if !is_alike(&self.eager, eager, lazies[0].plan.bases.len()) {
            return Err("of an open lock it changes more than the takes".to_string());
        }
        for (before, after) in self.lazies.iter().zip(lazies) {
            let mut wanted = before.clone();
            let row = &mut wanted.tasks[self.task].takes;
            match self.event {
                Event::Acquire(lock) => row.push(Take {
                    lock: usize::from(lock),
                    saved: before.user_word,
                }),
                _ => _ = row.pop(),
            }
            if figures(after) != figures(&wanted) || after.accepted != before.accepted + 1 {
                let by = after.protocol.name();
                return Err(format!("by the {by} protocol it changes more than the row"));
            }
        }
        Ok(())
    }
}

/// Whether who runs, all priorities, units, delays and the count of calls are the same.
fn is_alike(before: &Eager, after: &Eager, tasks: usize) -> bool {
    let priorities = |eager: &Eager| {
        (0..tasks)
            .map(|task| eager.priority(task))
            .collect::<Vec<_>>()
    };
    before.running() == after.running()
        && before.all_units() == after.all_units()
        && before.delays() == after.delays()
        && before.calls() == after.calls()
        && priorities(before) == priorities(after)
}

/// All figures of a lazy scheduler but the count of accepted events.
type Figures<'l> = (
    Option<usize>,
    (Word, Word),
    (u32, u32),
    &'l [TaskFigures],
    &'l [Section],
);

fn figures<'l>(lazy: &'l Lazy) -> Figures<'l> {
    (
        lazy.running,
        (lazy.user_word, lazy.second_word),
        (lazy.calls, lazy.eager_calls),
        &lazy.tasks,
        &lazy.sections,
    )
}

/// At a moment of a run: each open lock of the running task can be taken once more, and
/// when it is given back all is as it was, but for the count of accepted events.
pub fn at_moment(eager: &Eager, lazies: [&Lazy; 2]) -> Result<(), String> {
    let Some(task) = eager.running() else {
        return Ok(());
    };
    let takes = eager.takes(task);
    let Some(lock) = takes.first().filter(|_| takes.len() < MOST_TAKES) else {
        return Ok(());
    };
    // The oldest and the newest are tried, which are under others and not.
    for lock in [lock, &takes[takes.len() - 1]] {
        there_and_back(*lock, eager, lazies).map_err(|words| {
            format!("where lock {lock} is open, taken once more and given back: {words}")
        })?;
    }
    Ok(())
}

fn there_and_back(lock: usize, eager: &Eager, lazies: [&Lazy; 2]) -> Result<(), String> {
    let events = [Event::Acquire(lock as u8), Event::Unlock(lock as u8)];
    let mut eagerly = eager.clone();
    for event in events {
        let answer = eagerly.step(event);
        answer.map_err(|number| format!("the eager scheduler answers {number}"))?;
    }
    let tasks = lazies[0].plan.bases.len();
    let has_its_takes = (0..tasks).all(|task| eager.takes(task) == eagerly.takes(task));
    if !has_its_takes || !is_alike(eager, &eagerly, tasks) {
        return Err("the eager scheduler is another".to_string());
    }
    for lazy in lazies {
        let by = lazy.protocol.name();
        let mut lazily = lazy.clone();
        for event in events {
            match lazily.step(event) {
                Ok(false) => {}
                Ok(true) => return Err(format!("it is a call by the {by} protocol")),
                Err(number) => return Err(format!("the {by} protocol answers {number}")),
            }
        }
        if figures(&lazily) != figures(lazy) || lazily.accepted != lazy.accepted + 2 {
            return Err(format!("by the {by} protocol the state is another"));
        }
    }
    Ok(())
}

/// The same of an accepted single step from a sound state. There a task can wait that is
/// more urgent than the running one: then by the second protocol an unlock that leaves its
/// lock open is a call, and nothing is said of who runs and of the words.
pub fn after_step(
    given: &Whole,
    event: Event,
    protocol: Protocol,
    call: bool,
    after: &Whole,
) -> Option<String> {
    let task = given.running()?;
    let takes = given.takes(task);
    let mut wanted = given.clone();
    wanted.set(ACCEPTED, 0, given.get(ACCEPTED, 0) + 1);
    match event {
        Event::Acquire(lock) if takes.contains(&usize::from(lock)) => {
            push(&mut wanted, task, usize::from(lock));
            let saved = |at: usize| given.get(SAVED, slot(task, at));
            for at in 0..takes.len() {
                wanted.set(SAVED, slot(task, at + 1), saved(at));
            }
            wanted.set(SAVED, slot(task, 0), given.get(USER, 0));
        }
        Event::Unlock(lock) if times(&takes, usize::from(lock)) > 1 => {
            for field in [ROW, SAVED] {
                for at in 1..MOST_TAKES {
                    wanted.set(field, slot(task, at - 1), given.get(field, slot(task, at)));
                }
                wanted.set(field, slot(task, MOST_TAKES - 1), 0);
            }
            wanted.set(DEPTH, task, takes.len() as u64 - 1);
            let is_call = protocol == Protocol::Second && given.get(SECOND, 0) > given.get(USER, 0);
            if call != is_call {
                return Some("a call of an unlock that leaves its lock open, or none".to_string());
            }
            if call {
                let is_same = after.get(EAGER, 0) == given.get(EAGER, 0)
                    && after.get(LAZY, 0) == given.get(LAZY, 0) + 1
                    && sound::priority(after, task) == sound::priority(given, task);
                let words = "a call of an unlock in part that changes a priority";
                return (!is_same).then(|| words.to_string());
            }
        }
        _ => return None,
    }
    (wanted != *after).then(|| "of an open lock it changes more than the row".to_string())
}
