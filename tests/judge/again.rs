//! Full-length books in which a few events come again and again while all tasks
//! are released: how long each sort of event takes, and whether it takes longer
//! where there are more tasks. And the largest book, with nearly the longest
//! report.

use crate::event::Event::{self, Acquire, Finish, Release, Tick, Unlock, Work};
use crate::plan::{Lock, Plan, MOST_LOCKS, MOST_TAKES, MOST_TASKS, MOST_UNITS};

/// Task t has base t + 1. The least urgent task and the two most urgent ones
/// share a lock.
pub fn plan(tasks: usize) -> Plan {
    let last = (tasks - 1) as u8;
    let lock = Lock {
        ceiling: tasks as u8,
        limit: MOST_UNITS,
    };
    let uses = vec![(0, 0), (last - 1, 0), (last, 0)];
    Plan::with_least_maxima((1..=tasks as u8).collect(), vec![lock], uses)
}

/// As many takes of one lock as a task may have, with work in between.
const RETAKES: [Event; 4 * MOST_TAKES] = {
    let mut events = [Work(1); 4 * MOST_TAKES];
    let mut at = 0;
    while at < MOST_TAKES {
        events[2 * at] = Acquire(0);
        events[2 * (at + MOST_TAKES) + 1] = Unlock(0);
        at += 1;
    }
    events
};

/// So many events for this plan; nothing for another kind. Each kind starts with
/// releases, and is named after what follows them.
pub fn events(kind: &str, tasks: usize, length: usize) -> Option<Vec<Event>> {
    let last = (tasks - 1) as u8;
    let (mut start, others, again): (Vec<Event>, _, &[Event]) = match kind {
        "ticks" => (vec![], 0..=last, &[Tick]),
        // The most urgent task works.
        "works" => (vec![], 0..=last, &[Work(1)]),
        // The least urgent one works in its section, and all others wait.
        "waits" => (vec![Release(0), Acquire(0)], 1..=last, &[Work(1)]),
        "sections" => (vec![], 0..=last, &[Acquire(0), Unlock(0)]),
        // It takes its lock as often as it can, and works with each take more and each less.
        "retakes" => (vec![], 0..=last, &RETAKES),
        // The most urgent task comes and goes.
        "jobs" => (vec![], 0..=last - 1, &[Release(last), Finish]),
        // It waits behind a section, so the unlock is a call.
        "calls" => (
            vec![],
            0..=last - 1,
            &[Acquire(0), Release(last), Unlock(0), Finish],
        ),
        _ => return None,
    };
    start.extend(others.map(Release));
    let repeated = again.iter().copied().cycle();
    Some(start.into_iter().chain(repeated).take(length).collect())
}

/// As many tasks, locks and uses as can be, and the last task has the least base.
pub fn largest_plan() -> Plan {
    let every_lock = |task| (0..MOST_LOCKS).map(move |lock| (task as u8, lock as u8));
    let lock = Lock {
        ceiling: u8::MAX,
        limit: MOST_UNITS,
    };
    Plan::with_least_maxima(
        (0..MOST_TASKS).map(|task| u8::MAX - task as u8).collect(),
        vec![lock; MOST_LOCKS],
        (0..MOST_TASKS).flat_map(every_lock).collect(),
    )
}

/// All others wait behind a section of the last task, for as long as it can be.
pub fn largest_events(length: usize) -> Vec<Event> {
    let last = (MOST_TASKS - 1) as u8;
    let mut events = vec![Release(last), Acquire(0)];
    events.extend((0..last).map(Release));
    events.push(Work(MOST_UNITS));
    events.resize(length, Tick);
    events
}
