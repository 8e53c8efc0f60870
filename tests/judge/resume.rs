//! The lazy scheduler from the figures of a sound state, and back to figures.

use crate::lazy::{Kept, Lazy, Take, TaskFigures, Word};
use crate::plan::{Plan, MOST_TAKES, NOBODY};
use crate::protocol::Protocol;
use crate::whole::{
    slot, Whole, ACCEPTED, DELAY, DEPTH, EAGER, KEPT, LAZY, OWNER, RELEASED, ROW, RUNNING, SAVED,
    SECOND, UNITS, USER,
};
use crate::wrong::Wrong;

/// The scheduler that a sound state stands for. The plan is that of the state.
pub fn resume<'p>(plan: &'p Plan, whole: &Whole, protocol: Protocol, wrong: Wrong) -> Lazy<'p> {
    let mut lazy = Lazy::new(plan, protocol, wrong);
    lazy.accepted = whole.get(ACCEPTED, 0) as u32;
    lazy.running = Some(whole.get(RUNNING, 0))
        .filter(|running| *running != u64::from(NOBODY))
        .map(|running| running as usize);
    lazy.user_word = Word(whole.get(USER, 0) as u8);
    lazy.second_word = Word(whole.get(SECOND, 0) as u8);
    lazy.calls = whole.get(LAZY, 0) as u32;
    lazy.eager_calls = whole.get(EAGER, 0) as u32;
    for task in 0..lazy.tasks.len() {
        let figures = task_figures(whole, task);
        for take in &figures.takes {
            lazy.sections[take.lock].holder = Some(task);
        }
        lazy.tasks[task] = figures;
    }
    for (lock, section) in lazy.sections.iter_mut().enumerate() {
        section.units = whole.get(UNITS, lock) as u32;
    }
    lazy
}

fn task_figures(whole: &Whole, task: usize) -> TaskFigures {
    // Newest first there, oldest first here.
    let takes = (0..whole.get(DEPTH, task) as usize).rev().map(|at| Take {
        lock: whole.get(ROW, slot(task, at)) as usize,
        saved: Word(whole.get(SAVED, slot(task, at)) as u8),
    });
    TaskFigures {
        release_number: whole.get(RELEASED, task) as u32,
        kept: Kept(whole.get(KEPT, task) as u8),
        takes: takes.collect(),
        delay: whole.get(DELAY, task) as u16,
    }
}

/// The plan and the state of the scheduler, figure by figure.
pub fn figures(lazy: &Lazy) -> Whole {
    let mut whole = Whole::of_plan(lazy.plan);
    whole.set(ACCEPTED, 0, u64::from(lazy.accepted));
    let running = lazy.running.map_or(u64::from(NOBODY), |task| task as u64);
    whole.set(RUNNING, 0, running);
    whole.set(USER, 0, u64::from(lazy.user_word.0));
    whole.set(SECOND, 0, u64::from(lazy.second_word.0));
    whole.set(LAZY, 0, u64::from(lazy.calls));
    whole.set(EAGER, 0, u64::from(lazy.eager_calls));
    for (task, figures) in lazy.tasks.iter().enumerate() {
        whole.set(RELEASED, task, u64::from(figures.release_number));
        whole.set(KEPT, task, u64::from(figures.kept.0));
        whole.set(DELAY, task, u64::from(figures.delay));
        whole.set(DEPTH, task, figures.takes.len() as u64);
        // A row has no place for more; only a wrong way takes more.
        for (at, take) in figures.takes.iter().rev().take(MOST_TAKES).enumerate() {
            whole.set(ROW, slot(task, at), take.lock as u64);
            whole.set(SAVED, slot(task, at), u64::from(take.saved.0));
        }
    }
    for (lock, section) in lazy.sections.iter().enumerate() {
        whole.set(UNITS, lock, u64::from(section.units));
        let owner = section.holder.map_or(0, |task| task as u64 + 1);
        whole.set(OWNER, lock, owner);
    }
    whole
}
