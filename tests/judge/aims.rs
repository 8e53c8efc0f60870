//! Events aimed at an answer: for each refusal an event that a state refuses so,
//! where it has one, and an event that it accepts.

use crate::event::Event;
use crate::plan::{Plan, MOST_TAKES, MOST_UNITS};
use crate::random::Random;

/// What has to be known of a state to aim at an answer.
pub trait Scene {
    fn running(&self) -> Option<usize>;
    fn is_released(&self, task: usize) -> bool;
    /// The takes of a task, each by its lock, oldest first.
    fn takes(&self, task: usize) -> Vec<usize>;
    fn units(&self, lock: usize) -> usize;
}

/// How often a lock is among these takes.
pub fn times(takes: &[usize], lock: usize) -> usize {
    takes.iter().filter(|taken| **taken == lock).count()
}

/// The locks of these takes, each once.
pub fn open_locks(takes: &[usize]) -> Vec<usize> {
    let mut open = takes.to_vec();
    open.sort_unstable();
    open.dedup();
    open
}

/// The units that the section of an open lock still allows.
pub fn left(plan: &Plan, scene: &impl Scene, lock: usize) -> usize {
    usize::from(plan.locks[lock].limit) - scene.units(lock)
}

/// The units that every open section of a task still allows.
pub fn room(plan: &Plan, scene: &impl Scene, task: usize) -> usize {
    let takes = scene.takes(task);
    let left = takes.iter().map(|lock| left(plan, scene, *lock));
    left.min().unwrap_or(usize::from(MOST_UNITS))
}

/// Whether the running task's next unit too many would be one too many for an
/// older section, while the newest still allows it.
pub fn outer_section_is_tightest(plan: &Plan, scene: &impl Scene) -> bool {
    let Some(task) = scene.running() else {
        return false;
    };
    let newest = scene.takes(task).last().copied();
    newest.is_some_and(|lock| room(plan, scene, task) < left(plan, scene, lock))
}

/// Whether it would be one too many for the section of a lock that is taken more than once,
/// and in which some units are worked.
pub fn repeated_section_is_tightest(plan: &Plan, scene: &impl Scene) -> bool {
    let Some(task) = scene.running() else {
        return false;
    };
    let takes = scene.takes(task);
    let room = room(plan, scene, task);
    takes.iter().any(|lock| {
        let is_tightest = left(plan, scene, *lock) == room;
        is_tightest && scene.units(*lock) > 0 && times(&takes, *lock) > 1
    })
}

/// An event that the state refuses with this number, 12 to 22; nothing where
/// the state has none.
pub fn refused(random: &mut Random, plan: &Plan, scene: &impl Scene, number: u8) -> Option<Event> {
    match number {
        12 if scene.running().is_none() => Some(act_of_nobody(random)),
        13 => Some(unknown(random, plan, scene.running().is_some())),
        14 => {
            let released = (0..plan.bases.len()).filter(|task| scene.is_released(*task));
            any_of(random, released).map(Event::Release)
        }
        20 => Some(Event::Work(0)),
        15..=22 => refused_act(random, plan, scene, scene.running()?, number),
        _ => None,
    }
}

/// Any id will do: with nobody running 12 comes before 13.
fn act_of_nobody(random: &mut Random) -> Event {
    match random.below(4) {
        0 => Event::Acquire(random.byte()),
        1 => Event::Unlock(random.byte()),
        2 => Event::Work(random.between(1, usize::from(MOST_UNITS)) as u16),
        _ => Event::Finish,
    }
}

/// A task that isn't there, or also a lock where somebody runs.
fn unknown(random: &mut Random, plan: &Plan, somebody_runs: bool) -> Event {
    if !somebody_runs || random.one_in(3) {
        return Event::Release(unknown_id(random, plan.bases.len()));
    }
    let lock = unknown_id(random, plan.locks.len());
    if random.one_in(2) {
        Event::Acquire(lock)
    } else {
        Event::Unlock(lock)
    }
}

/// An id that no task or lock has, where there are `count` of them.
fn unknown_id(random: &mut Random, count: usize) -> u8 {
    let greatest = usize::from(u8::MAX);
    let id = match random.below(4) {
        0 | 1 => count,
        2 => greatest,
        _ => random.between(count, greatest),
    };
    id as u8
}

/// One of these tasks or locks.
fn any_of(random: &mut Random, ids: impl Iterator<Item = usize>) -> Option<u8> {
    let ids: Vec<usize> = ids.collect();
    random.pick_any(&ids).map(|id| id as u8)
}

/// The locks that are open for any task but this one.
fn held_by_others(plan: &Plan, scene: &impl Scene, task: usize) -> Vec<usize> {
    let others = (0..plan.bases.len()).filter(|other| *other != task);
    others.flat_map(|other| scene.takes(other)).collect()
}

/// 15, 17 to 19, 21 and 22: acts of the running task.
fn refused_act(
    random: &mut Random,
    plan: &Plan,
    scene: &impl Scene,
    task: usize,
    number: u8,
) -> Option<Event> {
    let takes = scene.takes(task);
    let all = 0..plan.locks.len();
    let declared = |lock: &usize| plan.declares(task, *lock);
    match number {
        15 => any_of(random, all.filter(|lock| !declared(lock))).map(Event::Acquire),
        17 => {
            let mut of_others = held_by_others(plan, scene, task);
            of_others.retain(declared);
            any_of(random, of_others.into_iter()).map(Event::Acquire)
        }
        18 if takes.len() == MOST_TAKES => {
            // Half of the time a lock that the task has open.
            if random.one_in(2) {
                return any_of(random, takes.into_iter()).map(Event::Acquire);
            }
            let held = held_by_others(plan, scene, task);
            let locks = all.filter(|lock| declared(lock) && !held.contains(lock));
            any_of(random, locks).map(Event::Acquire)
        }
        19 => unlock_of_another(random, plan, &takes).map(Event::Unlock),
        21 => too_much(random, takes.is_empty(), room(plan, scene, task)),
        22 if !takes.is_empty() => Some(Event::Finish),
        _ => None,
    }
}

/// Half of the time an open lock that the newest take isn't of, if there is one.
fn unlock_of_another(random: &mut Random, plan: &Plan, takes: &[usize]) -> Option<u8> {
    let is_other = |lock: &usize| takes.last() != Some(lock);
    let older: Vec<usize> = takes.iter().copied().filter(is_other).collect();
    if !older.is_empty() && random.one_in(2) {
        return any_of(random, older.into_iter());
    }
    any_of(random, (0..plan.locks.len()).filter(is_other))
}

/// A work of more than the room that is left, where that can be said.
fn too_much(random: &mut Random, none_open: bool, room: usize) -> Option<Event> {
    let (least, most) = (room + 1, usize::from(MOST_UNITS));
    if none_open || least > most {
        return None;
    }
    let amount = match random.below(4) {
        0 => random.between(least, most),
        1 => most,
        _ => least,
    };
    Some(Event::Work(amount as u16))
}

/// An event that the state accepts, of any kind that it has.
pub fn accepted(random: &mut Random, plan: &Plan, scene: &impl Scene) -> Event {
    let waiting = (0..plan.bases.len()).filter(|task| !scene.is_released(*task));
    let mut choices = vec![Event::Tick];
    choices.extend(any_of(random, waiting).map(Event::Release));
    if let Some(task) = scene.running() {
        acts(random, plan, scene, task, &mut choices);
    }
    random.pick(&choices)
}

/// One act of each kind that the running task may do.
fn acts(
    random: &mut Random,
    plan: &Plan,
    scene: &impl Scene,
    task: usize,
    choices: &mut Vec<Event>,
) {
    let takes = scene.takes(task);
    let held = held_by_others(plan, scene, task);
    if takes.len() < MOST_TAKES {
        // One that is closed, and one that the task has open.
        let may = |lock: &usize| {
            let is_closed = !held.contains(lock) && !takes.contains(lock);
            is_closed && plan.declares(task, *lock)
        };
        let closed = (0..plan.locks.len()).filter(may);
        choices.extend(any_of(random, closed).map(Event::Acquire));
        choices.extend(any_of(random, takes.iter().copied()).map(Event::Acquire));
    }
    match takes.last() {
        Some(newest) => choices.push(Event::Unlock(*newest as u8)),
        None => choices.push(Event::Finish),
    }
    let room = room(plan, scene, task);
    if room > 0 {
        let amount = match random.below(4) {
            0 => room,
            1 => random.between(1, room),
            _ => random.between(1, room.min(6)),
        };
        choices.push(Event::Work(amount as u16));
    }
}

/// Any event, whatever the state; ids mostly about as great as the plan's.
pub fn arbitrary(random: &mut Random, plan: &Plan) -> Event {
    let mut id = |count: usize| {
        if random.one_in(8) {
            random.byte()
        } else {
            random.below(count + 2) as u8
        }
    };
    let (task, lock) = (id(plan.bases.len()), id(plan.locks.len()));
    match random.below(6) {
        0 => Event::Release(task),
        1 => Event::Acquire(lock),
        2 => Event::Unlock(lock),
        3 if random.one_in(2) => Event::Work(random.below(8) as u16),
        3 => Event::Work(random.between(0, usize::from(MOST_UNITS)) as u16),
        4 => Event::Finish,
        _ => Event::Tick,
    }
}
