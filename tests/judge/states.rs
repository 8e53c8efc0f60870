//! Random sound states that mostly no fresh start reaches: any of the released
//! tasks runs, locks are open that their holders never could have taken beside
//! each other, some once and some several times, the kernel word is any that its bound
//! allows, and counts and delays are at their edges.

use crate::aims::{times, Scene};
use crate::plan::{Plan, MOST_ACCEPTED, MOST_TAKES, MOST_UNITS, NOBODY};
use crate::plans;
use crate::protocol::Protocol;
use crate::random::Random;
use crate::sound;
use crate::whole::{
    slot, Whole, ACCEPTED, CEILING, DELAY, DEPTH, EAGER, KEPT, LAZY, LOCKS, OWNER, RELEASED, ROW,
    RUNNING, SAVED, SECOND, TASKS, UNITS, USER,
};

impl Scene for Whole {
    fn running(&self) -> Option<usize> {
        let running = self.get(RUNNING, 0);
        Some(running as usize).filter(|_| running != u64::from(NOBODY))
    }

    fn is_released(&self, task: usize) -> bool {
        self.get(RELEASED, task) != 0
    }

    fn takes(&self, task: usize) -> Vec<usize> {
        (0..self.get(DEPTH, task) as usize)
            .rev()
            .map(|at| self.get(ROW, slot(task, at)) as usize)
            .collect()
    }

    fn units(&self, lock: usize) -> usize {
        self.get(UNITS, lock) as usize
    }
}

/// A plan, and a state of it that is sound by this protocol.
pub fn any(random: &mut Random, protocol: Protocol) -> (Plan, Whole) {
    let plan = match random.below(10) {
        0..=5 => plans::any(random),
        6..=8 => plans::deep(random),
        _ => plans::contended(random),
    };
    let mut whole = of_plan(random, &plan);
    if protocol == Protocol::First {
        if random.one_in(2) {
            raise_by_newest(&mut whole);
        }
        set_kernel_word(random, &mut whole);
    }
    (plan, whole)
}

/// Puts the take of the running task whose lock has the greatest ceiling in front,
/// so that its unlock mostly lowers the user word.
fn raise_by_newest(whole: &mut Whole) {
    let Some(task) = whole.running() else {
        return;
    };
    let lock_at = |at: usize| whole.get(ROW, slot(task, at));
    let ceiling_at = |at: &usize| whole.get(CEILING, lock_at(*at) as usize);
    let Some(at) = (0..whole.get(DEPTH, task) as usize).max_by_key(ceiling_at) else {
        return;
    };
    let (newest, greatest) = (lock_at(0), lock_at(at));
    whole.set(ROW, slot(task, 0), greatest);
    whole.set(ROW, slot(task, at), newest);
    refit(whole);
}

/// Any kernel word up to the user word. Often it is one of these: none, the user
/// word, what the newest unlock would restore, and one more.
fn set_kernel_word(random: &mut Random, whole: &mut Whole) {
    let user = whole.get(USER, 0);
    let newest = whole
        .running()
        .filter(|task| whole.get(DEPTH, *task) > 0)
        .map(|task| whole.get(SAVED, slot(task, 0)));
    let word = match (random.below(8), newest) {
        (0 | 1, _) => 0,
        (2 | 3, _) => user,
        (4, Some(restored)) => restored,
        (5, Some(restored)) => restored + 1,
        (6, _) => sound::next_by_rule(whole),
        _ => random.between(0, user as usize) as u64,
    };
    whole.set(SECOND, 0, word.min(user));
}

/// A state that is sound by the second protocol.
pub fn of_plan(random: &mut Random, plan: &Plan) -> Whole {
    let mut whole = Whole::fresh(plan);
    let mut released = released_tasks(random, plan.bases.len());
    let accepted = accepted_events(random, released.len());
    whole.set(ACCEPTED, 0, accepted as u64);
    for field in [LAZY, EAGER] {
        let calls = up_to(random, accepted);
        whole.set(field, 0, calls as u64);
    }
    let numbers = release_numbers(random, released.len(), accepted);
    for (task, number) in released.iter().zip(numbers) {
        whole.set(RELEASED, *task, number as u64);
    }
    // The task that runs is the first to take locks.
    random.shuffle(&mut released);
    if let Some(task) = released.first() {
        whole.set(RUNNING, 0, *task as u64);
    }
    take_some(random, plan, &released, &mut whole);
    for task in 0..plan.bases.len() {
        let delay = match random.below(2) {
            0 => 0,
            _ => up_to(random, usize::from(MOST_UNITS)),
        };
        whole.set(DELAY, task, delay as u64);
    }
    refit(&mut whole);
    whole
}

/// A number up to the greatest one; the edges are favoured.
fn up_to(random: &mut Random, most: usize) -> usize {
    match random.below(6) {
        0 => 0,
        1 => most,
        2 => most.saturating_sub(1),
        3 => most - random.below(most.min(8) + 1),
        _ => random.between(0, most),
    }
}

fn released_tasks(random: &mut Random, tasks: usize) -> Vec<usize> {
    match random.below(12) {
        0 => Vec::new(),
        1 | 2 => vec![random.below(tasks)],
        3 => (0..tasks).collect(),
        _ => {
            let rest_in = random.pick(&[2, 2, 4, 8]);
            let mut rests = || random.one_in(rest_in);
            (0..tasks).filter(|_| !rests()).collect()
        }
    }
}

/// At least as many as there are release numbers.
fn accepted_events(random: &mut Random, least: usize) -> usize {
    let most = MOST_ACCEPTED as usize;
    match random.below(12) {
        0..=3 => least + random.below(4),
        4..=6 => least + random.below(200),
        7 | 8 => most - 1,
        9 => most,
        _ => random.between(least, most),
    }
}

/// So many different numbers from 1 on; the lowest and the highest are favoured.
fn release_numbers(random: &mut Random, count: usize, accepted: usize) -> Vec<usize> {
    let mut numbers = Vec::new();
    while numbers.len() < count {
        let number = match random.below(4) {
            0 => random.between(1, count),
            1 => accepted - random.below(count),
            _ => random.between(1, accepted),
        };
        if !numbers.contains(&number) {
            numbers.push(number);
        }
    }
    numbers
}

/// Takes declared locks for the released tasks, each for at most one of them. Half of the
/// rows that have a lock have fewer locks than takes.
fn take_some(random: &mut Random, plan: &Plan, released: &[usize], whole: &mut Whole) {
    let mut free: Vec<usize> = (0..plan.locks.len()).collect();
    random.shuffle(&mut free);
    for task in released {
        let depth = match random.below(7) {
            0 | 1 => 0,
            2 => 1,
            3 => random.between(2, 3),
            4 => random.between(1, MOST_TAKES),
            5 => MOST_TAKES - 1,
            _ => MOST_TAKES,
        };
        let most = match random.below(4) {
            0 => random.pick(&[1, 1, 2, 3]).min(depth),
            1 => depth / 2,
            _ => depth,
        };
        let may = |lock: &&usize| plan.declares(*task, **lock);
        let open: Vec<usize> = free.iter().filter(may).take(most).copied().collect();
        free.retain(|lock| !open.contains(lock));
        for lock in &open {
            let units = up_to(random, usize::from(plan.locks[*lock].limit));
            whole.set(UNITS, *lock, units as u64);
        }
        for lock in row_of(random, &open, depth) {
            push(whole, *task, lock);
        }
    }
}

/// A row of all these locks. Where they are fewer than its places, some are in it again,
/// mostly until it has no place left.
fn row_of(random: &mut Random, open: &[usize], depth: usize) -> Vec<usize> {
    let mut row = open.to_vec();
    if open.is_empty() || open.len() == depth {
        return row;
    }
    let length = match random.below(3) {
        0 => random.between(open.len(), depth),
        _ => depth,
    };
    while row.len() < length {
        row.push(random.pick(open));
    }
    // One after the other in one half, and all mixed in the other.
    match random.below(2) {
        0 => row.sort_unstable_by_key(|lock| open.iter().position(|other| other == lock)),
        _ => random.shuffle(&mut row),
    }
    row
}

/// Puts a lock at the front of a row; the row has a free place.
pub fn push(whole: &mut Whole, task: usize, lock: usize) {
    let depth = whole.get(DEPTH, task);
    for at in (0..depth as usize).rev() {
        let older = whole.get(ROW, slot(task, at));
        whole.set(ROW, slot(task, at + 1), older);
    }
    whole.set(ROW, slot(task, 0), lock as u64);
    whole.set(DEPTH, task, depth + 1);
}

/// Takes some takes of a task out of its row, by their locks and by how many of that lock
/// come after them.
pub fn drop_takes(whole: &mut Whole, task: usize, leaves: impl Fn(usize, usize) -> bool) {
    let mut stay = Vec::new();
    let takes = whole.takes(task);
    for (at, lock) in takes.iter().enumerate() {
        let after = times(&takes[at + 1..], *lock);
        if !leaves(*lock, after) {
            stay.push(*lock);
        }
    }
    for at in 0..MOST_TAKES {
        whole.set(ROW, slot(task, at), 0);
        whole.set(SAVED, slot(task, at), 0);
    }
    whole.set(DEPTH, task, 0);
    stay.into_iter().for_each(|lock| push(whole, task, lock));
}

/// Sets all that follows from who runs, the release numbers and the rows: the user
/// word and the next word, the kept and saved priorities, and the owners.
pub fn refit(whole: &mut Whole) {
    let (tasks, locks) = (whole.get(TASKS, 0) as usize, whole.get(LOCKS, 0) as usize);
    for lock in 0..locks {
        whole.set(OWNER, lock, 0);
    }
    for task in 0..tasks {
        for lock in whole.takes(task) {
            if lock < locks {
                whole.set(OWNER, lock, task as u64 + 1);
            }
        }
        for at in 0..whole.get(DEPTH, task) as usize {
            let saved = sound::saved_by_rule(whole, task, at);
            whole.set(SAVED, slot(task, at), saved);
        }
        whole.set(KEPT, task, sound::kept_by_rule(whole, task));
    }
    whole.set(USER, 0, sound::user_by_rule(whole));
    whole.set(SECOND, 0, sound::next_by_rule(whole));
}
