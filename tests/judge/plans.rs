//! Random valid plans of all sizes. There are few distinct bases, so that ties
//! are common, and most locks are contended. Every lock has at least two users, and
//! many a task has the least maximum that it can have.

use crate::plan::{Lock, Plan, MOST_LOCKS, MOST_TAKES, MOST_TASKS, MOST_UNITS};
use crate::random::Random;

/// What a random plan is made from.
struct Shape {
    tasks: usize,
    /// There are none where one task alone could use them.
    locks: usize,
    /// How many distinct bases there are at most.
    levels: usize,
    /// A task becomes a user of a lock that is open to it once in so many.
    one_user_in: usize,
    greatest_limit: usize,
}

/// A plan for a short list of events.
pub fn any(random: &mut Random) -> Plan {
    let greatest = usize::from(MOST_UNITS);
    let shape = match random.below(20) {
        // Small plans, where most of the interesting collisions happen.
        0..=7 => Shape {
            tasks: random.between(1, 5),
            locks: random.between(0, 4),
            levels: random.between(1, 4),
            one_user_in: random.between(1, 2),
            greatest_limit: random.pick(&[1, 4, 12, 40]),
        },
        8..=15 => Shape {
            tasks: random.between(2, 14),
            locks: random.between(0, 10),
            levels: random.between(1, 5),
            one_user_in: random.between(1, 4),
            greatest_limit: random.pick(&[4, 12, 40, greatest]),
        },
        16..=18 => Shape {
            tasks: random.between(1, MOST_TASKS),
            locks: random.between(0, MOST_LOCKS),
            levels: random.between(1, 12),
            one_user_in: random.between(2, 24),
            greatest_limit: random.pick(&[12, 400, greatest]),
        },
        _ => Shape {
            tasks: random.pick(&[1, 2, MOST_TASKS - 1, MOST_TASKS]),
            locks: random.pick(&[0, 1, MOST_LOCKS - 1, MOST_LOCKS]),
            levels: random.pick(&[1, 2, MOST_TASKS]),
            one_user_in: random.pick(&[1, MOST_TASKS]),
            greatest_limit: random.pick(&[1, greatest]),
        },
    };
    let plan = build(random, &shape);
    with_maxima(random, plan)
}

/// A plan whose tasks may want more locks than they can have open.
pub fn deep(random: &mut Random) -> Plan {
    let shape = Shape {
        tasks: random.between(2, 8),
        locks: random.between(MOST_TAKES + 1, 2 * MOST_TAKES),
        levels: random.between(1, 5),
        one_user_in: 1,
        greatest_limit: random.pick(&[6, 40, usize::from(MOST_UNITS)]),
    };
    let plan = build(random, &shape);
    with_maxima(random, plan)
}

/// Gives some tasks of a plan greater maxima than the least that they can have.
fn with_maxima(random: &mut Random, mut plan: Plan) -> Plan {
    let greatest = usize::from(u8::MAX);
    let style = random.below(4);
    for maximum in &mut plan.maxima {
        let least = usize::from(*maximum);
        let drawn = match (style, random.below(8)) {
            // All tasks have the least, or all have the greatest.
            (0, _) => least,
            (1, _) => greatest,
            (_, 0..=3) => least,
            (_, 4) => greatest,
            (_, 5) => (least + 1).min(greatest),
            _ => random.between(least, greatest),
        };
        *maximum = drawn as u8;
    }
    plan
}

/// The most bases that a contended plan has, and the first ceiling of a lock there.
const LEVELS: usize = 12;
const FIRST_CEILING: usize = 3;

/// As many tasks and locks as can be, contended.
pub fn contended(random: &mut Random) -> Plan {
    let plan = contended_of(random, MOST_TASKS);
    with_maxima(random, plan)
}

/// So many tasks, three or more, and as many locks as can be: tasks of each base
/// in turn, and each lock shared by about a third of the tasks up to its ceiling,
/// which is never one of the lowest. The maxima are the least.
pub fn contended_of(random: &mut Random, tasks: usize) -> Plan {
    let levels = LEVELS.min(tasks);
    let bases: Vec<u8> = (0..tasks).map(|task| (task % levels) as u8 + 1).collect();
    let mut locks = Vec::new();
    let mut uses = Vec::new();
    for lock in 0..MOST_LOCKS {
        let ceiling = FIRST_CEILING + lock % (levels - FIRST_CEILING + 1);
        locks.push(Lock {
            ceiling: ceiling as u8,
            limit: random.between(20, 200) as u16,
        });
        // Two sure users: one at the ceiling and one below it.
        let turn = levels * random.below(tasks / levels);
        let at_ceiling = turn + ceiling - 1;
        let below = turn + random.below(ceiling - 1);
        for (task, base) in bases.iter().enumerate() {
            let may_join = usize::from(*base) <= ceiling && random.one_in(3);
            if task == at_ceiling || task == below || may_join {
                uses.push((task as u8, lock as u8));
            }
        }
    }
    uses.sort_unstable();
    Plan::with_least_maxima(bases, locks, uses)
}

/// As many tasks and locks as can be, plain.
pub fn plain(random: &mut Random) -> Plan {
    let plan = plain_of(random, MOST_TASKS);
    with_maxima(random, plan)
}

/// So many tasks, as many locks as can be with two tasks for each, and each lock
/// with two users of equal base: its ceiling raises nobody, and no lock is ever
/// waited for. The maxima are the least.
pub fn plain_of(random: &mut Random, tasks: usize) -> Plan {
    let mut bases: Vec<u8> = (0..tasks).map(|_| random.between(1, 24) as u8).collect();
    let count = MOST_LOCKS.min(tasks / 2);
    let mut locks = Vec::new();
    let mut uses = Vec::new();
    for lock in 0..count {
        let user = lock * (tasks / count);
        bases[user + 1] = bases[user];
        locks.push(Lock {
            ceiling: bases[user],
            limit: random.between(50, 500) as u16,
        });
        uses.push((user as u8, lock as u8));
        uses.push((user as u8 + 1, lock as u8));
    }
    Plan::with_least_maxima(bases, locks, uses)
}

/// The maxima are the least.
fn build(random: &mut Random, shape: &Shape) -> Plan {
    let levels = levels(random, shape.levels);
    let bases: Vec<u8> = (0..shape.tasks).map(|_| random.pick(&levels)).collect();
    let mut locks = Vec::new();
    let mut uses = Vec::new();
    let count = if shape.tasks < 2 { 0 } else { shape.locks };
    for lock in 0..count {
        let users = users(random, &bases, shape.one_user_in);
        let greatest = users.iter().map(|task| bases[*task]).max();
        let ceiling = greatest.expect("a lock has users");
        let limit = random.between(1, shape.greatest_limit) as u16;
        locks.push(Lock { ceiling, limit });
        uses.extend(users.iter().map(|task| (*task as u8, lock as u8)));
    }
    uses.sort_unstable();
    Plan::with_least_maxima(bases, locks, uses)
}

/// Two users or more, from the bases up to a top one, so that ceilings vary.
fn users(random: &mut Random, bases: &[u8], one_user_in: usize) -> Vec<usize> {
    let mut by_base: Vec<usize> = (0..bases.len()).collect();
    by_base.sort_unstable_by_key(|task| bases[*task]);
    let top = bases[by_base[random.between(1, bases.len() - 1)]];
    let mut open_to: Vec<usize> = by_base;
    open_to.retain(|task| bases[*task] <= top);
    random.shuffle(&mut open_to);
    let mut joins = || random.one_in(one_user_in);
    open_to
        .into_iter()
        .enumerate()
        .filter(|(at, _)| *at < 2 || joins())
        .map(|(_, task)| task)
        .collect()
}

/// The bases to choose from: the lowest, the highest, or anywhere.
fn levels(random: &mut Random, count: usize) -> Vec<u8> {
    let style = random.below(3);
    (0..count)
        .map(|level| match style {
            0 => level as u8 + 1,
            1 => u8::MAX - level as u8,
            _ => random.some_byte(),
        })
        .collect()
}
