//! A plan and a state figure by figure, as they stand on the wire: the fields
//! of the plan, then those of the state. Every field has all its places, also
//! those past the plan's tasks and locks.

use crate::plan::{Lock, Plan, MOST_LOCKS, MOST_TAKES, MOST_TASKS, NOBODY};

/// What a field has its figures for.
#[derive(Clone, Copy, PartialEq, Eq)]
pub enum Per {
    /// A single figure.
    One,
    Task,
    Lock,
    /// A place in the row of a task: `MOST_TAKES` of them for each task.
    Slot,
}

/// A field: its figures have so many bytes each, little-endian.
#[derive(Clone, Copy)]
pub struct Field {
    pub name: &'static str,
    pub per: Per,
    bytes: usize,
    start: usize,
}

impl Field {
    const fn then(self, name: &'static str, per: Per, bytes: usize) -> Field {
        let start = self.end();
        Field {
            name,
            per,
            bytes,
            start,
        }
    }

    const fn end(self) -> usize {
        self.start + self.bytes * self.count()
    }

    /// How many figures the field has.
    pub const fn count(self) -> usize {
        match self.per {
            Per::One => 1,
            Per::Task => MOST_TASKS,
            Per::Lock => MOST_LOCKS,
            Per::Slot => MOST_TASKS * MOST_TAKES,
        }
    }

    /// The greatest value that its bytes can hold.
    pub fn greatest(self) -> u64 {
        u64::MAX >> (u64::BITS as usize - 8 * self.bytes)
    }

    /// One of its figures in words.
    pub fn figure_name(self, place: usize) -> String {
        let name = self.name;
        match self.per {
            Per::One => name.to_string(),
            Per::Task => format!("{name} of task {place}"),
            Per::Lock => format!("{name} of lock {place}"),
            Per::Slot => {
                let (task, at) = (place / MOST_TAKES, place % MOST_TAKES);
                format!("{name} of task {task}, place {at}")
            }
        }
    }
}

pub const TASKS: Field = Field {
    name: "tasks",
    per: Per::One,
    bytes: 8,
    start: 0,
};
pub const LOCKS: Field = TASKS.then("locks", Per::One, 8);
pub const BASE: Field = LOCKS.then("base", Per::Task, 1);
pub const MAXIMUM: Field = BASE.then("maximum", Per::Task, 1);
pub const CEILING: Field = MAXIMUM.then("ceiling", Per::Lock, 1);
pub const LIMIT: Field = CEILING.then("limit", Per::Lock, 2);
/// Bit l of a task's uses: it may take lock l.
pub const USES: Field = LIMIT.then("uses", Per::Task, 4);

pub const ACCEPTED: Field = USES.then("accepted", Per::One, 4);
pub const RUNNING: Field = ACCEPTED.then("running", Per::One, 1);
pub const USER: Field = RUNNING.then("user", Per::One, 1);
/// The next word of the second protocol, the kernel word of the first.
pub const SECOND: Field = USER.then("second", Per::One, 1);
pub const LAZY: Field = SECOND.then("lazy", Per::One, 4);
pub const EAGER: Field = LAZY.then("eager", Per::One, 4);
/// Release numbers; 0 for a task that isn't released.
pub const RELEASED: Field = EAGER.then("released", Per::Task, 4);
pub const KEPT: Field = RELEASED.then("kept", Per::Task, 1);
pub const DELAY: Field = KEPT.then("delay", Per::Task, 2);
/// How many takes a task has.
pub const DEPTH: Field = DELAY.then("depth", Per::Task, 1);
/// The takes of a task, each by its lock, newest first.
pub const ROW: Field = DEPTH.then("row", Per::Slot, 1);
/// The words that were saved at these takes, newest first.
pub const SAVED: Field = ROW.then("saved", Per::Slot, 1);
pub const UNITS: Field = SAVED.then("units", Per::Lock, 2);
/// The task that has the lock open, plus one; 0 for a closed lock.
pub const OWNER: Field = UNITS.then("owner", Per::Lock, 1);

pub const FIELDS: [Field; 21] = [
    TASKS, LOCKS, BASE, MAXIMUM, CEILING, LIMIT, USES, ACCEPTED, RUNNING, USER, SECOND, LAZY,
    EAGER, RELEASED, KEPT, DELAY, DEPTH, ROW, SAVED, UNITS, OWNER,
];

pub const PLAN_BYTES: usize = USES.end();
pub const STATE_BYTES: usize = OWNER.end() - PLAN_BYTES;

/// The uses of a task are bits of one figure.
const _: () = assert!(MOST_LOCKS <= 8 * USES.bytes);
/// An owner, which is a task plus one, is a byte, and no task is called nobody.
const _: () = assert!(MOST_TASKS <= NOBODY as usize);

/// How many figures there are.
pub const FIGURES: usize = {
    let (mut sum, mut at) = (0, 0);
    while at < FIELDS.len() {
        sum += FIELDS[at].count();
        at += 1;
    }
    sum
};

/// The field and the place of the figure of this number, from 0.
pub fn figure(mut number: usize) -> (Field, usize) {
    let mut at = 0;
    while number >= FIELDS[at].count() {
        number -= FIELDS[at].count();
        at += 1;
    }
    (FIELDS[at], number)
}

/// The number of a figure.
pub fn number_of(field: Field, place: usize) -> usize {
    let before = FIELDS.iter().filter(|other| other.start < field.start);
    before.map(|other| other.count()).sum::<usize>() + place
}

/// The place of a slot in the fields of rows.
pub fn slot(task: usize, at: usize) -> usize {
    MOST_TAKES * task + at
}

#[derive(Clone, PartialEq, Eq)]
pub struct Whole {
    bytes: Vec<u8>,
}

impl Whole {
    /// All figures 0.
    pub fn blank() -> Whole {
        Whole {
            bytes: vec![0; PLAN_BYTES + STATE_BYTES],
        }
    }

    /// A plan beside a state of which all figures are 0.
    pub fn of_plan(plan: &Plan) -> Whole {
        let mut whole = Whole::blank();
        whole.set(TASKS, 0, plan.bases.len() as u64);
        whole.set(LOCKS, 0, plan.locks.len() as u64);
        for (task, base) in plan.bases.iter().enumerate() {
            whole.set(BASE, task, u64::from(*base));
        }
        for (task, maximum) in plan.maxima.iter().enumerate() {
            whole.set(MAXIMUM, task, u64::from(*maximum));
        }
        for (lock, figures) in plan.locks.iter().enumerate() {
            whole.set(CEILING, lock, u64::from(figures.ceiling));
            whole.set(LIMIT, lock, u64::from(figures.limit));
        }
        for (task, lock) in &plan.uses {
            let task = usize::from(*task);
            whole.set(USES, task, whole.get(USES, task) | 1 << lock);
        }
        whole
    }

    /// The fresh start of a plan: nobody runs, and all else is 0.
    pub fn fresh(plan: &Plan) -> Whole {
        let mut whole = Whole::of_plan(plan);
        whole.set(RUNNING, 0, u64::from(NOBODY));
        whole
    }

    pub fn get(&self, field: Field, place: usize) -> u64 {
        let at = field.start + field.bytes * place;
        let mut value = [0; 8];
        value[..field.bytes].copy_from_slice(&self.bytes[at..at + field.bytes]);
        u64::from_le_bytes(value)
    }

    /// The value fits the field.
    pub fn set(&mut self, field: Field, place: usize, value: u64) {
        let at = field.start + field.bytes * place;
        self.bytes[at..at + field.bytes].copy_from_slice(&value.to_le_bytes()[..field.bytes]);
    }

    pub fn bytes(&self) -> &[u8] {
        &self.bytes
    }

    pub fn plan_bytes(&mut self) -> &mut [u8] {
        &mut self.bytes[..PLAN_BYTES]
    }

    pub fn state_bytes(&mut self) -> &mut [u8] {
        &mut self.bytes[PLAN_BYTES..]
    }

    /// The plan that the figures stand for, which obeys the rules for plans.
    pub fn plan(&self) -> Plan {
        let (tasks, locks) = (self.get(TASKS, 0) as usize, self.get(LOCKS, 0) as usize);
        let uses_of = |task| (0..locks).filter(move |lock| self.uses(task, *lock));
        Plan {
            bases: (0..tasks).map(|task| self.get(BASE, task) as u8).collect(),
            maxima: (0..tasks)
                .map(|task| self.get(MAXIMUM, task) as u8)
                .collect(),
            locks: (0..locks)
                .map(|lock| Lock {
                    ceiling: self.get(CEILING, lock) as u8,
                    limit: self.get(LIMIT, lock) as u16,
                })
                .collect(),
            uses: (0..tasks)
                .flat_map(|task| uses_of(task).map(move |lock| (task as u8, lock as u8)))
                .collect(),
        }
    }

    /// Whether the task may take the lock, which has a bit.
    pub fn uses(&self, task: usize, lock: usize) -> bool {
        self.get(USES, task) >> lock & 1 == 1
    }
}
