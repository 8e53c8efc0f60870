//! What single steps are compared and timed on: plans, each with a list of
//! events from a fresh start, by a protocol. A refused event stands in the list
//! too: it leaves the state as it was.

use crate::ordinary::{
    Checked, Plan, Protocol, Record, State, MOST_LOCKS, MOST_TAKES, MOST_TASKS, NOBODY,
};

pub const RELEASE: u8 = 1;
pub const ACQUIRE: u8 = 2;
pub const UNLOCK: u8 = 3;
pub const WORK: u8 = 4;
pub const FINISH: u8 = 5;
pub const TICK: u8 = 6;

pub struct Scene {
    pub name: String,
    pub protocol: Protocol,
    pub plan: Plan,
    pub turns: Vec<Turn>,
}

#[derive(Clone, Copy)]
pub struct Turn {
    pub record: Record,
    /// Whether the step is one of those that are timed.
    pub timed: bool,
}

/// Timed steps of a scene.
const TIMED: usize = 96;

/// A book's events, which are all accepted. At places that lie evenly over the
/// book two steps are timed: one that is refused, and the book's own.
pub fn of_book(protocol: Protocol, name: &str, checked: &Checked) -> Scene {
    let mut walk = Walk::new(protocol, checked.plan.clone());
    let records = checked.events.as_chunks::<4>().0;
    let apart = (records.len() / (TIMED / 2)).max(1);
    for (place, &record) in records.iter().enumerate() {
        let timed = place % apart == apart / 2;
        if timed {
            let refused = walk.refused();
            walk.step(refused, true);
        }
        walk.step(record, timed);
    }
    walk.scene(name)
}

/// How many locks each block of a full plan has, from the least urgent block.
/// One task of it takes them, as many as it may.
const BLOCKS: [usize; 8] = [MOST_TAKES + 1, MOST_TAKES, 4, 4, 3, 1, 1, 2];

const _: () = assert!(MOST_TAKES == 8 && MOST_LOCKS == 32, "these are all locks");

/// The bases of two blocks are at least so far apart.
const APART: usize = 16;

/// The sizes of full states: the same locks are open in all of them, so they say
/// how a step grows with the tasks. Each is eight blocks of one size.
pub const FULL: [usize; 4] = [24, 48, 96, MOST_TASKS];

const _: () = {
    let mut at = 0;
    while at < FULL.len() {
        assert!(FULL[at] % BLOCKS.len() == 0 && FULL[at] / BLOCKS.len() <= 2 * APART);
        at += 1;
    }
};

/// All tasks are released and all locks open, but for one or two. The tasks
/// stand in blocks, each more urgent than the one before it and with locks of
/// its own. So the first task of each block comes to run while those of the
/// blocks before it have their locks open, and opens its own; then all other
/// tasks are released, and wait.
pub fn full(protocol: Protocol, tasks: usize) -> Scene {
    filled(protocol, "full", tasks, |locks| locks.min(MOST_TAKES))
}

/// The same with the most takes: a task that has opened its locks takes them again,
/// in turn, until its row is full.
pub fn again(protocol: Protocol, tasks: usize) -> Scene {
    filled(protocol, "again", tasks, |_| MOST_TAKES)
}

/// The first task of each block has so many takes of the block's locks.
fn filled(protocol: Protocol, name: &str, tasks: usize, takes: fn(usize) -> usize) -> Scene {
    let size = tasks / BLOCKS.len();
    let mut walk = Walk::new(protocol, full_plan(tasks));
    let mut first = 0;
    for (block, locks) in BLOCKS.into_iter().enumerate() {
        walk.accepted([RELEASE, (block * size) as u8, 0, 0]);
        for lock in (first..first + locks).cycle().take(takes(locks)) {
            walk.accepted([ACQUIRE, lock as u8, 0, 0]);
            walk.accepted([WORK, 0, 1 + lock as u8, 0]);
        }
        first += locks;
    }
    for task in (0..tasks).filter(|task| task % size != 0) {
        walk.accepted([RELEASE, task as u8, 0, 0]);
    }
    for _ in 0..TIMED {
        let record = walk.drawn();
        walk.step(record, true);
    }
    walk.scene(&format!("{name}, {tasks}"))
}

/// Any task may take any lock of its block. Neighbours have equal bases.
fn full_plan(tasks: usize) -> Plan {
    let size = tasks / BLOCKS.len();
    let mut plan = Plan {
        tasks,
        locks: MOST_LOCKS,
        ..Plan::blank()
    };
    let mut first = 0;
    for (block, locks) in BLOCKS.into_iter().enumerate() {
        for place in 0..size {
            let task = block * size + place;
            plan.base[task] = (block * APART + place / 2 + 1) as u8;
            for lock in first..first + locks {
                plan.uses[task] |= 1 << lock;
                plan.ceiling[lock] = plan.base[task];
                plan.limit[lock] = 2000 + lock as u16;
            }
        }
        // The last task of the block has its highest base, the ceiling of its locks.
        let highest = plan.base[block * size + size - 1];
        plan.maximum[block * size..][..size].fill(highest);
        first += locks;
    }
    plan
}

/// Makes the list of a scene, and keeps the state that it leads to. Where the
/// library comes to another state, the comparison will say so.
struct Walk {
    protocol: Protocol,
    plan: Plan,
    state: State,
    turns: Vec<Turn>,
    random: Random,
}

impl Walk {
    fn new(protocol: Protocol, plan: Plan) -> Walk {
        Walk {
            protocol,
            plan,
            state: State::fresh(),
            turns: Vec::new(),
            random: Random(2001),
        }
    }

    fn scene(self, name: &str) -> Scene {
        Scene {
            name: name.to_string(),
            protocol: self.protocol,
            plan: self.plan,
            turns: self.turns,
        }
    }

    /// Whether the event is accepted.
    fn step(&mut self, record: Record, timed: bool) -> bool {
        self.turns.push(Turn { record, timed });
        self.state.act(self.protocol, &self.plan, &record).is_ok()
    }

    fn accepted(&mut self, record: Record) {
        assert!(self.step(record, false), "{record:?} is accepted");
    }

    /// An event that the state refuses.
    fn refused(&mut self) -> Record {
        loop {
            let record = self.any();
            let mut after = self.state.clone();
            if after.act(self.protocol, &self.plan, &record).is_err() {
                return record;
            }
        }
    }

    /// An event that keeps the state full: a task that has finished is released
    /// again soon.
    fn drawn(&mut self) -> Record {
        let resting = (0..self.plan.tasks).find(|&task| self.state.released[task] == 0);
        match resting {
            Some(task) if self.random.below(2) == 0 => [RELEASE, task as u8, 0, 0],
            Some(_) => loop {
                let record = self.any();
                if record[0] != FINISH {
                    return record;
                }
            },
            None => self.any(),
        }
    }

    /// An event of any kind; what it is about is chosen so that some are accepted.
    fn any(&mut self) -> Record {
        let random = &mut self.random;
        let runner = Some(usize::from(self.state.running)).filter(|&x| x != usize::from(NOBODY));
        let any_lock = random.below(self.plan.locks + 1) as u8;
        let is_sensible = random.below(4) != 0;
        match random.below(6) as u8 + 1 {
            RELEASE => [RELEASE, random.below(self.plan.tasks + 1) as u8, 0, 0],
            ACQUIRE => {
                let uses = runner.map_or(0, |task| self.plan.uses[task]);
                let mut declared = (0..MOST_LOCKS as u8).filter(|lock| uses >> lock & 1 != 0);
                let place = random.below(uses.count_ones().max(1) as usize);
                let lock = declared.nth(place).filter(|_| is_sensible);
                [ACQUIRE, lock.unwrap_or(any_lock), 0, 0]
            }
            UNLOCK => {
                let row = runner.map_or(&[][..], |task| {
                    &self.state.takes[task][..usize::from(self.state.held[task])]
                });
                let lock = row.last().copied().filter(|_| is_sensible);
                [UNLOCK, lock.unwrap_or(any_lock), 0, 0]
            }
            WORK if is_sensible => [WORK, 0, random.below(5) as u8, 0],
            WORK => [WORK, 0, 0, 200],
            FINISH => [FINISH, 0, 0, 0],
            _ => [TICK, 0, 0, 0],
        }
    }
}

/// Numbers that look random and are always the same: splitmix64.
struct Random(u64);

impl Random {
    fn below(&mut self, end: usize) -> usize {
        self.0 = self.0.wrapping_add(0x9E37_79B9_7F4A_7C15);
        let mut z = self.0;
        z = (z ^ (z >> 30)).wrapping_mul(0xBF58_476D_1CE4_E5B9);
        z = (z ^ (z >> 27)).wrapping_mul(0x94D0_49BB_1331_11EB);
        ((z ^ (z >> 31)) % end as u64) as usize
    }
}
