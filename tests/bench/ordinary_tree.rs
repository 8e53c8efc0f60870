//! The same replay in ordinary Rust once more, with what the proved one has: a
//! tournament of the tasks' keys beside the arrays, as deep as the plan needs,
//! and the shortcuts of sound states.

use crate::ordinary::{
    check, Plan, Protocol, Refused, Replayed, State, MOST_ACCEPTED, MOST_TASKS, NOBODY,
};

const PLACES: usize = 2 * MOST_TASKS - 1;

/// A state and its tournament: place i holds the greater of places 2i + 1 and
/// 2i + 2, and the key of task t stands at place tasks - 1 + t.
struct Quick {
    state: State,
    tree: [u64; PLACES],
}

/// The greater kept priority goes first, then the earlier release, then the lower
/// number; 0 where nothing is kept.
fn key(kept: u8, released: u32, task: usize) -> u64 {
    if kept == 0 {
        return 0;
    }
    let order = u64::from(released) << 8 | task as u64;
    (u64::from(kept) << 40) + ((1 << 40) - 1 - order)
}

/// The priority of a key.
fn priority_of(key: u64) -> u8 {
    (key >> 40) as u8
}

impl Quick {
    fn fresh() -> Quick {
        Quick {
            state: State::fresh(),
            tree: [0; PLACES],
        }
    }

    fn act(&mut self, protocol: Protocol, plan: &Plan, record: &[u8]) -> Result<bool, u8> {
        if self.state.accepted >= MOST_ACCEPTED {
            return Err(11);
        }
        let call = match record[0] {
            1 => self.release(protocol, plan, usize::from(record[1])),
            2 => self.state.acquire(plan, usize::from(record[1])),
            3 => self.unlock(protocol, plan, usize::from(record[1])),
            4 => self.work(plan, u16::from_le_bytes([record[2], record[3]])),
            5 => self.finish(protocol, plan),
            _ => self.tick(protocol, plan),
        }?;
        self.state.accepted += 1;
        Ok(call)
    }

    /// The greatest kept priority.
    fn most(&self) -> u8 {
        priority_of(self.tree[0])
    }

    /// This task runs with this word; and the second word.
    fn enter(&mut self, protocol: Protocol, running: u8, user: u8, most: u8) {
        self.state.running = running;
        self.state.user = user;
        self.state.next = match protocol {
            Protocol::Second => most,
            Protocol::First => user,
        };
    }

    fn release(&mut self, protocol: Protocol, plan: &Plan, task: usize) -> Result<bool, u8> {
        let most = self.most();
        let state = &mut self.state;
        if task >= plan.tasks {
            return Err(13);
        }
        if state.released[task] != 0 {
            return Err(14);
        }
        state.cut(plan);
        state.released[task] = state.accepted + 1;
        state.delay[task] = 0;
        let base = plan.base[task];
        let (running, user) = (state.running, state.user);
        if base <= user {
            self.keep(plan.tasks, task, base);
            self.enter(protocol, running, user, most.max(base));
        } else if base > most {
            self.keep(plan.tasks, usize::from(running), user);
            self.enter(protocol, task as u8, base, most.max(user));
        } else {
            self.keep(plan.tasks, task, base);
            self.leave(protocol, plan.tasks);
        }
        Ok(false)
    }

    fn unlock(&mut self, protocol: Protocol, plan: &Plan, lock: usize) -> Result<bool, u8> {
        let call = self.state.give_back(plan, lock)?;
        if call {
            self.state.cut(plan);
            self.leave(protocol, plan.tasks);
        }
        Ok(call)
    }

    fn work(&mut self, plan: &Plan, amount: u16) -> Result<bool, u8> {
        let base = plan.base[self.state.charge(plan, amount)?];
        if self.most() > base {
            self.state.hold_up(plan, base, amount);
        }
        Ok(false)
    }

    fn finish(&mut self, protocol: Protocol, plan: &Plan) -> Result<bool, u8> {
        let task = self.state.runner()?;
        if self.state.held[task] != 0 {
            return Err(22);
        }
        self.state.cut(plan);
        self.state.released[task] = 0;
        self.switch(protocol, plan.tasks);
        Ok(false)
    }

    fn tick(&mut self, protocol: Protocol, plan: &Plan) -> Result<bool, u8> {
        self.state.cut(plan);
        self.enter(protocol, self.state.running, self.state.user, self.most());
        Ok(false)
    }

    /// The kernel keeps a priority for a task, and the tournament follows.
    fn keep(&mut self, tasks: usize, task: usize, priority: u8) {
        if task >= tasks.min(MOST_TASKS) {
            return;
        }
        self.state.kept[task] = priority;
        let mut greater = key(priority, self.state.released[task], task);
        let mut place = tasks - 1 + task;
        self.tree[place] = greater;
        while place > 0 {
            let above = (place - 1) / 2;
            greater = greater.max(self.tree[4 * above + 3 - place]);
            self.tree[above] = greater;
            place = above;
        }
    }

    /// The running task leaves with its word, and the kernel switches.
    fn leave(&mut self, protocol: Protocol, tasks: usize) {
        self.keep(tasks, usize::from(self.state.running), self.state.user);
        self.switch(protocol, tasks);
    }

    /// The task at the root runs, and who is at the root then is next.
    fn switch(&mut self, protocol: Protocol, tasks: usize) {
        let root = self.tree[0];
        if root == 0 {
            (self.state.running, self.state.user, self.state.next) = (NOBODY, 0, 0);
            return;
        }
        let who = !(root as u8);
        self.keep(tasks, usize::from(who), 0);
        self.enter(protocol, who, priority_of(root), self.most());
    }
}

fn run(
    protocol: Protocol,
    plan: &Plan,
    events: &[u8],
    quick: &mut Quick,
    rows: &mut [u8],
) -> Result<(), Refused> {
    let turns = events.chunks_exact(4).zip(rows.chunks_exact_mut(4));
    for (place, (record, row)) in turns.enumerate() {
        match quick.act(protocol, plan, record) {
            Ok(call) => {
                let state = &quick.state;
                row.copy_from_slice(&[state.running, state.user, state.next, call as u8]);
            }
            Err(number) => return Err(Refused(number, place)),
        }
    }
    Ok(())
}

pub fn replay(protocol: Protocol, book: &[u8], rows: &mut [u8]) -> Replayed {
    let mut quick = Quick::fresh();
    let (refused, plan) = match check(book, rows.len()) {
        Err(refused) => (refused, Plan::blank()),
        Ok(checked) => {
            let ran = run(protocol, &checked.plan, checked.events, &mut quick, rows);
            (ran.err().unwrap_or(Refused(0, 0)), checked.plan)
        }
    };
    Replayed {
        refused,
        plan,
        state: quick.state,
    }
}
