//! The proved library, as include/recorder.h declares it; and a plan and a state
//! of ordinary Rust as it wants them.

use crate::ordinary::{self, Protocol, Record, MOST_LOCKS, MOST_TAKES, MOST_TASKS};
use crate::ordinary_write::Records;

#[repr(C)]
#[derive(Clone, Copy, PartialEq)]
pub struct Plan {
    pub tasks: usize,
    pub locks: usize,
    pub base: [u8; MOST_TASKS],
    pub maximum: [u8; MOST_TASKS],
    pub ceiling: [u8; MOST_LOCKS],
    pub limit: [u16; MOST_LOCKS],
    pub uses: [u32; MOST_TASKS],
}

#[repr(C)]
#[derive(Clone, Copy)]
pub struct State {
    pub accepted: u32,
    pub running: u8,
    pub user: u8,
    pub next: u8,
    pub lazy: u32,
    pub eager: u32,
    pub released: [u32; MOST_TASKS],
    pub kept: [u8; MOST_TASKS],
    pub delay: [u16; MOST_TASKS],
    pub depth: [u8; MOST_TASKS],
    /// A row is a number in base 256, newest first.
    pub takes: [u64; MOST_TASKS],
    pub saved: [u64; MOST_TASKS],
    pub units: [u16; MOST_LOCKS],
    pub owner: [u8; MOST_LOCKS],
}

#[repr(C)]
pub struct Check {
    pub number: u8,
    pub place: usize,
    pub plan: Plan,
    pub events: usize,
}

#[repr(C)]
pub struct Replay {
    pub number: u8,
    pub place: usize,
    pub plan: Plan,
    pub state: State,
}

#[repr(C)]
pub struct Step {
    pub number: u8,
    pub calls: u8,
    pub state: State,
}

#[repr(C)]
#[derive(Clone, Copy)]
pub struct Write {
    pub number: u8,
    pub place: usize,
    pub length: usize,
}

#[repr(C)]
#[derive(Clone, Copy)]
pub struct Job {
    pub number: u8,
    pub place: usize,
    pub events: usize,
}

extern "C" {
    fn recorder_check(book: *const u8, length: usize, room: usize) -> Check;
    fn recorder_write(
        tasks: *const u16,
        task_count: usize,
        locks: *const u32,
        lock_count: usize,
        uses: *const u16,
        use_count: usize,
        events: *const u32,
        event_count: usize,
        buffer: *mut u8,
        room: usize,
    ) -> Write;
    fn recorder_read_job(text: *const u8, length: usize, space: *mut u8, room: usize) -> Job;
    fn recorder_fresh() -> State;
    fn recorder_step(protocol: u8, plan: Plan, state: State, kind: u8, id: u8, amount: u16)
        -> Step;
    fn recorder_replay(
        protocol: u8,
        book: *const u8,
        length: usize,
        rows: *mut u8,
        room: usize,
    ) -> Replay;
}

/// The number by which the library knows a protocol.
fn number(protocol: Protocol) -> u8 {
    match protocol {
        Protocol::Second => 2,
        Protocol::First => 1,
    }
}

pub fn check(book: &[u8], room: usize) -> Check {
    // The library reads `length` bytes from `book` and keeps nothing.
    unsafe { recorder_check(book.as_ptr(), book.len(), room) }
}

pub fn replay(protocol: Protocol, book: &[u8], rows: &mut [u8]) -> Replay {
    let (length, room) = (book.len(), rows.len());
    // It reads the book, and writes no byte outside of the rows.
    unsafe {
        recorder_replay(
            number(protocol),
            book.as_ptr(),
            length,
            rows.as_mut_ptr(),
            room,
        )
    }
}

pub fn write(records: &Records, buffer: &mut [u8]) -> Write {
    let Records {
        tasks,
        locks,
        uses,
        events,
    } = records;
    // It reads the records, and writes no byte outside of the buffer.
    unsafe {
        recorder_write(
            tasks.as_ptr(),
            tasks.len(),
            locks.as_ptr(),
            locks.len(),
            uses.as_ptr(),
            uses.len(),
            events.as_ptr(),
            events.len(),
            buffer.as_mut_ptr(),
            buffer.len(),
        )
    }
}

pub fn read_job(text: &[u8], space: &mut [u8]) -> Job {
    // It reads the text, and writes no byte outside of the space.
    unsafe { recorder_read_job(text.as_ptr(), text.len(), space.as_mut_ptr(), space.len()) }
}

pub fn fresh() -> State {
    // It is handed nothing.
    unsafe { recorder_fresh() }
}

/// Here the plan and the state are copied, since the library takes them by value.
pub fn step(protocol: Protocol, plan: &Plan, state: &State, record: Record) -> Step {
    let [kind, id, low, high] = record;
    let amount = u16::from_le_bytes([low, high]);
    // It is handed no address.
    unsafe { recorder_step(number(protocol), *plan, *state, kind, id, amount) }
}

impl Plan {
    pub fn of(plan: &ordinary::Plan) -> Plan {
        Plan {
            tasks: plan.tasks,
            locks: plan.locks,
            base: plan.base,
            maximum: plan.maximum,
            ceiling: plan.ceiling,
            limit: plan.limit,
            uses: plan.uses,
        }
    }
}

impl State {
    pub fn of(state: &ordinary::State) -> State {
        let row = |bytes: &[u8; MOST_TAKES], held: u8| {
            let mut row = *bytes;
            row[..MOST_TAKES.min(held.into())].reverse();
            u64::from_le_bytes(row)
        };
        State {
            accepted: state.accepted,
            running: state.running,
            user: state.user,
            next: state.next,
            lazy: state.lazy,
            eager: state.eager,
            released: state.released,
            kept: state.kept,
            delay: state.delay,
            depth: state.held,
            takes: std::array::from_fn(|task| row(&state.takes[task], state.held[task])),
            saved: std::array::from_fn(|task| row(&state.saved[task], state.held[task])),
            units: state.units,
            owner: state.owner,
        }
    }

    /// The first figure that differs from the ordinary state's.
    pub fn differs(&self, state: &ordinary::State) -> Option<&'static str> {
        let other = State::of(state);
        let tests = [
            ("accepted events", self.accepted == other.accepted),
            (
                "calls",
                (self.lazy, self.eager) == (other.lazy, other.eager),
            ),
            ("running task", self.running == other.running),
            ("words", (self.user, self.next) == (other.user, other.next)),
            ("release numbers", self.released == other.released),
            ("kept priorities", self.kept == other.kept),
            ("delays", self.delay == other.delay),
            ("numbers of takes", self.depth == other.depth),
            ("rows of takes", self.takes == other.takes),
            ("rows of saved words", self.saved == other.saved),
            ("units", self.units == other.units),
            ("owners", self.owner == other.owner),
        ];
        tests.iter().find(|(_, same)| !same).map(|(what, _)| *what)
    }
}
