//! The six events and their four bytes in the book: kind, id, amount (two).

#[derive(Clone, Copy, Debug, PartialEq, Eq)]
pub enum Event {
    Release(u8),
    Acquire(u8),
    Unlock(u8),
    Work(u16),
    Finish,
    Tick,
}

impl Event {
    /// Whether an accepted event enters the kernel, given whether it was a lazy
    /// call: only an unlock can be one.
    pub fn is_entry(self, lazy_call: bool) -> bool {
        lazy_call || matches!(self, Event::Release(_) | Event::Finish | Event::Tick)
    }

    /// The kinds are numbered from 1 in the order above. The amount is
    /// little-endian, and a field that the kind has no use for is 0.
    pub fn record(self) -> [u8; 4] {
        match self {
            Event::Release(task) => [1, task, 0, 0],
            Event::Acquire(lock) => [2, lock, 0, 0],
            Event::Unlock(lock) => [3, lock, 0, 0],
            Event::Work(amount) => [4, 0, amount.to_le_bytes()[0], amount.to_le_bytes()[1]],
            Event::Finish => [5, 0, 0, 0],
            Event::Tick => [6, 0, 0, 0],
        }
    }

    /// Nothing where the record is one of refusal 8: no such kind, something in
    /// a field without use, or a work of 0. An unknown task or lock is not
    /// looked at here: it is 13 at its turn.
    pub fn from_record(record: [u8; 4]) -> Option<Event> {
        let id = record[1];
        let amount = u16::from_le_bytes([record[2], record[3]]);
        match record[0] {
            1 if amount == 0 => Some(Event::Release(id)),
            2 if amount == 0 => Some(Event::Acquire(id)),
            3 if amount == 0 => Some(Event::Unlock(id)),
            4 if id == 0 && amount != 0 => Some(Event::Work(amount)),
            5 if id == 0 && amount == 0 => Some(Event::Finish),
            6 if id == 0 && amount == 0 => Some(Event::Tick),
            _ => None,
        }
    }
}
