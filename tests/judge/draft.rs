//! Writing books: a draft holds the records of the four bodies, right or wrong,
//! and becomes bytes with a right table of contents in front of them.

use crate::book::{starts, CONTENTS_BYTES};
use crate::event::Event;
use crate::plan::{Lock, Plan};

#[derive(Clone, Default)]
pub struct Draft {
    pub tasks: Vec<[u8; 2]>,
    pub locks: Vec<[u8; 4]>,
    pub uses: Vec<[u8; 2]>,
    pub events: Vec<[u8; 4]>,
}

impl Draft {
    pub fn of(plan: &Plan, events: &[Event]) -> Draft {
        Draft {
            tasks: plan
                .bases
                .iter()
                .zip(&plan.maxima)
                .map(|(base, maximum)| [*base, *maximum])
                .collect(),
            locks: plan
                .locks
                .iter()
                .map(|lock| {
                    let limit = lock.limit.to_le_bytes();
                    [lock.ceiling, 0, limit[0], limit[1]]
                })
                .collect(),
            uses: plan
                .uses
                .iter()
                .map(|(task, lock)| [*task, *lock])
                .collect(),
            events: events.iter().map(|event| event.record()).collect(),
        }
    }

    /// How many records each body has.
    pub fn counts(&self) -> [usize; 4] {
        [
            self.tasks.len(),
            self.locks.len(),
            self.uses.len(),
            self.events.len(),
        ]
    }

    /// The bytes of the book.
    pub fn size(&self) -> usize {
        starts(self.counts())[4]
    }

    /// The plan that the records stand for. What is wrong in one of them is not
    /// looked at, and a use of what isn't there is left out.
    pub fn plan(&self) -> Plan {
        let [tasks, locks, ..] = self.counts();
        let is_known =
            |(task, lock): &(u8, u8)| usize::from(*task) < tasks && usize::from(*lock) < locks;
        Plan {
            bases: self.tasks.iter().map(|[base, _]| *base).collect(),
            maxima: self.tasks.iter().map(|[_, maximum]| *maximum).collect(),
            locks: self
                .locks
                .iter()
                .map(|[ceiling, _, low, high]| Lock {
                    ceiling: *ceiling,
                    limit: u16::from_le_bytes([*low, *high]),
                })
                .collect(),
            uses: self
                .uses
                .iter()
                .map(|[task, lock]| (*task, *lock))
                .filter(is_known)
                .collect(),
        }
    }

    /// Four entries: kind (two bytes, counted from 1), number of records (two)
    /// and offset in the book (four). The bodies stand behind them in the same
    /// order without a gap.
    pub fn bytes(&self) -> Vec<u8> {
        let bodies = [
            (self.tasks.len(), self.tasks.concat()),
            (self.locks.len(), self.locks.concat()),
            (self.uses.len(), self.uses.concat()),
            (self.events.len(), self.events.concat()),
        ];
        let mut bytes = Vec::new();
        let mut offset = CONTENTS_BYTES;
        for (at, (count, body)) in bodies.iter().enumerate() {
            bytes.extend_from_slice(&(at as u16 + 1).to_le_bytes());
            bytes.extend_from_slice(&(*count as u16).to_le_bytes());
            bytes.extend_from_slice(&(offset as u32).to_le_bytes());
            offset += body.len();
        }
        for (_, body) in &bodies {
            bytes.extend_from_slice(body);
        }
        bytes
    }
}
