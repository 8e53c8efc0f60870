//! A writing: records, right or wrong, and the buffer that their book is to be
//! written to.

use crate::book;
use crate::check::Checked;
use crate::draft::Draft;
use crate::generate::Case;
use crate::rounds;
use crate::wire::MOST_BYTES;
use crate::writer::{self, Written};
use crate::wrong::Wrong;
use std::sync::Arc;

pub struct Writing {
    pub name: String,
    pub records: Draft,
    /// The bytes of the buffer.
    pub room: usize,
    /// The book of these records, where two bytes hold each count. It has row
    /// space enough, and a program is asked to check it just before.
    pub book: Option<Arc<Case>>,
}

pub struct Outcome {
    pub written: Written,
    /// The numbers whose tests refuse, each on its own; none in a wrong mode.
    pub faults: Vec<u8>,
    /// What the judge demands of itself and did not hold, in words.
    pub violation: Option<String>,
}

impl Writing {
    pub fn new(name: String, records: Draft, room: usize) -> Writing {
        let most = usize::from(u16::MAX);
        let is_book = records.counts().iter().all(|count| *count <= most);
        let case = || Case {
            name: format!("the book of {name}"),
            book: records.bytes(),
            row_space: (4 * records.events.len()).min(MOST_BYTES),
        };
        Writing {
            book: is_book.then(case).map(Arc::new),
            name,
            records,
            room,
        }
    }

    /// The records of a book are written again, to a buffer that is long enough.
    /// Nothing where they cannot be taken out of it, or its rows want space.
    pub fn of_book(case: &Arc<Case>) -> Option<Writing> {
        let records = book::cut(&case.book)?;
        if case.row_space < 4 * records.events.len() {
            return None;
        }
        // Two of three have bytes after the book.
        let spare = case.book.len() % 3;
        Some(Writing {
            name: format!("the records of {}", case.name),
            records,
            room: case.book.len() + spare,
            book: Some(Arc::clone(case)),
        })
    }

    pub fn write(&self, wrong: Wrong) -> Outcome {
        let written = writer::write(&self.records, self.room, wrong);
        if wrong != Wrong::Nothing {
            return Outcome {
                written,
                faults: Vec::new(),
                violation: None,
            };
        }
        let faults = writer::faults(&self.records, self.room);
        let violation = self.violation(&written, &faults);
        Outcome {
            written,
            faults,
            violation,
        }
    }

    /// The first test that refuses gives the answer, and the judge's own reader
    /// and writer go round.
    fn violation(&self, written: &Written, faults: &[u8]) -> Option<String> {
        let first = *faults.first().unwrap_or(&0);
        if written.number != first {
            let number = written.number;
            return Some(format!(
                "the answer is {number}, and the first fault {first}"
            ));
        }
        let checked = self.book.as_ref()?.check();
        self.broken(&checked, written).into_iter().next()
    }

    /// What does not go round in the answers to a check of the book, if there
    /// is one, and to this writing.
    pub fn broken(&self, checked: &Checked, written: &Written) -> Vec<String> {
        match &self.book {
            Some(case) => rounds::broken(self, &case.book, checked, written),
            None => Vec::new(),
        }
    }

    /// The counts, four bytes each, and the records as little-endian numbers,
    /// which are the records' bytes.
    pub fn payload(&self) -> Vec<u8> {
        let counts = self.records.counts();
        [
            counts.map(|count| (count as u32).to_le_bytes()).concat(),
            self.records.tasks.concat(),
            self.records.locks.concat(),
            self.records.uses.concat(),
            self.records.events.concat(),
        ]
        .concat()
    }

    pub fn told(&self) -> String {
        let (name, counts, room) = (&self.name, self.records.counts(), self.room);
        format!("{name}, counts {counts:?}, buffer {room}")
    }
}
