//! The writer of books: from records to the bytes of their book in a lent
//! buffer. What the reader refuses with 2, 4 to 7, 24 and 8 is refused here too, each
//! with its place, and then 23: the buffer is shorter than the book.

use crate::book::{entry_at, refuse, test_2_counts, test_4_tasks, test_5_locks, test_6_uses};
use crate::book::{test_24_maxima, test_7_ceilings, test_8_events, test_plan, Refusal};
use crate::draft::Draft;
use crate::replay::FILL;
use crate::wrong::Wrong;

/// All that a program under judgement has to answer for a writing.
#[derive(Clone, PartialEq, Eq)]
pub struct Written {
    /// 0 if the book is written.
    pub number: u8,
    pub place: u32,
    /// The bytes of the book; 0 where it is refused.
    pub length: u32,
    /// The whole buffer. What the writer does not write keeps its fill.
    pub buffer: Vec<u8>,
}

pub fn write(records: &Draft, room: usize, wrong: Wrong) -> Written {
    let mut buffer = vec![FILL; room];
    let (number, place, length) = match book(records, room, wrong) {
        Ok(book) => {
            buffer[..book.len()].copy_from_slice(&book);
            (0, 0, book.len())
        }
        Err(refusal) => (refusal.number, refusal.place, 0),
    };
    go_wrong(&mut buffer, length, wrong);
    Written {
        number,
        place,
        length: length as u32,
        buffer,
    }
}

/// The bytes, or the first test that refuses.
fn book(records: &Draft, room: usize, wrong: Wrong) -> Result<Vec<u8>, Refusal> {
    let book = records.bytes();
    test_2_counts(records.counts(), wrong)?;
    let plan = test_plan(records, wrong)?;
    if wrong == Wrong::RoomBefore8 {
        test_23_room(room, &book)?;
    }
    test_8_events(&records.events)?;
    if wrong == Wrong::AboveMaximumAfter8 {
        test_24_maxima(&plan, wrong)?;
    }
    test_23_room(room, &book)?;
    Ok(book)
}

/// 23: the book doesn't fit the buffer. The place is 0.
fn test_23_room(room: usize, book: &[u8]) -> Result<(), Refusal> {
    if room < book.len() {
        return refuse(23, 0);
    }
    Ok(())
}

/// The numbers whose tests refuse, each on its own, in the order of the tests:
/// the first of them is the answer.
pub fn faults(records: &Draft, room: usize) -> Vec<u8> {
    let plan = records.plan();
    let [tasks, locks, ..] = records.counts();
    let is_refused = [
        (2, test_2_counts(records.counts(), Wrong::Nothing).is_err()),
        (4, test_4_tasks(&records.tasks, Wrong::Nothing).is_err()),
        (5, test_5_locks(&records.locks).is_err()),
        (6, test_6_uses(&records.uses, tasks, locks).is_err()),
        (7, test_7_ceilings(&plan, Wrong::Nothing).is_err()),
        (24, test_24_maxima(&plan, Wrong::Nothing).is_err()),
        (8, test_8_events(&records.events).is_err()),
        (23, room < records.size()),
    ];
    let refused = is_refused.iter().filter(|(_, is)| *is);
    refused.map(|(number, _)| *number).collect()
}

/// Changes a byte as the wrong way says; a length of 0 is that of a refusal.
fn go_wrong(buffer: &mut [u8], length: usize, wrong: Wrong) {
    let place = match wrong {
        Wrong::OffsetOff if length > 0 => entry_at(4) + 4,
        Wrong::ByteAfter if length > 0 => length,
        Wrong::RefusalTouches if length == 0 => 0,
        _ => return,
    };
    if let Some(byte) = buffer.get_mut(place) {
        *byte = byte.wrapping_add(1);
    }
}
