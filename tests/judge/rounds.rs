//! Reading and writing go round: what was written is read as the same plan and
//! events, and what was read is written as the same bytes. This is held against
//! two answers of one program, that to the check of a book and that to the
//! writing of its records.

use crate::book::test_2_counts;
use crate::check::Checked;
use crate::replay::FILL;
use crate::whole::Whole;
use crate::writer::Written;
use crate::writing::Writing;
use crate::wrong::Wrong;

/// What does not go round, in words. The book has the bytes of the records and
/// was checked with row space enough.
pub fn broken(writing: &Writing, book: &[u8], checked: &Checked, written: &Written) -> Vec<String> {
    let mut broken = Vec::new();
    let mut demand = |holds: bool, words: &str| {
        if !holds {
            broken.push(words.to_string());
        }
    };
    let (records, buffer) = (&writing.records, &written.buffer);
    let is_fill = |bytes: &[u8]| bytes.iter().all(|byte| *byte == FILL);

    // The writer refuses what the reader refuses, and then a buffer that is too
    // short.
    let refusal = match checked.number {
        0 if writing.room < book.len() => (23, 0),
        number => (number, checked.place),
    };
    let is_same = (written.number, written.place) == refusal;
    demand(is_same, "the writer's refusal isn't the reader's");
    if written.number != 0 {
        demand(written.length == 0, "a refused book has a length");
        demand(is_fill(buffer), "a refusal touches the buffer");
        return broken;
    }

    let length = buffer.len().min(written.length as usize);
    let (front, rest) = buffer.split_at(length);
    demand(front == book, "other bytes are written than are read");
    demand(is_fill(rest), "a byte after the book is touched");
    let has_plan = test_2_counts(records.counts(), Wrong::Nothing).is_ok();
    let is_same = has_plan && checked.plan == Whole::of_plan(&records.plan());
    demand(is_same, "another plan is read than is written");
    let events = book.get(checked.events_at as usize..);
    let is_same = events == Some(&records.events.concat());
    demand(is_same, "other events are read than are written");
    broken
}
