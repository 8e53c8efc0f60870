//! RULES 19.7 and 19.8: the single lines of a shown book, without their newline. `show`
//! puts all of them together, and `explain` takes those of what a refusal names.

use crate::book::ENTRY_BYTES;
use crate::draft::Draft;
use crate::event::Event;
use crate::forms::event_in_words;

/// What an event's comment says that was never tried.
pub const NOT_REACHED: &str = "not reached";

pub fn bytes(book: &[u8]) -> String {
    format!("# the book has {} bytes", book.len())
}

/// An entry of the contents, from 1. They are all there.
pub fn entry(book: &[u8], entry: usize) -> String {
    let found = book.chunks(ENTRY_BYTES).nth(entry - 1);
    let number = |bytes: &[u8]| {
        let low_first = bytes.iter().rev();
        low_first.fold(0, |number, byte| 256 * number + u64::from(*byte))
    };
    let (kind, rest) = found.unwrap_or_default().split_at(2);
    let (count, offset) = rest.split_at(2);
    let (kind, count, offset) = (number(kind), number(count), number(offset));
    format!("# entry {entry}: kind {kind}, {count} records, offset {offset}")
}

pub fn task(records: &Draft, place: usize) -> String {
    let [base, maximum] = records.tasks[place];
    format!("task {base} {maximum} # {place}")
}

/// A lock; one with something in its second byte has no words.
pub fn lock(records: &Draft, place: usize) -> String {
    let [ceiling, second, low, high] = records.locks[place];
    let limit = u16::from_le_bytes([low, high]);
    match second {
        0 => format!("lock {ceiling} {limit} # {place}"),
        _ => format!("# lock {ceiling} {limit} with {second} in its second byte"),
    }
}

pub fn pair(records: &Draft, place: usize) -> String {
    let [task, lock] = records.uses[place];
    format!("use {task} {lock} # {place}")
}

/// An event with the number that its comment has, and what came of it; one that 8 refuses
/// has no words.
pub fn event(records: &Draft, place: usize, number: usize, what: &str) -> String {
    let record = records.events[place];
    match Event::from_record(record) {
        Some(event) => {
            let words = event_in_words(event);
            format!("{words} # event {number}: {what}")
        }
        None => {
            let [kind, id, low, high] = record;
            let amount = u16::from_le_bytes([low, high]);
            format!("# kind {kind}, id {id}, amount {amount}")
        }
    }
}
