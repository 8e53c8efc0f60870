//! RULES 19.6: the refusals in the words that a program says them with. (Those of
//! `refusals.rs` are the judge's own.)

use crate::wrong::Wrong;

/// `MEANINGS[n]` is what refusal n means; there is no refusal 0, and 16 is never given.
const MEANINGS: [&str; 27] = [
    "",
    "the book has fewer than 32 bytes",
    "a book has 1 to 200 tasks, and at most 32 locks, 6400 uses and 12000 events",
    "an entry has another kind or offset than it should, or the book does not end with its last body",
    "a task's base is 0, or its maximum is below its base",
    "a lock's ceiling or limit is 0, or its second byte is not",
    "a use names no task or lock of the plan, or does not come after the use before it",
    "a lock has fewer than two users, or its ceiling is not their highest base",
    "an event has no such kind, something in a field that it does not use, or no work to do",
    "there are fewer than four row bytes for each event",
    "the state is not sound",
    "1000000 events were accepted already",
    "nobody runs who could do it",
    "the plan has no such task or lock",
    "the task is released already",
    "the running task may not use the lock",
    "",
    "another task has the lock open",
    "the running task has 8 takes that it has not given back",
    "the newest take of the running task is not of this lock",
    "the work is 0 units",
    "the work would take an open section past its limit",
    "the task finishes with a lock open",
    "the buffer is shorter than the book",
    "a use names a lock whose ceiling is above the task's maximum",
    "a job goes like w2 [0 w1], one space apart, with units 1 to 65535, locks 0 to 31 and at most 8 deep",
    "there are fewer than four bytes of event space for each event of the job",
];

pub fn meaning(number: u8) -> &'static str {
    MEANINGS[usize::from(number)]
}

/// A refusal of a book, with its place.
pub fn refused(number: u8, place: u32) -> String {
    format!("refused {number} {place}: {}", meaning(number))
}

/// A refusal of an event, whose place is told otherwise.
pub fn refused_event(number: u8, wrong: Wrong) -> String {
    let meaning = match (number, wrong) {
        (18, Wrong::OldWords) => "the running task has 8 locks open",
        (19, Wrong::OldWords) => "the lock is not the newest that the running task has open",
        _ => meaning(number),
    };
    format!("refused {number}: {meaning}")
}
