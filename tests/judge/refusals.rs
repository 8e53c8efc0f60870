//! The refusal numbers in words, and which of them a whole book, a single step, a
//! writing and the reading of a job can be answered with.

/// `WORDS[n]` says when number n is given; 0 stands for no refusal.
pub const WORDS: [&str; 27] = [
    "nothing refused",
    "the book is shorter than its contents",
    "a count is out of its range",
    "an entry's kind or offset, or the end of the book, is wrong",
    "a task without a base, or with a maximum below it",
    "a lock without a ceiling or a limit, or with a stray second byte",
    "a use of something unknown, or not after the use before it",
    "a lock with fewer than two users, or another ceiling than they give",
    "an event of no kind, with a stray field, or that works nothing",
    "fewer than four row bytes for each event",
    "the state is not sound",
    "as many events are accepted as can be",
    "an act while nobody runs",
    "an unknown task or lock",
    "a release of a released task",
    "an acquire by a task that is no user",
    "never: it is withdrawn",
    "an acquire of a lock that another task has open",
    "an acquire with as many takes as can be",
    "an unlock of another lock than that of the newest take",
    "a work of nothing",
    "a work past the limit of an open section",
    "a finish before all takes are given back",
    "the buffer is shorter than the book",
    "a use of a lock whose ceiling is above the task's maximum",
    "a text that is no job",
    "fewer than four bytes of event space for each event of a job",
];

/// The answers that whole books can get. The others cannot come up there: a
/// fresh start leads to neither 10 nor 17, 11 needs more events than a book
/// holds, a book that works nothing is refused with 8, so that 20 is left to the
/// single step, 23 is the writer's, and 25 and 26 are about jobs. 16 is nowhere an answer.
pub const FROM_BOOKS: [u8; 19] = [
    0, 1, 2, 3, 4, 5, 6, 7, 24, 8, 9, 12, 13, 14, 15, 18, 19, 21, 22,
];

/// The answers that single steps can get.
pub const FROM_STEPS: [u8; 13] = [0, 10, 11, 12, 13, 14, 15, 17, 18, 19, 20, 21, 22];

/// The answers that writings can get, in the order of their tests.
pub const FROM_WRITINGS: [u8; 9] = [0, 2, 4, 5, 6, 7, 24, 8, 23];

/// The answers that the readings of jobs can get, in the order of their tests.
pub const FROM_JOBS: [u8; 3] = [0, 25, 26];

/// A number with its words.
pub fn named(number: u8) -> String {
    match WORDS.get(usize::from(number)) {
        Some(words) => format!("{number} ({words})"),
        None => format!("{number} (no such number)"),
    }
}
