//! Counting what the generated writings reached: how often each number was the
//! answer, with which buffers, at which records and before which other faults,
//! and whether the rules that are easy to miss were met.

use crate::book::test_2_counts;
use crate::plan::MOST_EVENTS;
use crate::refusals::{FROM_WRITINGS, WORDS};
use crate::wire::MOST_BYTES;
use crate::writing::{Outcome, Writing};
use crate::wrong::Wrong;

/// Each answer is given at least so often, and all else is met so often.
const LEAST_ANSWERS: usize = 100;
const LEAST_MET: usize = 10;

/// Where the record lies that a refusal names.
const PLACES: [&str; 3] = ["at the first record", "in between", "at the last"];

/// Whether a writing is an example of a rule.
type IsMet = fn(&Writing, &Outcome) -> bool;

#[rustfmt::skip] // a line each
const RULES: [(&str, IsMet); 30] = [
    ("written to a buffer that is exactly long enough", |w, o| is_written(o) && spare(w) == Some(0)),
    ("written to one that has a byte more", |w, o| is_written(o) && spare(w) == Some(1)),
    ("written to the largest", |w, o| is_written(o) && w.room == MOST_BYTES),
    ("23 with one byte too few", |w, o| o.written.number == 23 && w.room + 1 == w.records.size()),
    ("23 without a buffer", |w, o| o.written.number == 23 && w.room == 0),
    ("a book of the most events", |w, o| is_written(o) && is_great(w)),
    ("23 for such a book", |w, o| o.written.number == 23 && is_great(w)),
    ("8 for such a book", |w, o| o.written.number == 8 && is_great(w)),
    ("a body without records", |w, o| is_written(o) && w.records.counts().contains(&0)),
    ("2 at entry 1", |_, o| is_at_entry(o, 1)),
    ("2 at entry 2", |_, o| is_at_entry(o, 2)),
    ("2 at entry 3", |_, o| is_at_entry(o, 3)),
    ("2 at entry 4", |_, o| is_at_entry(o, 4)),
    ("a count that two bytes just hold", |w, _| w.records.counts().contains(&LAST_COUNT)),
    ("a count that two bytes do not hold", |w, _| is_far(w)),
    ("such a count, and all in range if cut to two bytes", |w, _| is_far(w) && is_right_if_cut(w)),
    ("4 by a number whose low byte alone is 0", |w, o| by(o, 4, |at| is_high(w.records.tasks[at]))),
    ("7 for a lock without users", |w, o| by(o, 7, |lock| users(w, lock) == 0)),
    ("7 for one user, whose base is the ceiling", |w, o| by(o, 7, |lock| is_lone(w, lock))),
    ("7 for one user, whose base is another", |w, o| by(o, 7, |lock| users(w, lock) == 1 && !is_lone(w, lock))),
    ("8 by a release with an amount", |w, o| by(o, 8, |at| w.records.events[at][0] == 1)),
    ("4 for a maximum one below the base", |w, o| by(o, 4, |at| is_one_below(w.records.tasks[at]))),
    ("4 for a maximum of 0 and a base of 2 or more", |w, o| by(o, 4, |at| is_far_below(w.records.tasks[at]))),
    ("written with a maximum at the base", |w, o| is_written(o) && has_task(w, |base, most| most == base)),
    ("written with the greatest maximum", |w, o| is_written(o) && has_task(w, |_, most| most == u8::MAX)),
    ("written with a ceiling at the maximum of a user", |w, o| is_written(o) && has_use_at_maximum(w)),
    ("24 for a ceiling one above the maximum", |w, o| by(o, 24, |at| above(w, at) == 1)),
    ("24 for a ceiling far above it", |w, o| by(o, 24, |at| above(w, at) > 1)),
    ("24 at a use whose lock has another place", |w, o| by(o, 24, |at| usize::from(w.records.uses[at][1]) != at)),
    ("24 with a later use at fault too", |w, o| by(o, 24, |at| has_fault_after(w, at))),
];

#[derive(Default)]
pub struct WriteTally {
    writings: usize,
    /// Those whose records were read and written.
    rounds: usize,
    bytes: u64,
    answers: [usize; WORDS.len()],
    /// Of these, where the buffer is shorter than the book.
    short: [usize; WORDS.len()],
    /// Of these, by the place of the record.
    places: [[usize; PLACES.len()]; WORDS.len()],
    /// Of these, where the test that comes next would refuse too.
    before_next: [usize; WORDS.len()],
    met: [usize; RULES.len()],
}

impl WriteTally {
    pub fn count(&mut self, writing: &Writing, outcome: &Outcome) {
        let number = usize::from(outcome.written.number);
        self.writings += 1;
        self.rounds += usize::from(writing.book.is_some());
        self.bytes += u64::from(outcome.written.length);
        self.answers[number] += 1;
        self.short[number] += usize::from(spare(writing).is_none());
        if let Some(body) = records_of_number(outcome.written.number) {
            let records = writing.records.counts()[body];
            let place = match outcome.written.place as usize {
                0 => 0,
                place if place + 1 < records => 1,
                _ => 2,
            };
            self.places[number][place] += 1;
        }
        if let Some(next) = next_test(outcome.written.number) {
            self.before_next[number] += usize::from(outcome.faults.contains(&next));
        }
        for (times, (_, is_met)) in self.met.iter_mut().zip(RULES) {
            *times += usize::from(is_met(writing, outcome));
        }
    }

    /// What was met too seldom for the comparison to mean much.
    pub fn missing(&self) -> Vec<String> {
        let mut missing = Vec::new();
        let mut ask = |what: String, times: usize, least: usize| {
            if times < least {
                missing.push(format!("{what}: {times} times, not {least}"));
            }
        };
        for number in FROM_WRITINGS {
            let at = usize::from(number);
            let times = self.answers[at];
            ask(
                format!("answer {number} to a writing"),
                times,
                LEAST_ANSWERS,
            );
            if let Some(next) = next_test(number) {
                let (short, next_too) = (self.short[at], self.before_next[at]);
                ask(format!("{number} with a short buffer"), short, LEAST_MET);
                ask(
                    format!("{number} with a long buffer"),
                    times - short,
                    LEAST_MET,
                );
                ask(format!("{number} before {next}"), next_too, LEAST_MET);
            }
            if records_of_number(number).is_some() {
                for (place, times) in PLACES.iter().zip(self.places[at]) {
                    ask(format!("{number} {place}"), times, LEAST_MET);
                }
            }
        }
        for (times, (name, _)) in self.met.iter().zip(RULES) {
            ask(name.to_string(), *times, LEAST_MET);
        }
        missing
    }

    pub fn print_table(&self) {
        println!("answers of the generated writings, those with a short buffer, those before the next fault,");
        println!("those at the first record, in between and at the last:");
        println!("  no.   times  short   next  first between   last  given when");
        for number in FROM_WRITINGS.map(usize::from) {
            let [first, between, last] = self.places[number];
            println!(
                "  {number:>3} {:>7} {:>6} {:>6} {first:>6} {between:>7} {last:>6}  {}",
                self.answers[number], self.short[number], self.before_next[number], WORDS[number],
            );
        }
        println!("rules of the writer that are easy to miss:");
        for (times, (name, _)) in self.met.iter().zip(RULES) {
            println!("  {times:>6}  {name}");
        }
    }

    pub fn summary(&self) -> String {
        format!(
            "{} generated writings, {} written with {} bytes; {} read and written",
            self.writings, self.answers[0], self.bytes, self.rounds,
        )
    }
}

/// The test that comes after that of a refusal; nothing after the last.
fn next_test(number: u8) -> Option<u8> {
    let at = FROM_WRITINGS.iter().position(|other| *other == number)?;
    FROM_WRITINGS[1..].get(at).copied().filter(|_| number != 0)
}

/// The body, from 0, that has the records of which a refusal names one.
fn records_of_number(number: u8) -> Option<usize> {
    match number {
        4 => Some(0),
        5 | 7 => Some(1),
        6 | 24 => Some(2),
        8 => Some(3),
        _ => None,
    }
}

fn is_written(outcome: &Outcome) -> bool {
    outcome.written.number == 0
}

/// The bytes of the buffer after the book; nothing if it is too short.
fn spare(writing: &Writing) -> Option<usize> {
    writing.room.checked_sub(writing.records.size())
}

fn is_great(writing: &Writing) -> bool {
    writing.records.events.len() == MOST_EVENTS
}

fn is_at_entry(outcome: &Outcome, entry: u32) -> bool {
    (outcome.written.number, outcome.written.place) == (2, entry)
}

/// Whether the answer is this number, for a record as it is asked for.
fn by(outcome: &Outcome, number: u8, is_asked: impl Fn(usize) -> bool) -> bool {
    outcome.written.number == number && is_asked(outcome.written.place as usize)
}

fn is_high(task: [u8; 2]) -> bool {
    task[0] == 0 && task[1] != 0
}

fn is_one_below([base, maximum]: [u8; 2]) -> bool {
    maximum.checked_add(1) == Some(base)
}

fn is_far_below([base, maximum]: [u8; 2]) -> bool {
    maximum == 0 && base > 1
}

/// Whether some task has such a base and such a maximum.
fn has_task(writing: &Writing, is_such: impl Fn(u8, u8) -> bool) -> bool {
    let mut tasks = writing.records.tasks.iter();
    tasks.any(|[base, maximum]| is_such(*base, *maximum))
}

/// How far the ceiling of a use is above the maximum of its task. Both are there.
fn above(writing: &Writing, at: usize) -> i32 {
    let [task, lock] = writing.records.uses[at];
    let maximum = writing.records.tasks[usize::from(task)][1];
    let ceiling = writing.records.locks[usize::from(lock)][0];
    i32::from(ceiling) - i32::from(maximum)
}

fn has_use_at_maximum(writing: &Writing) -> bool {
    (0..writing.records.uses.len()).any(|at| above(writing, at) == 0)
}

fn has_fault_after(writing: &Writing, at: usize) -> bool {
    (at + 1..writing.records.uses.len()).any(|later| above(writing, later) > 0)
}

/// How many users a lock has.
fn users(writing: &Writing, lock: usize) -> usize {
    writing.records.plan().bases_of_users(lock).len()
}

/// Whether a lock has one user, and that user's base is its ceiling.
fn is_lone(writing: &Writing, lock: usize) -> bool {
    let plan = writing.records.plan();
    plan.bases_of_users(lock) == [plan.locks[lock].ceiling]
}

/// The greatest count of two bytes.
const LAST_COUNT: usize = u16::MAX as usize;

fn is_far(writing: &Writing) -> bool {
    let counts = writing.records.counts();
    counts.iter().any(|count| *count > LAST_COUNT)
}

fn is_right_if_cut(writing: &Writing) -> bool {
    let cut = writing
        .records
        .counts()
        .map(|count| count % (LAST_COUNT + 1));
    test_2_counts(cut, Wrong::Nothing).is_ok()
}
