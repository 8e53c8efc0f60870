//! Counting what the generated texts reached: how often each answer of `compose` was given,
//! each mistake at each word of each record among them, and whether the rules that are easy
//! to miss were met.

use crate::book;
use crate::compose::{Ending, MOST_TEXT};
use crate::composing::{Composing, Outcome};
use crate::event::Event;
use crate::forms::FORMS;
use crate::job_tally::deepest;
use crate::plan::MOST_NESTED;
use crate::text::Fault;

/// Each answer is given so often, and each rule met; the longest texts are few.
const LEAST_MET: usize = 10;
const LEAST_LONGEST: usize = 2;

/// The refusals that can be given, each with its entry where it is 2, and with a line or
/// without.
const REFUSALS: [(u8, Option<u32>, bool); 13] = [
    (2, Some(1), false),
    (2, Some(1), true),
    (2, Some(2), true),
    (2, Some(3), true),
    (2, Some(4), true),
    (4, None, true),
    (5, None, true),
    (6, None, true),
    (7, None, true),
    (24, None, true),
    (8, None, true),
    (25, None, true),
    (26, None, true),
];

/// Whether a text is an example of a rule.
type IsMet = fn(&Composing, &Outcome) -> bool;

#[rustfmt::skip] // a line each
const RULES: [(&str, IsMet); 27] = [
    ("a shown book that is accepted", |c, _| c.shown.is_some()),
    ("a shown book that is refused", |c, o| c.shown.is_none() && c.text.starts_with(b"# refused") && !is_book(o)),
    ("no newline at the end of a book's text", |c, o| is_book(o) && c.text.last() != Some(&b'\n')),
    ("a carriage return at the end of a line", |c, o| is_book(o) && has(c, b"\r\n")),
    ("a carriage return elsewhere, in a comment", |c, o| is_book(o) && has(c, b"\r b")),
    ("a comment without a space before it", |c, o| is_book(o) && has(c, b"0#")),
    ("a comment without text", |c, o| is_book(o) && has(c, b"#\n")),
    ("a byte above 127 in a comment", |c, o| is_book(o) && c.text.iter().any(|byte| *byte > 127)),
    ("zeros in front", |c, o| is_book(o) && has(c, b" 00")),
    ("two spaces between words", |c, o| is_book(o) && has(c, b"task  ")),
    ("spaces before a name", |c, o| is_book(o) && has(c, b"\n  task")),
    ("an event before a task", |c, o| is_book(o) && is_before(c, b"release", b"task")),
    ("a use before a lock", |c, o| is_book(o) && is_before(c, b"use", b"lock")),
    ("a lock taken twice, one after the other", |_, o| is_book(o) && takes_twice(&o.composed.book)),
    ("a mistake in a word with a tab", |c, o| is_mistake(o) && has(c, b"\t")),
    ("a mistake in a text with a byte above 127", |c, o| is_mistake(o) && c.text.iter().any(|byte| *byte > 127)),
    ("a text without a byte", |c, _| c.text.is_empty()),
    ("a job", |c, o| is_book(o) && has_job(c, |job| !job.items.is_empty())),
    ("a job without items", |c, o| is_book(o) && has_job(c, |job| job.items.is_empty())),
    ("a job as deep as can be", |c, o| is_book(o) && has_job(c, |job| deepest(job.items) == MOST_NESTED)),
    ("a job with several spaces before its items", |c, o| is_book(o) && has_job(c, |job| job.rest.starts_with(b"  ") && !job.items.is_empty())),
    ("a job with spaces behind its items", |c, o| is_book(o) && has_job(c, |job| job.rest.ends_with(b" ") && !job.items.is_empty())),
    ("a job with zeros in front of its task", |c, o| is_book(o) && has_job(c, |job| job.task.starts_with(b"00"))),
    ("a job with a comment behind it", |c, o| is_book(o) && has_job(c, |job| job.line.contains(&b'#'))),
    ("a job with a carriage return behind it", |c, o| is_book(o) && has_job(c, |job| job.line.ends_with(b"\r"))),
    ("2 by a record of a job", |c, o| is_2(o) && named_job(c, o).is_some()),
    ("25 for two spaces between items", |c, o| named_job(c, o).is_some_and(|job| job.items.windows(2).any(|two| two == b"  "))),
];

#[rustfmt::skip] // a line each
const LONGEST: [(&str, IsMet); 3] = [
    ("a book from a text of the most bytes", |c, o| is_book(o) && c.text.len() == MOST_TEXT),
    ("a text of one byte too many", |c, o| o.ending == Ending::TooLong && c.text.len() == MOST_TEXT + 1),
    ("2 for more records than two bytes count", |c, o| is_2(o) && newlines(c) > usize::from(u16::MAX)),
];

/// The words at which a line of a form can be mistaken, and how.
fn mistakes() -> Vec<(Option<usize>, usize, Fault)> {
    let mut all = vec![(None, 1, Fault::NoName)];
    for (at, form) in FORMS.iter().enumerate() {
        for word in 2..form.most.len() + 2 {
            all.extend(
                [Fault::Missing, Fault::NoNumber, Fault::More].map(|fault| (Some(at), word, fault)),
            );
        }
        // What stands behind the numbers of a job are its items.
        if !form.has_items() {
            all.push((Some(at), form.most.len() + 2, Fault::TooMany));
        }
    }
    all
}

pub struct TextTally {
    texts: usize,
    bytes: usize,
    books: usize,
    too_long: usize,
    mistakes: Vec<usize>,
    refusals: [usize; REFUSALS.len()],
    met: [usize; RULES.len()],
    longest: [usize; LONGEST.len()],
}

impl TextTally {
    pub fn new() -> TextTally {
        TextTally {
            texts: 0,
            bytes: 0,
            books: 0,
            too_long: 0,
            mistakes: vec![0; mistakes().len()],
            refusals: [0; REFUSALS.len()],
            met: [0; RULES.len()],
            longest: [0; LONGEST.len()],
        }
    }

    pub fn count(&mut self, composing: &Composing, outcome: &Outcome) {
        self.texts += 1;
        self.bytes += composing.text.len();
        match outcome.ending {
            Ending::Book => self.books += 1,
            Ending::TooLong => self.too_long += 1,
            Ending::Mistake(mistake) => {
                let this = (mistake.form, mistake.word, mistake.fault);
                let at = mistakes().iter().position(|other| *other == this);
                self.mistakes[at.expect("one of the mistakes that there are")] += 1;
            }
            Ending::Refused(refusal, line) => {
                let is_this = |(number, entry, has_line): &(u8, Option<u32>, bool)| {
                    *number == refusal.number
                        && entry.is_none_or(|entry| entry == refusal.place)
                        && *has_line == line.is_some()
                };
                let at = REFUSALS.iter().position(is_this);
                self.refusals[at.expect("one of the refusals that there are")] += 1;
            }
        }
        for (times, (_, is_met)) in self.met.iter_mut().zip(RULES) {
            *times += usize::from(is_met(composing, outcome));
        }
        for (times, (_, is_met)) in self.longest.iter_mut().zip(LONGEST) {
            *times += usize::from(is_met(composing, outcome));
        }
    }

    /// All that has to be met, how often it was, and how often it has to be.
    fn all(&self) -> Vec<(String, usize, usize)> {
        let mistakes = mistakes().into_iter().zip(&self.mistakes);
        let mistakes = mistakes.map(|((form, word, fault), times)| {
            let form = form.map_or("any line", |at| FORMS[at].line);
            (
                format!("{fault:?} at word {word} of {form}"),
                *times,
                LEAST_MET,
            )
        });
        let refusals = REFUSALS.iter().zip(&self.refusals);
        let refusals = refusals.map(|((number, entry, has_line), times)| {
            let entry = entry.map_or(String::new(), |entry| format!(" at entry {entry}"));
            let line = if *has_line { "" } else { " without a line" };
            (
                format!("{number}{entry} to a text{line}"),
                *times,
                LEAST_MET,
            )
        });
        let rules = RULES.iter().zip(&self.met);
        let rules = rules.map(|((name, _), times)| (name.to_string(), *times, LEAST_MET));
        let longest = LONGEST.iter().zip(&self.longest);
        let longest = longest.map(|((name, _), times)| (name.to_string(), *times, LEAST_LONGEST));
        mistakes
            .chain(refusals)
            .chain(rules)
            .chain(longest)
            .collect()
    }

    /// What was met too seldom for the comparison to mean much.
    pub fn missing(&self) -> Vec<String> {
        let all = self.all().into_iter();
        all.filter(|(_, times, least)| times < least)
            .map(|(what, times, least)| format!("{what}: {times} times, not {least}"))
            .collect()
    }

    pub fn print_table(&self) {
        println!("answers to the generated texts, and rules of texts that are easy to miss:");
        for (what, times, _) in self.all() {
            println!("  {times:>6}  {what}");
        }
    }

    pub fn summary(&self) -> String {
        let (mistaken, refused): (usize, usize) =
            (self.mistakes.iter().sum(), self.refusals.iter().sum());
        let mistakes = self.mistakes.len();
        format!(
            "{} generated texts of {} bytes: {} books, {} with a mistake of {mistakes} sorts, {} \
             refused, {} too long",
            self.texts, self.bytes, self.books, mistaken, refused, self.too_long,
        )
    }
}

fn is_book(outcome: &Outcome) -> bool {
    outcome.ending == Ending::Book
}

fn is_mistake(outcome: &Outcome) -> bool {
    matches!(outcome.ending, Ending::Mistake(_))
}

fn is_2(outcome: &Outcome) -> bool {
    matches!(outcome.ending, Ending::Refused(refusal, Some(_)) if refusal.number == 2)
}

fn newlines(composing: &Composing) -> usize {
    composing.text.iter().filter(|byte| **byte == b'\n').count()
}

fn first(composing: &Composing, bytes: &[u8]) -> Option<usize> {
    let text = &composing.text;
    text.windows(bytes.len()).position(|window| window == bytes)
}

fn has(composing: &Composing, bytes: &[u8]) -> bool {
    first(composing, bytes).is_some()
}

/// Whether two acquires of one lock follow each other in a book.
fn takes_twice(book: &[u8]) -> bool {
    let events = book::cut(book).unwrap_or_default().events;
    let is_acquire = |record: [u8; 4]| record[0] == Event::Acquire(0).record()[0];
    let is_twice = |two: &[[u8; 4]]| two[0] == two[1] && is_acquire(two[0]);
    events.windows(2).any(is_twice)
}

fn is_before(composing: &Composing, one: &[u8], other: &[u8]) -> bool {
    let (one, other) = (first(composing, one), first(composing, other));
    one.is_some() && one < other
}

/// The line of a job.
struct Job<'t> {
    /// From its name on.
    line: &'t [u8],
    task: &'t [u8],
    /// What stands behind the task, but for a comment and a carriage return at the end.
    rest: &'t [u8],
    items: &'t [u8],
}

fn job(line: &[u8]) -> Option<Job<'_>> {
    let line = line.trim_ascii_start();
    let content = line.split(|byte| *byte == b'#').next()?;
    let content = content.strip_suffix(b"\r").unwrap_or(content);
    let words = content.strip_prefix(b"job ")?.trim_ascii_start();
    let end = words.iter().position(|byte| *byte == b' ');
    let (task, rest) = words.split_at(end.unwrap_or(words.len()));
    Some(Job {
        line,
        task,
        rest,
        items: rest.trim_ascii(),
    })
}

fn has_job(composing: &Composing, is_such: impl Fn(&Job) -> bool) -> bool {
    let mut lines = composing.text.split(|byte| *byte == b'\n');
    lines.any(|line| job(line).is_some_and(|job| is_such(&job)))
}

/// The job whose line a refusal names.
fn named_job<'t>(composing: &'t Composing, outcome: &Outcome) -> Option<Job<'t>> {
    let Ending::Refused(_, Some(number)) = outcome.ending else {
        return None;
    };
    let mut lines = composing.text.split(|byte| *byte == b'\n');
    lines.nth(number.checked_sub(1)?).and_then(job)
}
