//! Comparing two answers to the same request, field by field and figure by
//! figure, and saying in words where they differ.

use crate::check::Checked;
use crate::compose::Composed;
use crate::job::JobRead;
use crate::refusals::named;
use crate::replay::{Answer, FILL};
use crate::step::Stepped;
use crate::whole::{figure, Whole, FIGURES};
use crate::writer::Written;

/// What differs between the judge and another one, each in words.
struct Differences {
    other: &'static str,
    found: Vec<String>,
}

/// Whom the judge is mostly compared with.
const PROGRAM: &str = "the program";

impl Differences {
    fn with(other: &'static str) -> Differences {
        Differences {
            other,
            found: Vec::new(),
        }
    }

    fn number(&mut self, ours: u8, theirs: u8) {
        if ours != theirs {
            self.add("number", &named(ours), &named(theirs));
        }
    }

    fn field(&mut self, name: &str, ours: u32, theirs: u32) {
        if ours != theirs {
            self.add(name, &ours.to_string(), &theirs.to_string());
        }
    }

    /// A list with a number for each task.
    fn list(&mut self, name: &str, ours: &[u16], theirs: &[u16]) {
        for (task, (ours, theirs)) in ours.iter().zip(theirs).enumerate() {
            let name = format!("{name} of task {task}");
            self.field(&name, u32::from(*ours), u32::from(*theirs));
        }
    }

    fn add(&mut self, name: &str, ours: &str, theirs: &str) {
        let other = self.other;
        let words = format!("{name}: the judge says {ours}, {other} {theirs}");
        self.found.push(words);
    }
}

/// Every field of a replay's answer that differs; none exactly when the answers
/// are equal.
pub fn answers(judge: &Answer, program: &Answer) -> Vec<String> {
    let mut differences = Differences::with(PROGRAM);
    differences.number(judge.number, program.number);
    differences.field("place", judge.place, program.place);
    differences.field("lazy calls", judge.lazy_calls, program.lazy_calls);
    differences.field("eager calls", judge.eager_calls, program.eager_calls);
    let (ours, theirs) = (judge.delays.len(), program.delays.len());
    differences.field("tasks", ours as u32, theirs as u32);
    if ours == theirs {
        differences.list("delay", &judge.delays, &program.delays);
        differences.list("bound", &judge.bounds, &program.bounds);
    }
    differences.found.extend(rows(&judge.rows, &program.rows));
    differences.found
}

/// The same for a check's answer.
pub fn checks(judge: &Checked, program: &Checked) -> Vec<String> {
    let mut differences = Differences::with(PROGRAM);
    differences.number(judge.number, program.number);
    differences.field("place", judge.place, program.place);
    let (ours, theirs) = (judge.events_at, program.events_at);
    differences.field("place of the event body", ours, theirs);
    differences
        .found
        .extend(figures(&judge.plan, &program.plan, PROGRAM));
    differences.found
}

/// The same for a step's answer.
pub fn steps(judge: &Stepped, program: &Stepped) -> Vec<String> {
    let mut differences = Differences::with(PROGRAM);
    differences.number(judge.number, program.number);
    let (ours, theirs) = (u32::from(judge.call), u32::from(program.call));
    differences.field("lazy call", ours, theirs);
    differences
        .found
        .extend(figures(&judge.after, &program.after, PROGRAM));
    differences.found
}

/// The same for a writing's answer.
pub fn writings(judge: &Written, program: &Written) -> Vec<String> {
    let mut differences = Differences::with(PROGRAM);
    differences.number(judge.number, program.number);
    differences.field("place", judge.place, program.place);
    differences.field("length", judge.length, program.length);
    let place = |at: usize| format!("byte {at}");
    let buffer = bytes("buffer", &judge.buffer, &program.buffer, place);
    differences.found.extend(buffer);
    differences.found
}

/// The same for the answer to the reading of a job.
pub fn readings(judge: &JobRead, program: &JobRead) -> Vec<String> {
    let mut differences = Differences::with(PROGRAM);
    differences.number(judge.number, program.number);
    differences.field("place", judge.place, program.place);
    differences.field("events", judge.events, program.events);
    let place = |at: usize| format!("in the record of event {} (byte {at})", at / 4);
    let space = bytes("event space", &judge.space, &program.space, place);
    differences.found.extend(space);
    differences.found
}

/// The same for a text's answer.
pub fn composed(judge: &Composed, program: &Composed) -> Vec<String> {
    let mut differences = Differences::with(PROGRAM);
    let (ours, theirs) = (judge.book.len(), program.book.len());
    differences.field("length of the book", ours as u32, theirs as u32);
    if ours == theirs {
        let place = |at: usize| format!("byte {at}");
        let book = bytes("book", &judge.book, &program.book, place);
        differences.found.extend(book);
    }
    differences.found.extend(texts(&judge.line, &program.line));
    differences.found
}

/// The first line of a text that differs.
pub fn texts(judge: &[u8], program: &[u8]) -> Vec<String> {
    let mut differences = Differences::with(PROGRAM);
    if judge == program {
        return differences.found;
    }
    let mut ours = judge.split_inclusive(|byte| *byte == b'\n');
    let mut theirs = program.split_inclusive(|byte| *byte == b'\n');
    let told = |line: Option<&[u8]>| match line {
        Some(line) => format!("\"{}\"", line.escape_ascii()),
        None => "nothing".to_string(),
    };
    // The texts are not the same, so there is such a line.
    for number in 1.. {
        let (ours, theirs) = (ours.next(), theirs.next());
        if ours != theirs {
            differences.add(&format!("line {number}"), &told(ours), &told(theirs));
            break;
        }
    }
    differences.found
}

/// Every figure of the judge's that differs from that of another one.
pub fn figures(ours: &Whole, theirs: &Whole, other: &'static str) -> Vec<String> {
    let mut differences = Differences::with(other);
    if ours == theirs {
        return differences.found;
    }
    for (field, place) in (0..FIGURES).map(figure) {
        let (ours, theirs) = (ours.get(field, place), theirs.get(field, place));
        if ours != theirs {
            let name = field.figure_name(place);
            differences.add(&name, &ours.to_string(), &theirs.to_string());
        }
    }
    differences.found
}

/// The first row byte that differs, and how many do.
fn rows(judge: &[u8], program: &[u8]) -> Option<String> {
    let place = |at: usize| {
        let field = ["running task", "user word", "second word", "lazy call"][at % 4];
        format!("the {field} in the row of event {} (byte {at})", at / 4)
    };
    bytes("rows", judge, program, place)
}

/// The same for any bytes, with words for a place.
fn bytes(
    name: &str,
    judge: &[u8],
    program: &[u8],
    place: impl Fn(usize) -> String,
) -> Option<String> {
    let differing: Vec<usize> = (0..judge.len())
        .filter(|at| judge[*at] != program[*at])
        .collect();
    let first = *differing.first()?;
    let (ours, theirs) = (judge[first], program[first]);
    let note = |byte: u8| if byte == FILL { " (the fill)" } else { "" };
    Some(format!(
        "{name}: {} bytes differ, first {}: the judge says {ours}{}, the program {theirs}{}",
        differing.len(),
        place(first),
        note(ours),
        note(theirs),
    ))
}

/// The comparison tells each single figure apart and names it; those that it
/// doesn't, and how many were tried.
pub fn test() -> (usize, Vec<String>) {
    let mut failed = Vec::new();
    for number in 0..FIGURES {
        let (field, place) = figure(number);
        let mut changed = Whole::blank();
        changed.set(field, place, field.greatest());
        let found = figures(&Whole::blank(), &changed, PROGRAM);
        let name = format!("{}: ", field.figure_name(place));
        if found.len() != 1 || !found[0].starts_with(&name) {
            failed.push(format!("{name}told as {found:?}"));
        }
    }
    (FIGURES, failed)
}
