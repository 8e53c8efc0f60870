//! The hand-made books: cases from a file, each with the answer to its check
//! that was worked out from the rules by hand. How they are written is told at
//! the file's head.

use crate::crane;
use crate::draft::Draft;
use crate::event::Event;
use crate::generate::Case;
use crate::notation::{columns, narrow, number, numbers, read_lines, split_word};
use crate::wrong::Wrong;

const TEXT: &str = include_str!("../cases/books.txt");

pub struct BookCase {
    pub case: Case,
    expected: Expected,
}

/// What the file says of the answer.
struct Expected {
    /// The number, the place of the offender and the place of the event body.
    answer: (u64, u64, u64),
    /// The bounds of all tasks.
    bounds: Option<Vec<u64>>,
    /// The bytes of the book.
    size: Option<u64>,
}

pub fn cases() -> Result<Vec<BookCase>, String> {
    let mut cases: Vec<BookCase> = Vec::new();
    let read = |line: &'static str| {
        let case = case(&columns(line))?;
        if cases.iter().any(|other| other.case.name == case.case.name) {
            return Err("another case has this name".to_string());
        }
        cases.push(case);
        Ok(())
    };
    read_lines(TEXT, read).map_err(|error| format!("books.txt, {error}"))?;
    Ok(cases)
}

/// NAME | book | row space | answer, and further columns.
fn case(columns: &[&str]) -> Result<BookCase, String> {
    let [name, book, room, answer, further @ ..] = columns else {
        return Err("too few columns".to_string());
    };
    let mut expected = Expected {
        answer: self::answer(answer)?,
        bounds: None,
        size: None,
    };
    for column in further {
        let (kind, rest) = split_word(column);
        match kind {
            "bounds" => expected.bounds = Some(numbers(rest)?),
            "size" => expected.size = Some(number(rest)?),
            _ => return Err(format!("{column} says nothing of a book")),
        }
    }
    let case = Case {
        name: name.to_string(),
        book: self::book(book)?,
        row_space: narrow(room)?,
    };
    Ok(BookCase { case, expected })
}

/// `passed` and the place of the event body, or the number and its place.
fn answer(text: &str) -> Result<(u64, u64, u64), String> {
    let (first, place) = split_word(text);
    let place = number(place)?;
    if first == "passed" {
        return Ok((0, 0, place));
    }
    Ok((number(first)?, place, 0))
}

/// P1's book of the crane plan, or a book by its counts; then changes.
pub fn book(text: &str) -> Result<Vec<u8>, String> {
    let mut items = text.split(',').map(str::trim);
    let first = items.next().unwrap_or_default();
    let mut book = match first.strip_prefix("counts ") {
        Some(counts) => counted(&numbers(counts)?)?.bytes(),
        None if first == "crane" => crane::book(crane::RUNS[0].1),
        None => return Err(format!("{first} is no book")),
    };
    for item in items {
        match item.strip_prefix("size ") {
            Some(size) => book.resize(narrow(size)?, 0),
            None => put(&mut book, item)?,
        }
    }
    Ok(book)
}

/// `AT=VALUE` for one byte, `FIRST..LAST=VALUE` for several, little-endian.
pub fn put(book: &mut [u8], item: &str) -> Result<(), String> {
    let (at, value) = item
        .split_once('=')
        .ok_or_else(|| format!("{item} has no `=`"))?;
    let (first, last) = at.split_once("..").unwrap_or((at, at));
    let (first, last): (usize, usize) = (narrow(first)?, narrow(last)?);
    let value = number(value)?.to_le_bytes();
    let fits = |place: &&mut [u8]| value.iter().skip(place.len()).all(|byte| *byte == 0);
    let place = book.get_mut(first..last + 1).filter(fits);
    for (byte, part) in place
        .ok_or_else(|| format!("{item} doesn't fit"))?
        .iter_mut()
        .zip(value)
    {
        *byte = part;
    }
    Ok(())
}

/// Records that are right but for their counts, where these are not: task t has
/// base t + 1, maxima are the greatest, limits are 1, use k is by task k / locks of
/// lock k % locks, and all events are ticks. So each lock has two users from twice
/// as many uses as locks on.
pub fn counted(counts: &[u64]) -> Result<Draft, String> {
    let [tasks, locks, uses, events] = counts[..] else {
        return Err("a book has four counts".to_string());
    };
    let base = |task: u64| (task % u64::from(u8::MAX)) as u8 + 1;
    let pair = |place: u64| [(place / locks) as u8, (place % locks) as u8];
    let mut draft = Draft {
        tasks: (0..tasks).map(|task| [base(task), u8::MAX]).collect(),
        locks: vec![[1, 0, 1, 0]; locks as usize],
        uses: (0..uses).map(pair).collect(),
        events: vec![Event::Tick.record(); events as usize],
    };
    for [task, lock] in draft.uses.clone() {
        let ceiling = &mut draft.locks[usize::from(lock)][0];
        *ceiling = base(u64::from(task)).max(*ceiling);
    }
    Ok(draft)
}

impl BookCase {
    /// Where the judge's own answers are others than those by hand, in words.
    fn wrong(&self) -> Vec<String> {
        let expected = &self.expected;
        let checked = self.case.check();
        let replayed = self.case.replay(Wrong::Nothing);
        let answer = (
            u64::from(checked.number),
            u64::from(checked.place),
            u64::from(checked.events_at),
        );
        let bounds = replayed.answers.second.bounds.iter().copied();
        let bounds: Vec<u64> = bounds.map(u64::from).collect();
        let size = self.case.book.len() as u64;
        let mut wrong: Vec<String> = replayed.violation.into_iter().collect();
        if answer != expected.answer {
            wrong.push(format!("answer {answer:?}, by hand {:?}", expected.answer));
        }
        if expected
            .bounds
            .as_ref()
            .is_some_and(|wanted| *wanted != bounds)
        {
            wrong.push(format!("bounds {bounds:?}, by hand {:?}", expected.bounds));
        }
        if expected.size.is_some_and(|wanted| wanted != size) {
            wrong.push(format!("size {size}, by hand {:?}", expected.size));
        }
        wrong
    }
}

/// The judge's own answers against those by hand; those that differ.
pub fn test(cases: &[BookCase]) -> Vec<String> {
    let told = |case: &BookCase| -> Vec<String> {
        let name = &case.case.name;
        let wrong = case.wrong();
        wrong
            .iter()
            .map(|words| format!("{name}: {words}"))
            .collect()
    };
    cases.iter().flat_map(told).collect()
}
