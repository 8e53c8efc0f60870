//! The hand-made writings: cases from a file, each with the answer that was
//! worked out from the rules by hand. How they are written is told at the file's
//! head.

use crate::book_cases::{counted, put};
use crate::crane;
use crate::draft::Draft;
use crate::notation::{columns, narrow, number, numbers, read_lines, split_word};
use crate::replay::FILL;
use crate::writer::Written;
use crate::writing::Writing;
use crate::wrong::Wrong;

const TEXT: &str = include_str!("../cases/writes.txt");

pub struct WriteCase {
    pub writing: Writing,
    expected: Expected,
}

/// What the file says of the answer.
struct Expected {
    /// The number, the place and the book's length.
    answer: (u64, u64, u64),
    /// The bytes of the book.
    bytes: Option<Vec<u8>>,
    /// What some of the bytes make.
    holds: Vec<&'static str>,
}

pub fn cases() -> Result<Vec<WriteCase>, String> {
    let mut cases: Vec<WriteCase> = Vec::new();
    let read = |line: &'static str| {
        let case = case(&columns(line))?;
        let is_same = |other: &WriteCase| other.writing.name == case.writing.name;
        if cases.iter().any(is_same) {
            return Err("another case has this name".to_string());
        }
        cases.push(case);
        Ok(())
    };
    read_lines(TEXT, read).map_err(|error| format!("writes.txt, {error}"))?;
    Ok(cases)
}

/// NAME | records | buffer | answer, and further columns.
fn case(columns: &[&'static str]) -> Result<WriteCase, String> {
    let [name, records, room, answer, further @ ..] = columns else {
        return Err("too few columns".to_string());
    };
    let mut expected = Expected {
        answer: self::answer(answer)?,
        bytes: None,
        holds: Vec::new(),
    };
    for column in further {
        let (kind, rest) = split_word(column);
        match kind {
            "bytes" => expected.bytes = Some(digits(rest)?),
            "holds" => expected.holds.extend(rest.split(',').map(str::trim)),
            _ => return Err(format!("{column} says nothing of a book")),
        }
    }
    let writing = Writing::new(name.to_string(), self::records(records)?, narrow(room)?);
    Ok(WriteCase { writing, expected })
}

/// `written` and the book's length, or the number and its place.
fn answer(text: &str) -> Result<(u64, u64, u64), String> {
    let (first, second) = split_word(text);
    let second = number(second)?;
    if first == "written" {
        return Ok((0, 0, second));
    }
    Ok((number(first)?, second, 0))
}

/// Bytes of two hexadecimal digits each.
pub fn digits(text: &str) -> Result<Vec<u8>, String> {
    let digits: Vec<char> = text.chars().filter(|digit| *digit != ' ').collect();
    let byte = |pair: &[char]| u8::from_str_radix(&String::from_iter(pair), 16).ok();
    let bytes: Option<Vec<u8>> = digits.chunks(2).map(byte).collect();
    let bytes = bytes.filter(|_| digits.len() % 2 == 0);
    bytes.ok_or_else(|| format!("{text} are no bytes"))
}

/// The records of each kind as plain numbers: tasks, locks, uses and events.
type Lists = [Vec<u64>; 4];
const KINDS: [&str; 4] = ["task", "lock", "use", "event"];

/// Known records or none, and then changes.
pub fn records(text: &str) -> Result<Draft, String> {
    let mut lists = Lists::default();
    for item in text.split(',').map(str::trim) {
        match split_word(item) {
            ("crane", "") => {
                lists = self::lists(&Draft::of(&crane::plan(), crane::RUNS[0].1));
            }
            ("counts", counts) => lists = self::lists(&counted(&numbers(counts)?)?),
            (first, rest) => change(&mut lists, first, rest)?,
        }
    }
    draft(&lists)
}

fn lists(draft: &Draft) -> Lists {
    let two = |record: &[u8; 2]| u64::from(u16::from_le_bytes(*record));
    let four = |record: &[u8; 4]| u64::from(u32::from_le_bytes(*record));
    [
        draft.tasks.iter().map(two).collect(),
        draft.locks.iter().map(four).collect(),
        draft.uses.iter().map(two).collect(),
        draft.events.iter().map(four).collect(),
    ]
}

fn draft([tasks, locks, uses, events]: &Lists) -> Result<Draft, String> {
    let unfit = |_| "a record doesn't fit its bytes".to_string();
    let two = |record: &u64| u16::try_from(*record).map(u16::to_le_bytes).map_err(unfit);
    let four = |record: &u64| u32::try_from(*record).map(u32::to_le_bytes).map_err(unfit);
    Ok(Draft {
        tasks: tasks.iter().map(two).collect::<Result<_, _>>()?,
        locks: locks.iter().map(four).collect::<Result<_, _>>()?,
        uses: uses.iter().map(two).collect::<Result<_, _>>()?,
        events: events.iter().map(four).collect::<Result<_, _>>()?,
    })
}

/// `tasks N N ..`, `task PLACE=N` or `N tasks`.
fn change(lists: &mut Lists, first: &str, rest: &str) -> Result<(), String> {
    let kind = |word: &str| KINDS.iter().position(|kind| *kind == word);
    let kinds = |word: &str| word.strip_suffix('s').and_then(kind);
    if let Some(kind) = kinds(first) {
        lists[kind] = numbers(rest)?;
        return Ok(());
    }
    if let Some(kind) = kind(first) {
        let (place, value) = rest.split_once('=').ok_or("no `=` in a change")?;
        let record = lists[kind].get_mut(narrow::<usize>(place)?);
        *record.ok_or("no such record")? = number(value)?;
        return Ok(());
    }
    let kind = kinds(rest).ok_or_else(|| format!("{first} {rest} is no change"))?;
    let last = lists[kind].last().copied();
    let (count, spare) = (narrow(first)?, last.ok_or("there is no last record")?);
    lists[kind].resize(count, spare);
    Ok(())
}

impl Expected {
    /// Where an answer is another than the expected one, in words.
    fn against(&self, written: &Written) -> Vec<String> {
        let mut wrong = Vec::new();
        let answer = (
            u64::from(written.number),
            u64::from(written.place),
            u64::from(written.length),
        );
        if answer != self.answer {
            wrong.push(format!("answer {answer:?}, by hand {:?}", self.answer));
            return wrong;
        }
        let (book, rest) = written.buffer.split_at(written.length as usize);
        if rest.iter().any(|byte| *byte != FILL) {
            wrong.push("a byte is touched that has to stay".to_string());
        }
        if self.bytes.as_ref().is_some_and(|bytes| bytes != book) {
            wrong.push(format!("bytes {book:?}, by hand {:?}", self.bytes));
        }
        // What the bytes hold already does not change them.
        for item in &self.holds {
            let mut same = book.to_vec();
            if put(&mut same, item).is_err() || same != book {
                wrong.push(format!("the book does not hold {item}"));
            }
        }
        wrong
    }
}

/// The judge's own answers against those by hand; those that differ.
pub fn test(cases: &[WriteCase]) -> Vec<String> {
    let mut failed = Vec::new();
    for case in cases {
        let outcome = case.writing.write(Wrong::Nothing);
        let wrong = case.expected.against(&outcome.written);
        let all = wrong.into_iter().chain(outcome.violation);
        failed.extend(all.map(|words| format!("{}: {words}", case.writing.name)));
    }
    failed
}
