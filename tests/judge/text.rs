//! RULES 19.1 to 19.4: the reader of texts. It parts a text into lines and a line into
//! words, and takes each line that has words for a record or a job; the first one that is
//! neither is a mistake.

use crate::book::Refusal;
use crate::draft::Draft;
use crate::event::Event;
use crate::forms::{Form, FORMS};
use crate::job::{self, RECORD};
use crate::plan::MOST_EVENTS;
use crate::wrong::Wrong;

/// What is wrong with a line that is no record.
#[derive(Clone, Copy, Debug, PartialEq, Eq)]
pub enum Fault {
    /// No record has the name.
    NoName,
    /// The word of a number is missing.
    Missing,
    /// It is no number.
    NoNumber,
    /// It is more than it may be.
    More,
    /// There is a word after the last number.
    TooMany,
}

/// The first fault of a line.
#[derive(Clone, Copy, Debug, PartialEq, Eq)]
pub struct Mistake {
    /// From 1, and so the word, the name among them.
    pub line: usize,
    pub word: usize,
    pub fault: Fault,
    /// The place in the table of the form that the line has the name of; nothing where
    /// it has none.
    pub form: Option<usize>,
}

/// Why a text cannot be read: the first line that is no record and no job. Where only the
/// items of a job are wrong, they are refused.
#[derive(Clone, Copy)]
pub enum Unread {
    Mistake(Mistake),
    /// The refusal, and the line of the job.
    Items(Refusal, usize),
}

/// The records of a text, and of each the line on which it stands, by part.
#[derive(Default)]
pub struct Records {
    pub draft: Draft,
    pub lines: [Vec<usize>; 4],
}

/// A line that has words.
struct Line<'t> {
    number: usize,
    /// All of it, but for the carriage return that it may end with and its comment.
    content: &'t [u8],
    words: Vec<&'t [u8]>,
}

/// What a line says: a record by its form and its numbers. A job has events besides.
struct Said {
    form: &'static Form,
    numbers: Vec<u64>,
    events: Vec<Event>,
}

/// The records, or why the text has none.
pub fn read(text: &[u8], wrong: Wrong) -> Result<Records, Unread> {
    let mut records = Records::default();
    let (mut unread, mut late) = (None, None);
    for line in lines(text, wrong) {
        match read_line(&line, wrong) {
            Ok(said) => put(&said, line.number, &mut records, wrong),
            Err(items @ Unread::Items(..)) if wrong == Wrong::ItemsLast => {
                late.get_or_insert(items);
            }
            Err(first) => {
                unread = Some(first);
                if wrong != Wrong::LastMistake {
                    break;
                }
            }
        }
    }
    match unread.or(late) {
        Some(unread) => Err(unread),
        None => Ok(records),
    }
}

/// The lines that have words. What stands behind the last newline is a line; where nothing
/// does, it has no words either.
fn lines(text: &[u8], wrong: Wrong) -> impl Iterator<Item = Line<'_>> {
    let first = match wrong {
        Wrong::LinesFromZero => 0,
        _ => 1,
    };
    text.split(|byte| *byte == b'\n')
        .zip(first..)
        .map(move |(line, number)| {
            let content = content(line, wrong);
            let words = content.split(move |byte| parts(*byte, wrong));
            Line {
                number,
                content,
                words: words.filter(|word| !word.is_empty()).collect(),
            }
        })
        .filter(|line| !line.words.is_empty())
}

/// A line without the carriage return that it may end with and without its comment.
fn content(line: &[u8], wrong: Wrong) -> &[u8] {
    let line = match wrong {
        Wrong::ReturnKept => line,
        _ => line.strip_suffix(b"\r").unwrap_or(line),
    };
    match wrong {
        Wrong::CommentAtStartAlone if !line.starts_with(b"#") => line,
        _ => line.split(|byte| *byte == b'#').next().unwrap_or_default(),
    }
}

/// Whether a byte parts words.
fn parts(byte: u8, wrong: Wrong) -> bool {
    byte == b' ' || (byte == b'\t' && wrong == Wrong::TabParts)
}

/// What a line says, or its first wrong word and what is wrong with it, or why its items are
/// refused.
fn read_line(line: &Line, wrong: Wrong) -> Result<Said, Unread> {
    let at = Form::named(line.words[0]);
    let mistake = |word: usize, fault: Fault| {
        Unread::Mistake(Mistake {
            line: line.number,
            word,
            fault,
            form: at,
        })
    };
    let form = &FORMS[at.ok_or_else(|| mistake(1, Fault::NoName))?];
    let mut rest = line.words[1..].iter().zip(2..);
    let mut numbers = Vec::new();
    for (at, most) in form.most.iter().enumerate() {
        let missing = || mistake(at + 2, Fault::Missing);
        let (word, place) = rest.next().ok_or_else(missing)?;
        let is_last = at + 1 == form.most.len();
        let most = match wrong {
            Wrong::LastUnlimited if is_last => u64::MAX,
            _ => *most,
        };
        let number = number(word, wrong).ok_or_else(|| mistake(place, Fault::NoNumber))?;
        let number = number.filter(|number| *number <= most);
        numbers.push(number.ok_or_else(|| mistake(place, Fault::More))?);
    }
    let mut events = Vec::new();
    if form.has_items() {
        let read = read_items(line, wrong);
        events = read.map_err(|refusal| Unread::Items(refusal, line.number))?;
    } else if let Some((_, place)) = rest.next() {
        if wrong != Wrong::WordTooManyPasses {
            return Err(mistake(place, Fault::TooMany));
        }
    }
    Ok(Said {
        form,
        numbers,
        events,
    })
}

/// The events of the items of a job. They are not parted into words: they are the rest of
/// the line after two words, without the spaces at its ends.
fn read_items(line: &Line, wrong: Wrong) -> Result<Vec<Event>, Refusal> {
    let mut rest = line.content;
    for _ in 0..2 {
        rest = without_spaces(rest, wrong);
        let end = rest.iter().position(|byte| parts(*byte, wrong));
        rest = &rest[end.unwrap_or(rest.len())..];
    }
    rest = without_spaces(rest, wrong);
    let at = line.content.len() - rest.len();
    let behind = rest.iter().rev().take_while(|byte| **byte == b' ');
    let items = match wrong {
        Wrong::SpacesKept => rest.to_vec(),
        Wrong::ItemsAsWords => line.words[2..].join(&b' '),
        _ => rest[..rest.len() - behind.count()].to_vec(),
    };
    let most = match wrong {
        Wrong::ReleaseTakesSpace => MOST_EVENTS - 1,
        _ => MOST_EVENTS,
    };
    let mut read = job::events_within(&items, RECORD * most, wrong);
    if let (Err(refusal), Wrong::PlaceInLine) = (&mut read, wrong) {
        refusal.place += at as u32;
    }
    read
}

/// Without what parts words at the start.
fn without_spaces(line: &[u8], wrong: Wrong) -> &[u8] {
    let start = line.iter().position(|byte| !parts(*byte, wrong));
    &line[start.unwrap_or(line.len())..]
}

/// Puts what a line says behind the records that there are.
fn put(said: &Said, line: usize, records: &mut Records, wrong: Wrong) {
    let part = said.form.part;
    let is_left_out = said.form.has_items() && wrong == Wrong::NoRelease;
    if !is_left_out {
        said.form.put(&said.numbers, &mut records.draft);
        records.lines[part].push(line);
    }
    for event in &said.events {
        records.draft.events.push(event.record());
        records.lines[part].push(line);
    }
}

/// A number; nothing where the word is none, and no value where it is greater than any
/// that is asked for here.
fn number(word: &[u8], wrong: Wrong) -> Option<Option<u64>> {
    let digits = std::str::from_utf8(word).ok()?;
    if digits.is_empty() || !digits.bytes().all(|byte| byte.is_ascii_digit()) {
        return None;
    }
    let shortest = digits.trim_start_matches('0');
    if wrong == Wrong::ZerosRefused && shortest.len() < digits.len() && digits != "0" {
        return None;
    }
    match shortest {
        "" => Some(Some(0)),
        _ => Some(shortest.parse().ok()),
    }
}
