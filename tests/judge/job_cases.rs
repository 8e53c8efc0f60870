//! The hand-made jobs: cases from a file, each with the answer that was worked out from the
//! rules by hand. How they are written is told at the file's head.

use crate::event::Event;
use crate::job::{JobRead, RECORD};
use crate::notation::{columns, event, narrow, number, read_lines, split_word};
use crate::reading::Reading;
use crate::replay::FILL;
use crate::text_cases::{expand, piece, Pieces};
use crate::write_cases::digits;
use crate::wrong::Wrong;

const TEXT: &str = include_str!("../cases/jobs.txt");

/// The bytes of a space that is called `plenty`.
const PLENTY: usize = 256;

pub struct JobCase {
    pub reading: Reading,
    expected: Expected,
}

/// What the file says of the answer.
struct Expected {
    number: u8,
    place: u64,
    events: Vec<Event>,
    /// The bytes of the records.
    bytes: Option<Vec<u8>>,
}

pub fn cases() -> Result<Vec<JobCase>, String> {
    let mut cases: Vec<JobCase> = Vec::new();
    let mut pieces = Pieces::new();
    let read = |line: &'static str| {
        if let Some(named) = line.strip_prefix("let ") {
            return piece(named, &mut pieces);
        }
        let case = case(&columns(line), &pieces)?;
        let is_same = |other: &JobCase| other.reading.name == case.reading.name;
        if cases.iter().any(is_same) {
            return Err("another case has this name".to_string());
        }
        cases.push(case);
        Ok(())
    };
    read_lines(TEXT, read).map_err(|error| format!("jobs.txt, {error}"))?;
    Ok(cases)
}

/// NAME | text | room | answer, and perhaps the bytes.
fn case(columns: &[&str], pieces: &Pieces) -> Result<JobCase, String> {
    let [name, text, room, answer, further @ ..] = columns else {
        return Err("too few columns".to_string());
    };
    let bytes = match further {
        [] => None,
        [column] => {
            let bytes = column.strip_prefix("bytes ").ok_or("no bytes")?;
            Some(digits(bytes)?)
        }
        _ => return Err("too many columns".to_string()),
    };
    let (number, place, events) = self::answer(answer, pieces)?;
    let reading = Reading {
        name: format!("job \"{name}\""),
        sort: "by hand",
        text: expand(text, pieces)?,
        room: match *room {
            "plenty" => PLENTY,
            room => narrow(room)?,
        },
        made_for: None,
    };
    let expected = Expected {
        number,
        place,
        events,
        bytes,
    };
    Ok(JobCase { reading, expected })
}

/// The number and its place, or 0 and the events.
fn answer(text: &str, pieces: &Pieces) -> Result<(u8, u64, Vec<Event>), String> {
    let expanded = expand(text, pieces)?;
    let words = String::from_utf8(expanded).map_err(|_| "no words".to_string())?;
    match split_word(&words) {
        ("25", place) => Ok((25, number(place)?, Vec::new())),
        ("26", "0") => Ok((26, 0, Vec::new())),
        _ => {
            let events = words.split(',').map(|word| event(word.trim()));
            Ok((0, 0, events.collect::<Result<_, _>>()?))
        }
    }
}

impl Expected {
    /// Where an answer is another than the expected one, in words.
    fn against(&self, read: &JobRead) -> Vec<String> {
        let mut wrong = Vec::new();
        let answer = (read.number, u64::from(read.place), read.events as usize);
        let by_hand = (self.number, self.place, self.events.len());
        if answer != by_hand {
            wrong.push(format!("answer {answer:?}, by hand {by_hand:?}"));
            return wrong;
        }
        let (records, rest) = read.space.split_at(RECORD * self.events.len());
        let by_hand: Vec<[u8; RECORD]> = self.events.iter().map(|event| event.record()).collect();
        if records != by_hand.concat() {
            wrong.push("other events, or in another order".to_string());
        }
        if self.bytes.as_ref().is_some_and(|bytes| bytes != records) {
            wrong.push(format!("bytes {records:?}, by hand {:?}", self.bytes));
        }
        if rest.iter().any(|byte| *byte != FILL) {
            wrong.push("a byte is touched that has to stay".to_string());
        }
        wrong
    }
}

/// The judge's own answers against those by hand; those that differ.
pub fn test(cases: &[JobCase]) -> Vec<String> {
    let mut failed = Vec::new();
    for case in cases {
        let outcome = case.reading.read(Wrong::Nothing);
        let wrong = case.expected.against(&outcome.read);
        let all = wrong.into_iter().chain(outcome.violation);
        failed.extend(all.map(|words| format!("{}: {words}", case.reading.name)));
    }
    failed
}
