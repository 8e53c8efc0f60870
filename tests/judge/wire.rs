//! The wire between the judge and the `batch` program under judgement. All
//! numbers are little-endian.
//!
//! To the program, for each request a head of 16 bytes, u32 command, u32 protocol,
//! u32 size, u32 room, then a payload of `size` bytes. The protocol is 1 for the
//! first and 2 for the second; commands that have none are sent 2. The end of the
//! input ends the program.
//!
//! 1, replay by the protocol: the payload is a book, the room its row space in
//! bytes. The reply is u8 number, u32 place, u32 lazy calls, u32 eager calls, u8
//! tasks of the plan (0 where 1 to 9 or 24 refused), u16 delay of each task, u16
//! bound of each task, then the whole row space, which the program fills with the
//! byte 0xEE before the replay.
//!
//! 2, check: the payload and the room are as for 1. The reply is u8 number, u32
//! place, u32 place of the event body in the book, then the plan, figure by
//! figure; all 0 after the place where the book is refused.
//!
//! 3, step by the protocol: the payload is a plan and a state, figure by figure,
//! then the four bytes of an event; the room is 0. The reply is u8 number, u8 lazy
//! call, then the state after the event, figure by figure.
//!
//! 4, write: the payload is four u32 counts, of tasks, locks, uses and events,
//! then the tasks as u16, the locks as u32, the uses as u16 and the events as
//! u32; the room is the buffer's length in bytes. The reply is u8 number, u32
//! place, u32 length of the book, then the whole buffer, which the program fills
//! with the byte 0xEE before the writing.
//!
//! 5, compose: the payload is a text, also one that is too long; the room is 0. The reply
//! is u32 length of the book, u32 length of the line that says why there is none, then the
//! book, then the line. One of the lengths is 0.
//!
//! 6, show: the payload is a book; the room is 0. The reply is u32 length of the text, then
//! the text.
//!
//! 7, explain by the protocol: the payload is a book; the room is 0. The reply is u32 length
//! of the words, then the words, from the line `in words` on.
//!
//! 8, read a job: the payload is a text, the room its event space in bytes. The reply is u8
//! number, u32 place, u32 how many events there are, then the whole event space, which the
//! program fills with the byte 0xEE before the reading.
//!
//! A real kernel is asked 1 as well, and has another reply (`tests/kernel`): u8
//! ending, u32 events taken, u8 who took it for each of these (255 for nobody),
//! u8 1 if the calls for another priority were counted, u32 how many. After the
//! last event the end of the list is taken like an event, so a whole run has one
//! more than the list.

use crate::book::LARGEST_BOOK;
use crate::check::Checked;
use crate::compose::{Composed, MOST_TEXT};
use crate::job::JobRead;
use crate::protocol::Protocol;
use crate::replay::Answer;
use crate::step::Stepped;
use crate::whole::Whole;
use crate::writer::Written;
use std::io::{Error, Read, Result};

/// No row space, buffer or event space is ever greater than this, nor is a book
/// whose counts are not far too great.
pub const MOST_BYTES: usize = 65_536;

/// A writing never has more records of a kind, which are some more than two
/// bytes can count.
pub const MOST_RECORDS: usize = 65_600;

/// No payload is greater than this: a text may have one byte more than can be composed.
const MOST_PAYLOAD: usize = MOST_TEXT + 1;

/// No right reply has a text or a book of so many bytes.
const FAR_TOO_MANY: u32 = 4_194_304;

/// There are longer books than the largest right one.
const _: () = assert!(LARGEST_BOOK < MOST_BYTES);

#[derive(Clone, Copy)]
pub enum Command {
    Replay = 1,
    Check = 2,
    Step = 3,
    Write = 4,
    Compose = 5,
    Show = 6,
    Explain = 7,
    Job = 8,
}

pub fn request(command: Command, protocol: Protocol, payload: &[u8], room: usize) -> Vec<u8> {
    assert!(payload.len() <= MOST_PAYLOAD && room <= MOST_BYTES);
    let (size, room) = (payload.len() as u32, room as u32);
    let head = [command as u32, protocol as u32, size, room];
    let head = head.map(u32::to_le_bytes).concat();
    [&head[..], payload].concat()
}

pub fn read_replay(input: &mut impl Read, row_space: usize) -> Result<Answer> {
    let number = read_u8(input)?;
    let place = read_u32(input)?;
    let lazy_calls = read_u32(input)?;
    let eager_calls = read_u32(input)?;
    let tasks = read_u8(input)?;
    let delays = read_u16s(input, tasks)?;
    let bounds = read_u16s(input, tasks)?;
    let mut rows = vec![0; row_space];
    input.read_exact(&mut rows)?;
    Ok(Answer {
        number,
        place,
        lazy_calls,
        eager_calls,
        delays,
        bounds,
        rows,
    })
}

pub fn read_check(input: &mut impl Read) -> Result<Checked> {
    let number = read_u8(input)?;
    let place = read_u32(input)?;
    let events_at = read_u32(input)?;
    let mut plan = Whole::blank();
    input.read_exact(plan.plan_bytes())?;
    Ok(Checked {
        number,
        place,
        events_at,
        plan,
    })
}

/// The plan isn't in the reply: it is the given one.
pub fn read_step(input: &mut impl Read, given: &Whole) -> Result<Stepped> {
    let number = read_u8(input)?;
    let call = read_u8(input)?;
    let mut after = given.clone();
    input.read_exact(after.state_bytes())?;
    Ok(Stepped {
        number,
        call,
        after,
    })
}

pub fn read_write(input: &mut impl Read, room: usize) -> Result<Written> {
    let number = read_u8(input)?;
    let place = read_u32(input)?;
    let length = read_u32(input)?;
    let mut buffer = vec![0; room];
    input.read_exact(&mut buffer)?;
    Ok(Written {
        number,
        place,
        length,
        buffer,
    })
}

pub fn read_compose(input: &mut impl Read) -> Result<Composed> {
    let (book, line) = (read_u32(input)?, read_u32(input)?);
    Ok(Composed {
        book: read_bytes(input, book)?,
        line: read_bytes(input, line)?,
    })
}

pub fn read_job(input: &mut impl Read, room: usize) -> Result<JobRead> {
    let number = read_u8(input)?;
    let place = read_u32(input)?;
    let events = read_u32(input)?;
    let mut space = vec![0; room];
    input.read_exact(&mut space)?;
    Ok(JobRead {
        number,
        place,
        events,
        space,
    })
}

/// The text of a show or the words of an explanation.
pub fn read_text(input: &mut impl Read) -> Result<Vec<u8>> {
    let length = read_u32(input)?;
    read_bytes(input, length)
}

/// How a run on a real kernel ends, by its number.
const ENDINGS: [&str; 5] = [
    "that was the whole run",
    "nobody took the next one, and the run was ended",
    "the last one could not be done by whoever took it",
    "the list could not be started",
    "the process of the run ended too early",
];
pub const WHOLE: u8 = 0;
pub const SILENT: u8 = 1;

/// What a real kernel made of a list.
pub struct Run {
    pub ending: u8,
    /// Who took each event, which is who ran before it.
    pub who: Vec<u8>,
    /// The calls for another priority; nothing where they were not counted.
    pub calls: Option<u32>,
}

impl Run {
    pub fn ending_in_words(&self) -> &'static str {
        let words = ENDINGS.get(usize::from(self.ending));
        words.copied().unwrap_or("it ended in an unknown way")
    }
}

pub fn read_run(input: &mut impl Read) -> Result<Run> {
    let ending = read_u8(input)?;
    let taken = read_u32(input)?;
    let mut who = vec![0; (taken as usize).min(MOST_BYTES)];
    input.read_exact(&mut who)?;
    let is_counted = read_u8(input)? == 1;
    let calls = read_u32(input)?;
    Ok(Run {
        ending,
        who,
        calls: is_counted.then_some(calls),
    })
}

fn read_u8(input: &mut impl Read) -> Result<u8> {
    let mut bytes = [0; 1];
    input.read_exact(&mut bytes)?;
    Ok(bytes[0])
}

fn read_bytes(input: &mut impl Read, length: u32) -> Result<Vec<u8>> {
    if length >= FAR_TOO_MANY {
        return Err(Error::other(format!("a length of {length} bytes")));
    }
    let mut bytes = vec![0; length as usize];
    input.read_exact(&mut bytes)?;
    Ok(bytes)
}

fn read_u32(input: &mut impl Read) -> Result<u32> {
    let mut bytes = [0; 4];
    input.read_exact(&mut bytes)?;
    Ok(u32::from_le_bytes(bytes))
}

fn read_u16s(input: &mut impl Read, count: u8) -> Result<Vec<u16>> {
    let mut bytes = vec![0; 2 * usize::from(count)];
    input.read_exact(&mut bytes)?;
    Ok(bytes
        .chunks(2)
        .map(|pair| u16::from_le_bytes([pair[0], pair[1]]))
        .collect())
}
