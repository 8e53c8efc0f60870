//! RULES 20.1 to 20.3: the reader of jobs. It parts a text at its spaces into words. In a
//! right text each word starts one item, which is work or a section, and then closes as many
//! sections as it has brackets at its end. So a word is judged by itself, and of the words
//! before it nothing counts but which sections they left open.

use crate::beginnings;
use crate::book::{refuse, Refusal};
use crate::event::Event;
use crate::lenient::made_right;
use crate::plan::{MOST_LOCKS, MOST_NESTED, MOST_UNITS};
use crate::replay::FILL;
use crate::wrong::Wrong;

/// The bytes of an event's record.
pub const RECORD: usize = 4;

/// All that a program under judgement has to answer for the reading of a job.
#[derive(Clone, PartialEq, Eq)]
pub struct JobRead {
    /// 0 if the events are laid into the space.
    pub number: u8,
    pub place: u32,
    /// How many events there are; 0 beside a refusal.
    pub events: u32,
    /// The whole event space. What the reader does not lay there keeps its fill.
    pub space: Vec<u8>,
}

/// A word without the brackets at its end, and how many these are.
struct Word<'t> {
    start: &'t [u8],
    closes: usize,
}

pub fn read(text: &[u8], room: usize, wrong: Wrong) -> JobRead {
    let (number, place, told, laid) = match events_within(text, room, wrong) {
        Ok(events) => (0, 0, events.len(), events),
        Err(Refusal { number, place }) => {
            let told = told_beside(number, text, wrong);
            (number, place, told, laid_beside(number, text, wrong))
        }
    };
    let mut space = vec![FILL; room];
    for (record, event) in space.chunks_exact_mut(RECORD).zip(&laid) {
        record.copy_from_slice(&event.record());
    }
    if wrong == Wrong::SpaceCleared && number == 0 {
        space[RECORD * laid.len()..].fill(0);
    }
    JobRead {
        number,
        place,
        events: told as u32,
        space,
    }
}

/// The events, or 25, or 26: so many bytes of event space are too few for them.
pub fn events_within(text: &[u8], room: usize, wrong: Wrong) -> Result<Vec<Event>, Refusal> {
    if wrong == Wrong::EventSpaceFirst && room < RECORD * letters(text) {
        return refuse(26, 0);
    }
    let Some(events) = events(text, wrong) else {
        return refuse(25, beginnings::place(text, wrong));
    };
    let wanted = match wrong {
        Wrong::FiveBytes => RECORD + 1,
        _ => RECORD,
    };
    if room < wanted * events.len() {
        return refuse(26, 0);
    }
    Ok(events)
}

/// The events of a job; nothing where the text is none.
pub fn events(text: &[u8], wrong: Wrong) -> Option<Vec<Event>> {
    let mut events = Vec::new();
    let is_job = go_through(text, wrong, |event| events.push(event));
    is_job.then_some(events)
}

/// Whether the text is a job.
pub fn is_job(text: &[u8], wrong: Wrong) -> bool {
    go_through(text, wrong, |_| ())
}

/// How many events a text has, if it is a job: each stands for one of its letters, but for
/// the finish.
pub fn letters(text: &[u8]) -> usize {
    let letters = text.iter().filter(|byte| b"w[]".contains(byte));
    letters.count() + 1
}

/// Goes through the words of a text as long as they are right, and hands over the events;
/// whether all of it was right.
fn go_through(text: &[u8], wrong: Wrong, mut hand: impl FnMut(Event)) -> bool {
    if !may_be_job(text, wrong) {
        return false;
    }
    let text = made_right(text, wrong);
    let most = match wrong {
        Wrong::NinthSection => MOST_NESTED + 1,
        Wrong::SevenSections => MOST_NESTED - 1,
        _ => MOST_NESTED,
    };
    // The locks of the open sections, the newest last.
    let mut open: Vec<u8> = Vec::new();
    for word in words(&text) {
        let Some(event) = first_event(word.start, wrong) else {
            return false;
        };
        hand(event);
        if let Event::Acquire(lock) = event {
            if wrong == Wrong::AgainInJobRefused && open.contains(&lock) {
                return false;
            }
            open.push(lock);
        }
        if open.len() > most {
            return false;
        }
        for _ in 0..word.closes {
            let outermost = open.first().copied();
            let Some(newest) = open.pop() else {
                return false;
            };
            let named = outermost.filter(|_| wrong == Wrong::OutermostUnlocked);
            hand(Event::Unlock(named.unwrap_or(newest)));
        }
    }
    if wrong != Wrong::NoFinish {
        hand(Event::Finish);
    }
    open.is_empty()
}

/// What is between the spaces. A text without a byte has no words; any other has one more
/// than it has spaces, and some may be empty, which no item is.
fn words(text: &[u8]) -> impl Iterator<Item = Word<'_>> {
    let is_empty = text.is_empty();
    let words = text.split(|byte| *byte == b' ').filter(move |_| !is_empty);
    words.map(|word| {
        let brackets = word.iter().rev().take_while(|byte| **byte == b']');
        let closes = brackets.count();
        let start = &word[..word.len() - closes];
        Word { start, closes }
    })
}

/// The event of a word's start: work, or the acquire of a section.
fn first_event(start: &[u8], wrong: Wrong) -> Option<Event> {
    let (letter, digits) = start.split_first()?;
    let number = number(digits, wrong)?;
    match letter {
        b'w' => {
            let most = match wrong {
                Wrong::Units65536 => u32::from(MOST_UNITS) + 1,
                _ => u32::from(MOST_UNITS),
            };
            let is_right = (1..=most).contains(&number);
            is_right.then_some(Event::Work(number as u16))
        }
        b'[' => {
            let most = match wrong {
                Wrong::Lock32 => MOST_LOCKS,
                _ => MOST_LOCKS - 1,
            };
            let is_right = number as usize <= most;
            is_right.then_some(Event::Acquire(number as u8))
        }
        _ => None,
    }
}

/// A number that has as many digits as are written, so that no zero and no sign stands in
/// front of it. What is greater than four bytes can hold is none that is asked for.
fn number(digits: &[u8], wrong: Wrong) -> Option<u32> {
    let digits = std::str::from_utf8(digits).ok()?;
    let digits = match wrong {
        Wrong::ZeroInFront => without_zeros(digits),
        _ => digits,
    };
    let number: u32 = digits.parse().ok()?;
    let length = number.checked_ilog10().unwrap_or(0) + 1;
    (digits.len() == length as usize).then_some(number)
}

/// Digits without zeros in front; of nothing but zeros one is left.
fn without_zeros(digits: &str) -> &str {
    let shortest = digits.trim_start_matches('0');
    match shortest {
        "" => &digits[digits.len().saturating_sub(1)..],
        _ => shortest,
    }
}

/// False where a wrong way refuses a text by a look at the whole of it.
fn may_be_job(text: &[u8], wrong: Wrong) -> bool {
    match wrong {
        Wrong::EmptyRefused => !text.is_empty(),
        Wrong::SectionsCounted => {
            let brackets = text.iter().filter(|byte| **byte == b'[');
            brackets.count() <= MOST_NESTED
        }
        _ => true,
    }
}

/// How many events a refusal tells of: none, by the rules.
fn told_beside(number: u8, text: &[u8], wrong: Wrong) -> usize {
    match (number, wrong) {
        (26, Wrong::EventsBeside26) => letters(text),
        _ => 0,
    }
}

/// The events that a refusal lays into the space, as far as it has room for them: none, by
/// the rules.
fn laid_beside(number: u8, text: &[u8], wrong: Wrong) -> Vec<Event> {
    let mut events = Vec::new();
    if let (25, Wrong::LaidBeside25) | (26, Wrong::LaidBeside26) = (number, wrong) {
        go_through(text, wrong, |event| events.push(event));
    }
    events
}
