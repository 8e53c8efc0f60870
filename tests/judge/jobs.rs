//! The generated jobs: which text and which event space the n-th one of a seed has. Some
//! texts are right, and of some of these every beginning is tried; some are damaged, some
//! any bytes, and all short ones have their turn.

use crate::body;
use crate::event::Event;
use crate::job::{letters, RECORD};
use crate::job_damage::{damaged, ALPHABET, DAMAGES};
use crate::plan::MOST_NESTED;
use crate::random::Random;
use crate::reading::Reading;
use crate::wire::MOST_BYTES;

/// Of so many jobs one is long.
const LONG_IN: u64 = 500;

/// The others are of these sorts in turn.
const SORTS: u64 = 8;

/// A text of which every beginning is tried has at least so many bytes, and fewer than so
/// many.
const LEAST_CUT: usize = 40;
const CUT: u64 = 64;

/// The bytes of the short texts.
const OF_SHORT: &[u8; 8] = b"w[] 0139";

/// The names of the sorts. A damaged text has the name of its damage.
pub const RIGHT: &str = "right";
pub const BEGINNING: &str = "a beginning";
pub const SHORT: &str = "short";
pub const ANY: &str = "any bytes";
pub const LONG: &str = "long";
pub const SEVERAL: &str = "several damages";

/// What it is, the text, and what it has to be read as, where that is known.
type Made = (&'static str, Vec<u8>, Option<Result<Vec<Event>, usize>>);

/// The job of this number.
pub fn reading(seed: u64, number: u64) -> Reading {
    let random = &mut Random::for_case(seed, 6, number);
    let (turn, sort) = (number / SORTS, number % SORTS);
    let (sort, text, made_for) = match sort {
        _ if number % LONG_IN == 0 => long(random, number / LONG_IN),
        0 => right(random, turn),
        1 => beginning(seed, 2 * turn),
        2 => beginning(seed, 2 * turn + 1),
        3 => damage(random, 3 * turn),
        4 => (ANY, any(random), None),
        5 => damage(random, 3 * turn + 1),
        6 => (SHORT, short(turn), None),
        _ => damage(random, 3 * turn + 2),
    };
    let room = some_room(random, RECORD * letters(&text));
    Reading {
        name: format!("job {number} ({sort})"),
        sort,
        text,
        room: room.min(MOST_BYTES),
        made_for,
    }
}

/// Event space for a job that needs so many bytes, if it is one.
fn some_room(random: &mut Random, needed: usize) -> usize {
    match random.below(24) {
        0 | 1 => needed - 1,
        2 => needed - RECORD,
        3 => 0,
        4 => random.below(needed),
        5..=7 => needed + random.between(1, 3),
        8..=10 => needed + random.between(4, 60),
        11 => needed + needed / RECORD,
        12 if random.one_in(16) => MOST_BYTES,
        _ => needed,
    }
}

/// A body of any size, each depth in its turn.
fn right(random: &mut Random, turn: u64) -> Made {
    let depth = turn as usize % (MOST_NESTED + 1);
    let mut body = body::nested(random, depth);
    if random.one_in(4) {
        body.extend(body::nested(random, depth));
    }
    let text = body::text(&body).into_bytes();
    (RIGHT, text, Some(Ok(body::events(&body))))
}

/// The beginning of this number: those of a text come one after the other, and the whole of
/// it is one. It can be refused at its end only, and each event stands for a letter.
fn beginning(seed: u64, number: u64) -> Made {
    let (turn, length) = (number / CUT, (number % CUT) as usize);
    let random = &mut Random::for_case(seed, 7, turn);
    let depth = turn as usize % (MOST_NESTED + 1);
    let mut body = body::nested(random, depth);
    let mut text = body::text(&body).into_bytes();
    while !(LEAST_CUT..CUT as usize).contains(&text.len()) {
        if text.len() >= LEAST_CUT {
            body.clear();
        }
        body.extend(body::nested(random, depth));
        text = body::text(&body).into_bytes();
    }
    let events = body::events(&body);
    let text = &text[..length.min(text.len())];
    let count = |bracket: u8| text.iter().filter(|byte| **byte == bracket).count();
    let is_whole = !text.ends_with(b" ") && !text.ends_with(b"w");
    let made_for = match is_whole && count(b'[') == count(b']') {
        true => Ok(events_of_beginning(text, &events[..letters(text) - 1])),
        false => Err(text.len()),
    };
    (BEGINNING, text.to_vec(), Some(made_for))
}

/// The events of a beginning that is a job itself. If it ends with work, some of its digits
/// may be missing.
fn events_of_beginning(text: &[u8], acts: &[Event]) -> Vec<Event> {
    let mut events = acts.to_vec();
    let digits = text.rsplit(|byte| *byte == b'w').next();
    let units = digits.and_then(|digits| std::str::from_utf8(digits).ok()?.parse().ok());
    if let (Some(Event::Work(last)), Some(units)) = (events.last_mut(), units) {
        *last = units;
    }
    events.push(Event::Finish);
    events
}

/// A text with the damage whose turn it is; now and then the front of one and the back of
/// another.
fn damage(random: &mut Random, turn: u64) -> Made {
    let way = DAMAGES[turn as usize % DAMAGES.len()];
    let (mut text, place) = damaged(random, way);
    if random.one_in(8) {
        let other = random.pick(&DAMAGES);
        let (other, _) = damaged(random, other);
        let from = random.below(other.len());
        let at = random.below(text.len() + 1);
        text.splice(at.., other[from..].iter().copied());
        return (SEVERAL, text, None);
    }
    (way, text, place.map(Err))
}

/// Bytes that stand in jobs, or whole pieces of jobs, in any order.
fn any(random: &mut Random) -> Vec<u8> {
    let pieces: [&[u8]; 12] = [
        b"w1", b" w2", b" w65535", b"[0", b" [1", b"[31", b" [7 ", b"]", b"]]", b"] ", b" ", b"0",
    ];
    let count = random.below(14);
    let is_of_pieces = random.one_in(2);
    let some = (0..count).map(|_| {
        if is_of_pieces {
            random.pick(&pieces).to_vec()
        } else {
            vec![random.pick(ALPHABET)]
        }
    });
    some.collect::<Vec<_>>().concat()
}

/// The short text of this number: by their lengths, and then as numbers go.
fn short(number: u64) -> Vec<u8> {
    let (mut length, mut number) = (0, number);
    let base = OF_SHORT.len() as u64;
    while number >= base.pow(length) {
        number -= base.pow(length);
        length += 1;
    }
    let digit = |place: u32| (number / base.pow(place) % base) as usize;
    (0..length)
        .rev()
        .map(|place| OF_SHORT[digit(place)])
        .collect()
}

/// How many texts of up to so many bytes `short` has.
pub fn short_texts(most: u32) -> usize {
    (0..=most).map(|length| OF_SHORT.len().pow(length)).sum()
}

/// About 60,000 bytes: right, or with a byte too many, near the end or anywhere. There is so
/// much work that the most space holds all events.
fn long(random: &mut Random, turn: u64) -> Made {
    let mut body = Vec::new();
    let mut size = 0;
    while size < 60_000 {
        let depth = body.len() % (MOST_NESTED + 1);
        let mut more = body::nested(random, depth);
        more.extend((0..2 * depth).map(|_| body::work(random)));
        size += body::text(&more).len() + 1;
        body.extend(more);
    }
    let mut text = body::text(&body).into_bytes();
    let at = match turn % 4 {
        0 | 1 => return (LONG, text, Some(Ok(body::events(&body)))),
        2 => text.len() - random.below(20),
        _ => random.below(text.len()),
    };
    text.insert(at, b'x');
    (LONG, text, Some(Err(at)))
}
