//! Damaged jobs: what a tired person and a broken cable make of the text of one. Where it
//! stops being a job is worked out here, without the reader, if it is known.

use crate::body::{self, Item};
use crate::plan::{MOST_LOCKS, MOST_NESTED, MOST_UNITS};
use crate::random::Random;

pub const DAMAGES: [&str; 26] = [
    "two spaces",
    "a zero in front of units",
    "a zero in front of a lock",
    "units too great",
    "a lock too great",
    "a ninth section",
    "a space before a closing bracket",
    "a space at the end",
    "a space in front",
    "a space in an empty section",
    "a space missing",
    "a space missing after a section",
    "a closing bracket missing",
    "a closing bracket too many",
    "a closing bracket too many at the end",
    "an opening bracket missing",
    "an opening bracket for another byte",
    "no units",
    "no lock",
    "a sign",
    "upper case",
    "a byte that is in no job",
    "such a byte too many",
    "a byte changed",
    "a byte missing",
    "a byte too many",
];

/// Amounts and locks that are too great: by one, by a digit, and by what two, four or eight
/// bytes can hold.
const GREAT_UNITS: [&str; 13] = [
    "65536",
    "65537",
    "65540",
    "65600",
    "66000",
    "70000",
    "99999",
    "100000",
    "655350",
    "655360",
    "4294967297",
    "18446744073709551617",
    "65535000000000000000000",
];
const GREAT_LOCKS: [&str; 11] = [
    "32",
    "33",
    "39",
    "40",
    "99",
    "100",
    "256",
    "310",
    "319",
    "4294967296",
    "18446744073709551616",
];

/// Bytes that stand in no job: their neighbours, and others.
const FOREIGN: [u8; 22] = [
    0, 9, 10, 13, 31, 33, b'#', b'+', b'-', b'/', b':', b'W', b'x', b'v', b'Z', b'\\', b'^', b'{',
    b'}', 127, 160, 255,
];

/// The bytes that stand in jobs.
pub const ALPHABET: &[u8; 14] = b"w[] 0123456789";

/// A damaged text, and the place of 25 in it, where that is known.
pub type Damaged = (Vec<u8>, Option<usize>);

/// A right text, damaged in the way of this name.
pub fn damaged(random: &mut Random, way: &str) -> Damaged {
    let depth = match way {
        "a ninth section" => MOST_NESTED,
        _ => random.between(1, MOST_NESTED),
    };
    let mut items = body::nested(random, depth);
    // Now there are spaces, letters and brackets of all sorts.
    let at = random.below(items.len() + 1);
    items.insert(at, body::work(random));
    items.insert(at, Item::Section(body::some_lock(random), Vec::new()));
    let text = body::text(&items).into_bytes();
    damage(random, text, way)
}

fn damage(random: &mut Random, mut text: Vec<u8>, way: &str) -> Damaged {
    let length = text.len();
    let mut some = |is_one: &dyn Fn(usize) -> bool| some_place(random, &text, is_one);
    let space = some(&|at| text[at] == b' ');
    let opening = some(&|at| text[at] == b'[');
    let closing = some(&|at| text[at] == b']');
    let letter = some(&|at| text[at] == b'w');
    let after_section = some(&|at| text[..at].ends_with(b"]") && text[at] == b' ');
    let after_lock = some(&|at| is_after_lock(&text, at) && text[at] == b']');
    let any = random.below(length);
    let place = match way {
        "two spaces" => put(&mut text, space, b" ") + 1,
        "a zero in front of units" => put(&mut text, letter + 1, b"0"),
        // The zero is a lock, and another digit follows it.
        "a zero in front of a lock" => put(&mut text, opening + 1, b"0") + 1,
        "units too great" => {
            let great = some_number(random, &GREAT_UNITS);
            let at = put_number(&mut text, letter + 1, great.as_bytes());
            at + first_above(great, u128::from(MOST_UNITS))
        }
        "a lock too great" => {
            let great = some_number(random, &GREAT_LOCKS);
            let at = put_number(&mut text, opening + 1, great.as_bytes());
            at + first_above(great, MOST_LOCKS as u128 - 1)
        }
        "a ninth section" => {
            let at = eighth_body(&text);
            put(&mut text, at, b" [7]") + 1
        }
        "a space in an empty section" => put(&mut text, after_lock, b" ") + 1,
        "a space before a closing bracket" => put(&mut text, closing, b" ") + 1,
        "a space at the end" => put(&mut text, length, b" ") + 1,
        "a space in front" => put(&mut text, 0, b" "),
        "a space missing" => take(&mut text, space),
        "a space missing after a section" => take(&mut text, after_section),
        "no units" => put_number(&mut text, letter + 1, b""),
        "no lock" => put_number(&mut text, opening + 1, b""),
        "a sign" => {
            let sign = random.pick(&[&b"+"[..], b"-"]);
            let number = random.pick(&[letter, opening]) + 1;
            put(&mut text, number, sign)
        }
        "upper case" => change(&mut text, letter, b'W'),
        "a byte that is in no job" => change(&mut text, any, random.pick(&FOREIGN)),
        "such a byte too many" => put(&mut text, any, &[random.pick(&FOREIGN)]),
        "a closing bracket too many at the end" => put(&mut text, length, b"]"),
        _ => {
            // It is not known where this stops being a job, or whether.
            let byte = some_byte(random);
            match way {
                "a closing bracket missing" => take(&mut text, closing),
                "a closing bracket too many" => put(&mut text, closing, b"]"),
                "an opening bracket missing" => take(&mut text, opening),
                "an opening bracket for another byte" => change(&mut text, any, b'['),
                "a byte changed" => change(&mut text, any, byte),
                "a byte missing" => take(&mut text, any),
                _ => put(&mut text, any, &[byte]),
            };
            return (text, None);
        }
    };
    (text, Some(place))
}

/// The first of these half of the time, or any.
fn some_number(random: &mut Random, numbers: &[&'static str]) -> &'static str {
    match random.below(2) {
        0 => numbers[0],
        _ => random.pick(numbers),
    }
}

/// A byte that may stand in a job, mostly.
fn some_byte(random: &mut Random) -> u8 {
    match random.below(6) {
        0 => random.byte(),
        _ => random.pick(ALPHABET),
    }
}

/// A place of this sort, of which there is one at least.
fn some_place(random: &mut Random, text: &[u8], is_one: &dyn Fn(usize) -> bool) -> usize {
    let places: Vec<usize> = (0..text.len()).filter(|at| is_one(*at)).collect();
    random.pick(&places)
}

/// Whether a lock ends before a place.
fn is_after_lock(text: &[u8], at: usize) -> bool {
    let digits = text[..at].iter().rev();
    let digits = digits.take_while(|byte| byte.is_ascii_digit()).count();
    digits > 0 && text[..at - digits].ends_with(b"[")
}

/// Takes the byte at a place out, and says which place.
fn take(text: &mut Vec<u8>, at: usize) -> usize {
    text.remove(at);
    at
}

fn change(text: &mut [u8], at: usize, byte: u8) -> usize {
    text[at] = byte;
    at
}

/// Puts bytes in front of what is at a place, and says which place.
fn put(text: &mut Vec<u8>, at: usize, bytes: &[u8]) -> usize {
    text.splice(at..at, bytes.iter().copied());
    at
}

/// Puts other digits for those of the number at a place, and says which place.
fn put_number(text: &mut Vec<u8>, at: usize, digits: &[u8]) -> usize {
    let old = text[at..].iter().take_while(|byte| byte.is_ascii_digit());
    let end = at + old.count();
    text.splice(at..end, digits.iter().copied());
    at
}

/// The place of the first digit with which a number is above the most.
fn first_above(digits: &str, most: u128) -> usize {
    let is_above = |end: &usize| {
        let number: u128 = digits[..*end].parse().expect("digits");
        number > most
    };
    (1..=digits.len()).find(is_above).expect("it is too great") - 1
}

/// The place after the lock of the first section that stands in seven others.
fn eighth_body(text: &[u8]) -> usize {
    let mut open = 0;
    for (at, byte) in text.iter().enumerate() {
        match byte {
            b'[' => open += 1,
            b']' => open -= 1,
            _ => {}
        }
        if open == MOST_NESTED {
            let lock = text[at + 1..].iter();
            return at + 1 + lock.take_while(|byte| byte.is_ascii_digit()).count();
        }
    }
    unreachable!("there is such a section")
}
