//! Counting what the generated jobs reached: how often each number was the answer, between
//! what and what a text stopped being a job, how deep the sections of those that were read
//! stood, and whether the rules that are easy to miss were met.

use crate::job::{letters, RECORD};
use crate::job_damage::DAMAGES;
use crate::jobs::{short_texts, ANY, BEGINNING, LONG, RIGHT, SEVERAL, SHORT};
use crate::plan::MOST_NESTED;
use crate::reading::{Outcome, Reading};
use crate::refusals::{FROM_JOBS, WORDS};
use crate::wire::MOST_BYTES;

/// Each answer is given at least so often, and all else is met so often; long texts are few.
const LEAST_ANSWERS: usize = 1_000;
const LEAST_MET: usize = 20;
const LEAST_LONG: usize = 5;

/// All texts of up to so many bytes are among the short ones.
const ALL_SHORT: u32 = 4;

/// What stands before the place of 25, and what at it. The sign for each is one letter: `s`
/// for a space, `u` and `l` for the last digit of units and of a lock, `d` for a digit that
/// is not 0, `x` for a byte that stands in no job, `-` for the start and the end.
#[rustfmt::skip] // a line for what stands before
const AROUND_25: [(char, &str); 7] = [
    ('-', "]s0dx"),
    ('s', "[]s0dx-"),
    ('w', "w[]s0x-"),
    ('[', "w[]sx-"),
    ('u', "w[]0dx-"),
    ('l', "w[0dx-"),
    (']', "w[]0dx-"),
];

/// Whether a reading is an example of a rule.
type IsMet = fn(&Reading, &Outcome) -> bool;

#[rustfmt::skip] // a line each
const RULES: [(&str, IsMet); 24] = [
    ("space that is exactly enough", |r, o| is_read(o) && spare(r) == Some(0)),
    ("one byte more", |r, o| is_read(o) && spare(r) == Some(1)),
    ("a whole record more", |r, o| is_read(o) && spare(r) >= Some(RECORD)),
    ("the most space", |r, o| is_read(o) && r.room == MOST_BYTES),
    ("26 with one byte too few", |r, o| is(o, 26) && r.room + 1 == RECORD * letters(&r.text)),
    ("26 with a record too few", |r, o| is(o, 26) && r.room + RECORD == RECORD * letters(&r.text)),
    ("26 without space", |r, o| is(o, 26) && r.room == 0),
    ("25 with space enough for such a text", |r, o| is(o, 25) && spare(r).is_some()),
    ("25 with too little space for such a text", |r, o| is(o, 25) && spare(r).is_none()),
    ("25 without space", |r, o| is(o, 25) && r.room == 0),
    ("a text without a byte that is read", |r, o| is_read(o) && r.text.is_empty()),
    ("26 for a text without a byte", |r, o| is(o, 26) && r.text.is_empty()),
    ("25 at the last byte", |r, o| is(o, 25) && o.read.place as usize + 1 == r.text.len()),
    ("a section without items", |r, o| is_read(o) && has_empty(r)),
    ("the least units", |r, o| is_read(o) && has_word(r, "w1")),
    ("the most units", |r, o| is_read(o) && has_word(r, "w65535")),
    ("lock 0", |r, o| is_read(o) && has_word(r, "[0")),
    ("the last lock", |r, o| is_read(o) && has_word(r, "[31")),
    ("a section of a lock that stands in another of it", |r, o| is_read(o) && has_again(r)),
    ("sections side by side as deep as can be", |r, o| is_read(o) && times_at_depth(r, MOST_NESTED) > 1),
    ("more sections than can stand one in another", |r, o| is_read(o) && sections(r) > MOST_NESTED),
    ("25 for a ninth section", |r, o| is(o, 25) && is_ninth(r, o)),
    ("a beginning that is read", |r, o| is_read(o) && r.sort == BEGINNING),
    ("a beginning that ends too soon", |r, o| is_at_end(r, o) && r.sort == BEGINNING),
];

#[rustfmt::skip] // a line each
const OF_LONG: [(&str, IsMet); 3] = [
    ("a long text that is read", |r, o| is_read(o) && r.sort == LONG),
    ("25 in the middle of a long text", |r, o| is(o, 25) && r.sort == LONG && o.read.place < 50_000),
    ("25 near the end of a long text", |r, o| is(o, 25) && r.sort == LONG && o.read.place > 59_900),
];

/// How the texts are made.
fn sorts() -> Vec<&'static str> {
    let others = [RIGHT, BEGINNING, SHORT, ANY, SEVERAL];
    DAMAGES.into_iter().chain(others).collect()
}

/// The pairs of what stands around a place of 25.
fn around_25() -> Vec<(char, char)> {
    let pairs = AROUND_25
        .iter()
        .flat_map(|(before, at)| at.chars().map(|at| (*before, at)));
    pairs.collect()
}

pub struct JobTally {
    jobs: usize,
    bytes: usize,
    events: u64,
    answers: [usize; FROM_JOBS.len()],
    around_25: Vec<usize>,
    /// By how many sections stand one in another, of those that were read.
    depths: [usize; MOST_NESTED + 1],
    sorts: Vec<usize>,
    /// The short texts that have their turn as the only ones of their lengths.
    short: usize,
    met: [usize; RULES.len()],
    of_long: [usize; OF_LONG.len()],
}

impl JobTally {
    pub fn new() -> JobTally {
        JobTally {
            jobs: 0,
            bytes: 0,
            events: 0,
            answers: [0; FROM_JOBS.len()],
            around_25: vec![0; around_25().len()],
            depths: [0; MOST_NESTED + 1],
            sorts: vec![0; sorts().len()],
            short: 0,
            met: [0; RULES.len()],
            of_long: [0; OF_LONG.len()],
        }
    }

    pub fn count(&mut self, reading: &Reading, outcome: &Outcome) {
        let read = &outcome.read;
        self.jobs += 1;
        self.bytes += reading.text.len();
        self.events += u64::from(read.events);
        let answer = FROM_JOBS.iter().position(|number| *number == read.number);
        self.answers[answer.expect("one of the answers that there are")] += 1;
        if read.number == 25 {
            let pair = around(&reading.text, read.place as usize);
            if let Some(at) = around_25().iter().position(|other| *other == pair) {
                self.around_25[at] += 1;
            }
        }
        if let Some(times) = self.depths.get_mut(deepest(&reading.text)) {
            *times += usize::from(read.number == 0);
        }
        if let Some(at) = sorts().iter().position(|sort| *sort == reading.sort) {
            self.sorts[at] += 1;
        }
        let is_short = reading.sort == SHORT && reading.text.len() <= ALL_SHORT as usize;
        self.short += usize::from(is_short);
        for (times, (_, is_met)) in self.met.iter_mut().zip(RULES) {
            *times += usize::from(is_met(reading, outcome));
        }
        for (times, (_, is_met)) in self.of_long.iter_mut().zip(OF_LONG) {
            *times += usize::from(is_met(reading, outcome));
        }
    }

    /// All that has to be met, how often it was, and how often it has to be.
    fn all(&self) -> Vec<(String, usize, usize)> {
        let answers = FROM_JOBS.iter().zip(self.answers).map(|(number, times)| {
            let words = WORDS[usize::from(*number)];
            (format!("{number} ({words})"), times, LEAST_ANSWERS)
        });
        let around = around_25().into_iter().zip(&self.around_25);
        let around = around.map(|((before, at), times)| {
            let (before, at) = (sign_in_words(before), sign_in_words(at));
            (format!("25 after {before} at {at}"), *times, LEAST_MET)
        });
        let depths = self.depths.iter().enumerate();
        let depths = depths.map(|(depth, times)| {
            let what = format!("{depth} sections one in another");
            (what, *times, LEAST_MET)
        });
        let sorts = sorts().into_iter().zip(&self.sorts);
        let sorts = sorts.map(|(sort, times)| (format!("text: {sort}"), *times, LEAST_MET));
        let short = (
            format!("different texts of up to {ALL_SHORT} bytes"),
            self.short,
            short_texts(ALL_SHORT),
        );
        let met = RULES.iter().zip(self.met);
        let met = met.map(|((name, _), times)| (name.to_string(), times, LEAST_MET));
        let of_long = OF_LONG.iter().zip(self.of_long);
        let of_long = of_long.map(|((name, _), times)| (name.to_string(), times, LEAST_LONG));
        let all = answers.chain(around).chain(depths).chain(sorts);
        all.chain([short]).chain(met).chain(of_long).collect()
    }

    /// What was met too seldom for the comparison to mean much.
    pub fn missing(&self) -> Vec<String> {
        let all = self.all().into_iter();
        all.filter(|(_, times, least)| times < least)
            .map(|(what, times, least)| format!("{what}: {times} times, not {least}"))
            .collect()
    }

    pub fn print_table(&self) {
        println!("answers to the generated jobs, how their texts were made, and rules of jobs that are easy to miss:");
        for (what, times, _) in self.all() {
            println!("  {times:>6}  {what}");
        }
    }

    pub fn summary(&self) -> String {
        let [read, no_job, no_space] = self.answers;
        format!(
            "{} generated jobs of {} bytes: {read} read with {} events, {no_job} that are none, \
             {no_space} with too little space",
            self.jobs, self.bytes, self.events,
        )
    }
}

fn sign_in_words(sign: char) -> String {
    let words = match sign {
        '-' => "the start or the end",
        's' => "a space",
        'u' => "units",
        'l' => "a lock",
        'd' => "a digit",
        'x' => "another byte",
        _ => return format!("`{sign}`"),
    };
    words.to_string()
}

/// What stands before a place and at it.
fn around(text: &[u8], place: usize) -> (char, char) {
    let (before, rest) = text.split_at(place.min(text.len()));
    let of_number = before.iter().rev().find(|byte| !is_digit(**byte));
    let is_before = match before.last() {
        None => '-',
        Some(b' ') => 's',
        Some(byte) if is_digit(*byte) && of_number == Some(&b'w') => 'u',
        Some(byte) if is_digit(*byte) => 'l',
        Some(byte) => char::from(*byte),
    };
    let is_at = match rest.first() {
        None => '-',
        Some(b' ') => 's',
        Some(byte @ (b'w' | b'[' | b']' | b'0')) => char::from(*byte),
        Some(byte) if is_digit(*byte) => 'd',
        _ => 'x',
    };
    (is_before, is_at)
}

fn is_digit(byte: u8) -> bool {
    byte.is_ascii_digit()
}

fn is(outcome: &Outcome, number: u8) -> bool {
    outcome.read.number == number
}

fn is_read(outcome: &Outcome) -> bool {
    is(outcome, 0)
}

fn is_at_end(reading: &Reading, outcome: &Outcome) -> bool {
    is(outcome, 25) && outcome.read.place as usize == reading.text.len()
}

/// The bytes of the space after the events; nothing if it is too short for them.
fn spare(reading: &Reading) -> Option<usize> {
    let needed = RECORD * letters(&reading.text);
    reading.room.checked_sub(needed)
}

/// How many sections are open after each byte.
fn open(text: &[u8]) -> impl Iterator<Item = usize> + '_ {
    text.iter().scan(0_usize, |open, byte| {
        match byte {
            b'[' => *open += 1,
            b']' => *open = open.saturating_sub(1),
            _ => {}
        }
        Some(*open)
    })
}

/// How many sections stand one in another.
pub fn deepest(text: &[u8]) -> usize {
    open(text).max().unwrap_or(0)
}

/// How often a section begins that is the one of this number, counted from outside.
fn times_at_depth(reading: &Reading, depth: usize) -> usize {
    let begun = open(&reading.text).zip(&reading.text);
    begun
        .filter(|(open, byte)| (*open, **byte) == (depth, b'['))
        .count()
}

fn sections(reading: &Reading) -> usize {
    reading.text.iter().filter(|byte| **byte == b'[').count()
}

/// Whether 25 is given at the bracket of a section that stands in eight others.
fn is_ninth(reading: &Reading, outcome: &Outcome) -> bool {
    let place = outcome.read.place as usize;
    let before = reading.text.get(..place).unwrap_or_default();
    reading.text.get(place) == Some(&b'[') && open(before).last() == Some(MOST_NESTED)
}

/// Whether a word of the text is this one, but for its closing brackets.
fn has_word(reading: &Reading, wanted: &str) -> bool {
    let mut words = reading.text.split(|byte| b" ]".contains(byte));
    words.any(|word| word == wanted.as_bytes())
}

/// Whether a section has no items.
fn has_empty(reading: &Reading) -> bool {
    let mut words = reading.text.split(|byte| *byte == b' ');
    words.any(|word| word.starts_with(b"[") && word.ends_with(b"]"))
}

/// Whether a section stands in another one of its lock.
fn has_again(reading: &Reading) -> bool {
    let mut open: Vec<&[u8]> = Vec::new();
    for word in reading.text.split(|byte| *byte == b' ') {
        let closes = word.iter().filter(|byte| **byte == b']').count();
        let start = &word[..word.len() - closes];
        if start.starts_with(b"[") {
            if open.contains(&start) {
                return true;
            }
            open.push(start);
        }
        open.truncate(open.len().saturating_sub(closes));
    }
    false
}
