//! Damaged texts: what a tired person and a broken cable make of a line, of its words and
//! of single bytes.

use crate::forms::{Form, FORMS};
use crate::job_lines;
use crate::random::Random;

/// The words of a line; the items of a job are one. A text is damaged as such lines, before
/// it is laid out.
pub type Words = Vec<Vec<u8>>;

/// The damages of lines and words. Those that can fall on many words stand here twice.
pub const DAMAGES: [&str; 24] = [
    "a word missing",
    "a word missing",
    "a word twice",
    "two words swapped",
    "a number too great",
    "a number too great",
    "a number too great",
    "no number",
    "a name misspelt",
    "a name in upper case",
    "a name cut",
    "a tab",
    "a byte above 127",
    "a word too many",
    "a line twice",
    "a line missing",
    "two lines swapped",
    "two lines joined",
    "a line of any words",
    "a record without numbers",
    "a job too many",
    "a job with damaged items",
    "a job with damaged items",
    "a job with two spaces in its items",
];

/// Numbers that are too great for some field, or for all: by what two, four or eight bytes
/// can hold.
const TOO_GREAT: [&str; 8] = [
    "257",
    "65536",
    "65537",
    "1000000",
    "4294967296",
    "4294967297",
    "18446744073709551616",
    "18446744073709551617",
];

/// What is taken for a number and is none. The digits of the last are no decimal ones.
const NO_NUMBERS: [&str; 15] = [
    "-1", "+1", "1,000", "1.0", "0x10", "1e2", "ten", "1o", "1:", "/1", "--", "1_0", "0b1", "1'",
    "\u{663}",
];

/// Damages some line in the way of this name.
pub fn damage(random: &mut Random, lines: &mut Vec<Words>, way: &str) {
    if lines.is_empty() {
        lines.push(any_words(random));
    }
    let at = some_line(random, lines);
    let other = random.below(lines.len());
    match way {
        "a line twice" => lines.insert(at, lines[at].clone()),
        "a line missing" => drop(lines.remove(at)),
        "two lines swapped" => lines.swap(at, other),
        "two lines joined" if at + 1 < lines.len() => {
            let second = lines.remove(at + 1);
            lines[at].extend(second);
        }
        "a line of any words" => lines.insert(at, any_words(random)),
        "a job too many" => lines.insert(at, job_lines::right_line(random)),
        "a job with damaged items" => lines.insert(at, job_lines::any_damaged_line(random)),
        "a job with two spaces in its items" => {
            lines.insert(at, job_lines::damaged_line(random, &["two spaces"]));
        }
        _ => damage_words(random, &mut lines[at], way),
    }
}

/// A line of one of the parts in its turn, so that the few locks are met as often as the
/// many events.
fn some_line(random: &mut Random, lines: &[Words]) -> usize {
    let name = random.pick(&FORMS.each_ref()).name().as_bytes();
    let is_named = |at: &usize| lines[*at].first().is_some_and(|word| word == name);
    let named: Vec<usize> = (0..lines.len()).filter(is_named).collect();
    let any = random.below(lines.len());
    random.pick_any(&named).unwrap_or(any)
}

fn damage_words(random: &mut Random, words: &mut Words, way: &str) {
    if words.is_empty() {
        return words.push(b"task".to_vec());
    }
    let (at, other) = (random.below(words.len()), random.below(words.len()));
    // The place of a number, if there is one.
    let number = random
        .between(1, words.len().max(2) - 1)
        .min(words.len() - 1);
    match way {
        "a word missing" => drop(words.remove(at)),
        "a word twice" => words.insert(at, words[at].clone()),
        "two words swapped" => words.swap(at, other),
        "a number too great" => {
            let form = Form::named(&words[0]).map(|at| &FORMS[at]);
            let most = form.and_then(|form| form.most.get(number.max(1) - 1));
            let one_more = most.map(|most| (most + 1).to_string());
            let great = one_more.filter(|_| random.one_in(2));
            let great = great.unwrap_or_else(|| too_great(random));
            words[number] = great.into_bytes();
        }
        "no number" => words[number] = random.pick(&NO_NUMBERS).as_bytes().to_vec(),
        "a name misspelt" => misspell(random, &mut words[0]),
        "a name in upper case" if random.one_in(2) => words[0].make_ascii_uppercase(),
        "a name in upper case" => words[0][..1].make_ascii_uppercase(),
        "a name cut" => {
            let length = random.between(1, words[0].len());
            words[0].truncate(length);
        }
        "a tab" => {
            let after = words.get(at + 1).cloned().unwrap_or_default();
            words[at].push(b'\t');
            words[at].extend(after);
            if at + 1 < words.len() {
                words.remove(at + 1);
            }
        }
        "a byte above 127" => {
            let byte = random.between(128, 255) as u8;
            let place = random.below(words[at].len() + 1);
            words[at].insert(place, byte);
        }
        "a word too many" => words.push(some_word(random)),
        "a record without numbers" => words.truncate(1),
        _ => {}
    }
}

fn too_great(random: &mut Random) -> String {
    match random.below(4) {
        0 => "9".repeat(random.between(3, 400)),
        1 => format!("1{}", "0".repeat(random.between(3, 400))),
        _ => random.pick(&TOO_GREAT).to_string(),
    }
}

fn misspell(random: &mut Random, name: &mut Vec<u8>) {
    let (at, length) = (random.below(name.len()), name.len());
    match random.below(4) {
        0 => name.swap(at, (at + 1) % length),
        1 => drop(name.remove(at)),
        2 => name.insert(at, name[at]),
        _ => name[at] = random.between(usize::from(b'a'), usize::from(b'z')) as u8,
    }
}

fn some_word(random: &mut Random) -> Vec<u8> {
    match random.below(6) {
        0 => random.pick(&FORMS.each_ref()).name().as_bytes().to_vec(),
        1 => random.pick(&NO_NUMBERS).as_bytes().to_vec(),
        2 => too_great(random).into_bytes(),
        _ => random.below(300).to_string().into_bytes(),
    }
}

/// A name, mostly, and some words, mostly numbers.
pub fn any_words(random: &mut Random) -> Words {
    let form: &Form = random.pick(&FORMS.each_ref());
    let mut words = vec![form.name().as_bytes().to_vec()];
    if random.one_in(12) {
        words[0] = some_word(random);
    }
    let right = form.most.len();
    let count = match random.below(6) {
        0 => random.below(4),
        1 => right + 1,
        _ => right,
    };
    for _ in 0..count {
        let word = match random.below(8) {
            0 => some_word(random),
            1 => random
                .pick(&["255", "256", "65535", "65536"])
                .as_bytes()
                .to_vec(),
            _ => random.below(4).to_string().into_bytes(),
        };
        words.push(word);
    }
    if form.has_items() && count == right {
        let items = Some(job_lines::some_items(random));
        words.extend(items.filter(|items| !items.is_empty()));
    }
    words
}

/// The bytes that matter in a text, and their neighbours.
const BYTES: [u8; 20] = [
    0, 9, 10, 11, 12, 13, 31, 32, 33, b'"', b'#', b'$', b'/', b'0', b'9', b':', b'k', 127, 128, 255,
];

/// One byte of a text becomes another, goes, or comes in.
pub fn damage_byte(random: &mut Random, text: &mut Vec<u8>) -> &'static str {
    let at = random.below(text.len() + 1);
    let byte = if random.one_in(4) {
        random.byte()
    } else {
        random.pick(&BYTES)
    };
    match random.below(3) {
        0 if at < text.len() => {
            text[at] = byte;
            "a byte changed"
        }
        1 if at < text.len() => {
            text.remove(at);
            "a byte missing"
        }
        _ => {
            text.insert(at, byte);
            "a byte too many"
        }
    }
}
