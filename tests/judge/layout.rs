//! How a generated text is laid out: in which order its records stand, with how many
//! spaces, zeros, comments, blank lines and carriage returns. None of it says anything.

use crate::draft::Draft;
use crate::event::Event;
use crate::forms::event_in_words;
use crate::random::Random;
use crate::text_damage::Words;

/// Once in so many there is one of these; 0 is never.
pub struct Layout {
    spaces: usize,
    zeros: usize,
    comments: usize,
    blank_lines: usize,
    returns: usize,
    /// Whether the last line has its newline.
    is_closed: bool,
}

fn happens(random: &mut Random, one_in: usize) -> bool {
    one_in > 0 && random.one_in(one_in)
}

impl Layout {
    pub fn any(random: &mut Random) -> Layout {
        let mut often = |choices: &[usize]| random.pick(choices);
        Layout {
            spaces: often(&[0, 0, 1, 4]),
            zeros: often(&[0, 0, 0, 3, 20]),
            comments: often(&[0, 0, 2, 10]),
            blank_lines: often(&[0, 0, 3, 20]),
            returns: often(&[0, 0, 0, 1, 3]),
            is_closed: often(&[0, 1, 1, 1]) == 1,
        }
    }

    /// One space between words and nothing else.
    pub fn plain() -> Layout {
        Layout {
            spaces: 0,
            zeros: 0,
            comments: 0,
            blank_lines: 0,
            returns: 0,
            is_closed: true,
        }
    }

    /// The text of these lines, and on which of its lines, from 1, each of them stands.
    pub fn lay_out(&self, random: &mut Random, lines: &[Words]) -> (Vec<u8>, Vec<usize>) {
        let mut laid: Vec<Vec<u8>> = Vec::new();
        let mut numbers = Vec::new();
        for words in lines {
            while happens(random, self.blank_lines) {
                laid.push(self.line(random, &[]));
            }
            laid.push(self.line(random, words));
            numbers.push(laid.len());
        }
        if happens(random, self.blank_lines) {
            laid.push(self.line(random, &[]));
        }
        let mut text = laid.join(&b'\n');
        if self.is_closed && !laid.is_empty() {
            text.push(b'\n');
        }
        (text, numbers)
    }

    fn line(&self, random: &mut Random, words: &[Vec<u8>]) -> Vec<u8> {
        let mut line = Vec::new();
        self.put_spaces(random, &mut line);
        for (at, word) in words.iter().enumerate() {
            if at > 0 {
                line.push(b' ');
                self.put_spaces(random, &mut line);
            }
            if word.iter().all(u8::is_ascii_digit) && happens(random, self.zeros) {
                line.resize(line.len() + zeros(random), b'0');
            }
            line.extend(word);
        }
        self.put_spaces(random, &mut line);
        if happens(random, self.comments) {
            line.extend(comment(random));
        }
        if happens(random, self.returns) {
            line.push(b'\r');
        }
        line
    }

    fn put_spaces(&self, random: &mut Random, line: &mut Vec<u8>) {
        if happens(random, self.spaces) {
            line.resize(line.len() + random.between(1, 5), b' ');
        }
    }
}

fn zeros(random: &mut Random) -> usize {
    match random.below(20) {
        0 => random.between(4, 300),
        _ => random.between(1, 3),
    }
}

/// Anything but a newline.
fn comment(random: &mut Random) -> Vec<u8> {
    let words = [
        &b"#"[..],
        b"##",
        b"# task 9 9",
        b"# the crane's",
        b"#\t",
        b"# a \r b",
        b"# \xc3\xa4\xff",
        b"#0",
        b"# \0",
    ];
    let mut comment = random.pick(&words).to_vec();
    if random.one_in(4) {
        let length = random.below(30);
        let any = (0..length).map(|_| random.byte());
        comment.extend(any.filter(|byte| *byte != b'\n'));
    }
    comment
}

/// The lines of records, part by part. What has no words is put into others: a lock with
/// something in its second byte gets no limit, and an event that 8 refuses no work.
pub fn lines_of(records: &Draft) -> [Vec<Words>; 4] {
    let words = |line: String| -> Words {
        let words = line.split(' ').map(|word| word.as_bytes().to_vec());
        words.collect()
    };
    let task = |[base, maximum]: &[u8; 2]| words(format!("task {base} {maximum}"));
    let lock = |[ceiling, second, low, high]: &[u8; 4]| {
        let limit = match second {
            0 => u16::from_le_bytes([*low, *high]),
            _ => 0,
        };
        words(format!("lock {ceiling} {limit}"))
    };
    let pair = |[task, lock]: &[u8; 2]| words(format!("use {task} {lock}"));
    let event = |record: &[u8; 4]| {
        let event = Event::from_record(*record);
        words(event_in_words(event.unwrap_or(Event::Work(0))))
    };
    [
        records.tasks.iter().map(task).collect(),
        records.locks.iter().map(lock).collect(),
        records.uses.iter().map(pair).collect(),
        records.events.iter().map(event).collect(),
    ]
}

/// The order of the parts, or all mixed: to which part each line belongs.
pub fn order(random: &mut Random, counts: [usize; 4]) -> Vec<usize> {
    let mut parts = [0, 1, 2, 3];
    let style = random.below(4);
    if style > 1 {
        random.shuffle(&mut parts);
    }
    let mut order: Vec<usize> = Vec::new();
    for part in parts {
        order.resize(order.len() + counts[part], part);
    }
    if style == 3 {
        random.shuffle(&mut order);
    }
    order
}
