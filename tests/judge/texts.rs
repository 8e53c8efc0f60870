//! The generated texts: which text the n-th one of a seed is. Half are the records of a
//! short book, right or wrong, in all sorts of layout, and some of the jobs among them in one
//! line; in the others lines, words or bytes are damaged. Some are as long as a text can be,
//! or have as many records as a book, or more than two bytes can count.

use crate::book::Refusal;
use crate::compose::{Ending, MOST_TEXT};
use crate::composing::{Composing, Foretold};
use crate::damage;
use crate::draft::Draft;
use crate::event::Event;
use crate::generate;
use crate::job_lines;
use crate::layout::{lines_of, order, Layout};
use crate::plan::{MOST_EVENTS, MOST_LOCKS, MOST_TASKS, MOST_USES};
use crate::plans;
use crate::random::Random;
use crate::text_damage::{any_words, damage, damage_byte, Words, DAMAGES};
use crate::wire::MOST_BYTES;
use crate::writer;
use crate::wrong::Wrong;

/// The faults of the records in turn: the numbers that they are made for.
#[rustfmt::skip]
const FAULTS: [&[u8]; 17] = [
    &[], &[4], &[5], &[6], &[7], &[24], &[8], &[2], &[],
    &[4, 5], &[5, 6], &[6, 7], &[7, 24], &[24, 8], &[4, 8], &[2, 4], &[4, 5, 6, 7, 24, 8],
];

/// Of so many texts one is about as long as can be and one has a count of about 65,536.
const LONGEST_IN: u64 = 1_000;
/// Of so many one has as many records as a book can, or one more, and one has them in jobs.
const GREAT_IN: u64 = 200;
/// Of so many one has lines of any words.
const ANY_IN: u64 = 20;

/// The text of this number.
pub fn text(seed: u64, number: u64) -> Composing {
    let random = &mut Random::for_case(seed, 5, number);
    let turn = (number / LONGEST_IN) as usize;
    let (sort, text, made_for) = if number % LONGEST_IN == 0 {
        longest(random, turn)
    } else if number % LONGEST_IN == 1 {
        far_count(random, turn)
    } else if number % GREAT_IN == 2 {
        great(random, (number / GREAT_IN) as usize)
    } else if number % GREAT_IN == 4 {
        great_jobs(random, (number / GREAT_IN) as usize)
    } else if number % ANY_IN == 3 {
        any(random)
    } else {
        short(random, number as usize)
    };
    Composing {
        name: format!("text {number} ({sort})"),
        text,
        shown: None,
        made_for,
    }
}

/// What it is, the text, and how it has to end, where that is known.
type Made = (String, Vec<u8>, Option<Foretold>);

/// A line that is to be laid out.
struct Line {
    words: Words,
    part: usize,
    /// How many records it has.
    records: usize,
}

/// The records of a short book, and often some jobs. Every second one is damaged, and then
/// its end is not foretold.
fn short(random: &mut Random, number: usize) -> Made {
    let mut records = records(random, FAULTS[number / 2 % FAULTS.len()]);
    if random.one_in(2) {
        job_lines::put_jobs(random, &mut records);
    }
    let layout = Layout::any(random);
    let lines = some_order(random, &records);
    let mut damages = Vec::new();
    if number % 2 == 0 {
        let (text, numbers) = laid_out(random, &layout, &words_of(&lines));
        let foretold = foretold(records, &lines, &numbers);
        return ("short book".to_string(), text, Some(foretold));
    }
    let mut lines = words_of(&lines);
    let (times, of_bytes) = random.pick(&[(1, 0), (1, 0), (2, 0), (0, 1), (0, 2), (1, 1)]);
    for _ in 0..times {
        let way = random.pick(&DAMAGES);
        damage(random, &mut lines, way);
        damages.push(way);
    }
    let (mut text, _) = laid_out(random, &layout, &lines);
    for _ in 0..of_bytes {
        damages.push(damage_byte(random, &mut text));
    }
    (damages.join(", "), text, None)
}

/// Records that are damaged for these numbers, as far as words can have that.
fn records(random: &mut Random, faults: &[u8]) -> Draft {
    let (plan, events) = generate::short_run(random);
    let mut records = Draft::of(&plan, &events);
    for number in faults {
        damage::damage_records(random, &mut records, *number);
    }
    records
}

/// The lines of all records, the parts in some order or mixed, and some of the jobs among
/// the events in one line.
fn some_order(random: &mut Random, records: &Draft) -> Vec<Line> {
    let [tasks, locks, uses, events] = lines_of(records);
    let one = |lines: Vec<Words>| -> Vec<(Words, usize)> {
        let each = lines.into_iter().map(|words| (words, 1));
        each.collect()
    };
    let events = job_lines::joined(random, records, events);
    let parts = [one(tasks), one(locks), one(uses), events];
    let order = order(random, parts.each_ref().map(Vec::len));
    let mut parts = parts.map(Vec::into_iter);
    let lines = order.into_iter().map(|part| {
        let (words, records) = parts[part].next().expect("as many lines as there are");
        Line {
            words,
            part,
            records,
        }
    });
    lines.collect()
}

fn words_of(lines: &[Line]) -> Vec<Words> {
    lines.iter().map(|line| line.words.clone()).collect()
}

/// The text of these lines, in a layout that keeps it short enough to be composed.
fn laid_out(random: &mut Random, layout: &Layout, lines: &[Words]) -> (Vec<u8>, Vec<usize>) {
    let (text, numbers) = layout.lay_out(random, lines);
    if text.len() <= MOST_TEXT {
        return (text, numbers);
    }
    Layout::plain().lay_out(random, lines)
}

/// How a text of these records has to end, by the writer and by where they were put. What
/// has no words became a limit or a work of 0, which the same numbers refuse.
fn foretold(records: Draft, lines: &[Line], numbers: &[usize]) -> Foretold {
    let written = writer::write(&records, MOST_BYTES, Wrong::Nothing);
    Foretold {
        ending: ending(written.number, written.place, lines, numbers),
        records: Some(records),
    }
}

fn ending(number: u8, place: u32, lines: &[Line], numbers: &[usize]) -> Ending {
    let most = [MOST_TASKS, MOST_LOCKS, MOST_USES, MOST_EVENTS];
    let (part, at) = match (number, place as usize) {
        (0, _) => return Ending::Book,
        (2, entry) => (entry - 1, most[entry - 1]),
        (4, at) => (0, at),
        (5 | 7, at) => (1, at),
        (6 | 24, at) => (2, at),
        (_, at) => (3, at),
    };
    let of_part = lines.iter().zip(numbers);
    let of_part = of_part.filter(|(line, _)| line.part == part);
    let mut of_records = of_part.flat_map(|(line, number)| vec![*number; line.records]);
    Ending::Refused(Refusal { number, place }, of_records.nth(at))
}

/// About as many bytes as a text can have. What fills them says nothing: one comment, empty
/// lines, spaces behind a record, or the zeros in front of a number.
fn longest(random: &mut Random, turn: usize) -> Made {
    let length = MOST_TEXT - 1 + [1, 2, 0, 1, 2][turn % 5];
    // The longest of all has a mistake too, which does not count.
    let last = match turn % 5 {
        4 => "tack",
        _ => random.pick(&["tick", "finish", "release 7"]),
    };
    let mut text = format!("task 1 1\n{last}\n").into_bytes();
    let fill = length - text.len();
    let (sort, at, byte) = match turn % 4 {
        0 => ("zeros", "task 1 ".len(), b'0'),
        1 => ("spaces", "task 1 1".len(), b' '),
        2 => ("newlines", text.len(), b'\n'),
        _ => ("a comment", "task 1 1".len(), b'#'),
    };
    text.splice(at..at, std::iter::repeat_n(byte, fill));
    let ending = if length > MOST_TEXT {
        Ending::TooLong
    } else {
        Ending::Book
    };
    let foretold = Foretold {
        ending,
        records: None,
    };
    (format!("{length} bytes with {sort}"), text, Some(foretold))
}

/// A count of about 65,536, of each part in its turn: one that would be 1, or as before, if
/// it were cut to two bytes.
fn far_count(random: &mut Random, turn: usize) -> Made {
    let mut draft = records(random, &[]);
    let cut = usize::from(u16::MAX) + 1;
    let part = turn % 4;
    let count = cut + [1, draft.counts()[part]][turn / 4 % 2];
    // The shortest lines, so that there is room for all.
    match part {
        0 => draft = only(|draft| draft.tasks.resize(count, [1, 1])),
        1 => draft.locks.resize(count, [1, 0, 1, 0]),
        2 => draft.uses.resize(count, [0, 0]),
        _ => draft.events.resize(count, Event::Tick.record()),
    }
    let lines = some_order(random, &draft);
    let (text, numbers) = Layout::plain().lay_out(random, &words_of(&lines));
    let foretold = foretold(draft, &lines, &numbers);
    let sort = format!("{count} records of part {part}");
    (sort, text, Some(foretold))
}

fn only(change: impl FnOnce(&mut Draft)) -> Draft {
    let mut draft = Draft::default();
    change(&mut draft);
    draft
}

/// As many records of all parts as can be, or one more of one of them.
fn great(random: &mut Random, turn: usize) -> Made {
    let plan = plans::contended(random);
    let events: Vec<Event> = (0..MOST_EVENTS).map(some_event).collect();
    let mut draft = Draft::of(&plan, &events);
    let sort = match turn % 6 {
        0 => "the most tasks, locks and events",
        1 => {
            draft.tasks.push([1, 1]);
            "one task too many"
        }
        2 => {
            draft.locks.push([1, 0, 1, 0]);
            "one lock too many"
        }
        3 => {
            draft.uses.resize(MOST_USES + 1, [0, 0]);
            "one use too many"
        }
        4 => {
            draft.events.push(Event::Finish.record());
            "one event too many"
        }
        _ => {
            draft.tasks.clear();
            "no task"
        }
    };
    let lines = some_order(random, &draft);
    let layout = Layout::any(random);
    let (text, numbers) = laid_out(random, &layout, &words_of(&lines));
    let foretold = foretold(draft, &lines, &numbers);
    (sort.to_string(), text, Some(foretold))
}

/// About as many events as can be, in jobs.
fn great_jobs(random: &mut Random, turn: usize) -> Made {
    let (sort, jobs) = job_lines::great(turn);
    let mut draft = only(|draft| draft.tasks.push([1, 1]));
    let task = lines_of(&draft)[0].remove(0);
    let mut lines = vec![Line {
        words: task,
        part: 0,
        records: 1,
    }];
    for (words, events) in jobs {
        lines.push(Line {
            words,
            part: 3,
            records: events.len(),
        });
        draft.events.extend(events.into_iter().map(Event::record));
    }
    let layout = Layout::any(random);
    let (text, numbers) = laid_out(random, &layout, &words_of(&lines));
    // A job has one record more than events.
    let is_refused = |line: &Line| line.records > MOST_EVENTS + 1;
    let mut foretold = foretold(draft, &lines, &numbers);
    if let Some(at) = lines.iter().position(is_refused) {
        let (number, place) = (26, 0);
        foretold.ending = Ending::Refused(Refusal { number, place }, Some(numbers[at]));
    }
    (sort.to_string(), text, Some(foretold))
}

fn some_event(at: usize) -> Event {
    let id = (at / 7 % 256) as u8;
    match at % 7 {
        0 => Event::Release(id),
        1 => Event::Acquire(id),
        2 => Event::Unlock(id),
        3 => Event::Work(at as u16 + 1),
        4 => Event::Work(u16::MAX - at as u16),
        5 => Event::Finish,
        _ => Event::Tick,
    }
}

/// Lines of any words, and now and then no line at all.
fn any(random: &mut Random) -> Made {
    let count = random.below(6);
    let lines: Vec<Words> = (0..count).map(|_| any_words(random)).collect();
    let (text, _) = Layout::any(random).lay_out(random, &lines);
    (format!("{count} lines of any words"), text, None)
}
