//! The generated books: which sort of book the n-th one of a seed is. Short
//! ones of up to 60 events are of all sorts, right and damaged; long ones have
//! as many events as a book can.

use crate::again;
use crate::check::{check, Checked};
use crate::crane;
use crate::damage;
use crate::draft::Draft;
use crate::event::Event;
use crate::plan::{Plan, MOST_EVENTS, MOST_TASKS};
use crate::plans;
use crate::random::Random;
use crate::replay::{replay, Outcome};
use crate::walk::{self, Style, Wanted};
use crate::wrong::Wrong;

/// A book and the row space for its replay.
pub struct Case {
    pub name: String,
    pub book: Vec<u8>,
    pub row_space: usize,
}

impl Case {
    pub fn replay(&self, wrong: Wrong) -> Outcome {
        replay(&self.book, self.row_space, wrong)
    }

    pub fn check(&self) -> Checked {
        check(&self.book, self.row_space)
    }

    /// Whether there is row space for as many events as a book can have, as for
    /// the benchmark's books.
    pub fn is_full_length(&self) -> bool {
        self.row_space == 4 * MOST_EVENTS
    }

    pub fn told(&self) -> String {
        let (name, bytes, room) = (&self.name, self.book.len(), self.row_space);
        format!("{name}, {bytes} bytes, row space {room}")
    }
}

/// The short book of this number.
pub fn short(seed: u64, number: u64) -> Case {
    let random = &mut Random::for_case(seed, 1, number);
    let (sort, book, row_space) = match random.below(100) {
        0..=54 => {
            let (plan, events) = short_run(random);
            let row_space = damage::row_space(random, 4 * events.len());
            ("walk", Draft::of(&plan, &events).bytes(), row_space)
        }
        55..=74 => {
            let number = random.pick(&damage::NUMBERS);
            let twice = random.one_in(3);
            let (plan, events) = short_run(random);
            let draft = Draft::of(&plan, &events);
            let numbers = if twice {
                vec![number, number]
            } else {
                vec![number]
            };
            let (book, row_space) = damage::damaged(random, draft, &numbers);
            ("one damage", book, row_space)
        }
        75..=84 => {
            let count = random.between(2, 5);
            // 1 hides all others, so it is drawn less often than they are. The tests
            // of the plan and those after them have a third of these books.
            let from = random.pick(&[0, 1, 1, 1, 3, 5]);
            let drawn = &damage::NUMBERS[from..];
            let numbers: Vec<u8> = (0..count).map(|_| random.pick(drawn)).collect();
            let (plan, events) = short_run(random);
            let (book, row_space) = damage::damaged(random, Draft::of(&plan, &events), &numbers);
            ("several damages", book, row_space)
        }
        85..=93 => {
            let (plan, events) = short_run(random);
            let mut book = Draft::of(&plan, &events).bytes();
            damage::change_one_byte(random, &mut book);
            (
                "one byte changed",
                book,
                damage::row_space(random, 4 * events.len()),
            )
        }
        94..=97 => {
            let draft = damage::random_bodies(random);
            let row_space = damage::row_space(random, 4 * draft.events.len());
            ("random bodies", draft.bytes(), row_space)
        }
        _ => {
            let book = damage::random_bytes(random);
            let row_space = random.below(64);
            ("random bytes", book, row_space)
        }
    };
    Case {
        name: format!("short book {number} ({sort})"),
        book,
        row_space,
    }
}

/// A plan and a short list of events, which may end in a wanted refusal.
pub fn short_run(random: &mut Random) -> (Plan, Vec<Event>) {
    let length = if random.one_in(12) {
        random.below(4)
    } else {
        random.between(4, 60)
    };
    let number = random.pick(&walk::WANTED);
    // One take too many, or some other refusal with as many as can be.
    let with_most_takes = number == 18 || (number != 12 && random.one_in(6));
    let wanted = if random.one_in(2) {
        Some(Wanted {
            number,
            from: random.below(length + 1),
            with_most_takes,
        })
    } else {
        None
    };
    let wants_most = wanted.is_some_and(|wanted| wanted.with_most_takes);
    let wants_nest = wanted.is_some_and(|wanted| wanted.number == 21) && random.one_in(2);
    let plan = if wants_most || wants_nest || random.one_in(8) {
        plans::deep(random)
    } else {
        plans::any(random)
    };
    let wants_21 = wanted.is_some_and(|wanted| wanted.number == 21) && !wants_most;
    let style: &Style = if wants_21 && random.one_in(2) {
        // Sections that come to their limits over several takes.
        &walk::AGAIN
    } else if wants_most || random.one_in(8) {
        random.pick(&[&walk::DEEP, &walk::HEAPED])
    } else {
        random.pick(&[&walk::MIXED, &walk::CONTENDED_AGAIN, &walk::AGAIN])
    };
    let events = walk::walk(random, &plan, style, length, wanted);
    (plan, events)
}

/// The long book of this number.
pub fn long(seed: u64, number: u64) -> Case {
    let random = &mut Random::for_case(seed, 2, number);
    let (plan, style, sort) = match number % 6 {
        0 => (plans::contended(random), &walk::CONTENDED, "contended"),
        1 => (plans::any(random), &walk::MIXED, "mixed"),
        2 => (plans::deep(random), &walk::DEEP, "deep"),
        3 => (plans::plain(random), &walk::PLAIN_AGAIN, "plain, again"),
        4 => (
            plans::contended(random),
            &walk::CONTENDED_AGAIN,
            "contended, again",
        ),
        _ => (plans::deep(random), &walk::AGAIN, "again"),
    };
    let wanted = if random.one_in(3) {
        let number = random.pick(&walk::WANTED);
        let from = random.between(MOST_EVENTS / 2, MOST_EVENTS);
        Some(Wanted {
            number,
            from,
            with_most_takes: false,
        })
    } else {
        None
    };
    let events = walk::walk(random, &plan, style, MOST_EVENTS, wanted);
    let mut draft = Draft::of(&plan, &events);
    let mut row_space = damage::row_space(random, 4 * MOST_EVENTS);
    match random.below(12) {
        0 => row_space = 4 * MOST_EVENTS - 1,
        1 => draft.events[MOST_EVENTS - 1][0] = 7,
        _ => {}
    }
    Case {
        name: format!("long book {number} ({sort})"),
        book: draft.bytes(),
        row_space,
    }
}

/// The kinds of full-length books that a real kernel runs too.
pub const FULL_LENGTH: [&str; 3] = ["crane", "contended", "plain"];

/// A full-length book of one of these kinds, or of the others that `--write` is
/// told, all of it accepted, from a fixed seed; nothing for another kind. Most may
/// have fewer tasks than can be: `contended-4`.
pub fn full_length(kind: &str) -> Option<Case> {
    let random = &mut Random::new(2001);
    let (name, tasks) = match kind.split_once('-') {
        None => (kind, MOST_TASKS),
        Some((name, tasks)) => (name, tasks.parse().ok()?),
    };
    if !(4..=MOST_TASKS).contains(&tasks) {
        return None;
    }
    let walked = |plan: Plan, random: &mut Random, style| {
        let events = walk::walk(random, &plan, style, MOST_EVENTS, None);
        (plan, events)
    };
    let (plan, events) = match name {
        "crane" if name == kind => (crane::plan(), crane::again_and_again(MOST_EVENTS)),
        "largest" if name == kind => (again::largest_plan(), again::largest_events(MOST_EVENTS)),
        "contended" => walked(plans::contended_of(random, tasks), random, &walk::CONTENDED),
        "plain" => walked(plans::plain_of(random, tasks), random, &walk::PLAIN),
        _ => (again::plan(tasks), again::events(name, tasks, MOST_EVENTS)?),
    };
    let book = Draft::of(&plan, &events).bytes();
    Some(Case {
        name: format!("full-length {kind} book"),
        book,
        row_space: 4 * MOST_EVENTS,
    })
}
