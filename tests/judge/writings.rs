//! The generated writings: which records and which buffer the n-th one of a seed
//! has. Some records are right, most have one or two faults, at several places,
//! and the buffers are of all lengths.

use crate::damage;
use crate::draft::Draft;
use crate::event::Event;
use crate::generate;
use crate::plan::MOST_EVENTS;
use crate::plans;
use crate::random::Random;
use crate::wire::{MOST_BYTES, MOST_RECORDS};
use crate::writing::Writing;

/// The faults that the writings have in turn: the numbers that their records and
/// their buffer are made for.
#[rustfmt::skip]
const FAULTS: [&[u8]; 26] = [
    &[], &[23], &[], &[2], &[4], &[5], &[6], &[7], &[24], &[8], &[],
    &[2, 2], &[2, 4], &[4, 4], &[4, 5], &[5, 6], &[6, 7], &[7, 8], &[8, 23],
    &[4, 24], &[7, 24], &[24, 24], &[24, 8], &[24, 23],
    &[4, 5, 6, 7, 24, 8], &[2, 4, 23],
];

/// Of so many writings two are of great books, one has a count of about 65,536,
/// and one has records of random bytes.
const OTHERS_IN: usize = 100;

/// The writing of this number.
pub fn writing(seed: u64, number: u64) -> Writing {
    let random = &mut Random::for_case(seed, 4, number);
    let (turn, sort) = (number as usize / OTHERS_IN, number as usize % OTHERS_IN);
    let (sort, faults, mut records) = match sort {
        0 | 1 => ("great book", in_turn(2 * turn + sort), great_book(random)),
        2 => ("far count", &[][..], far_count(random, turn)),
        3 => ("random bodies", &[][..], damage::random_bodies(random)),
        _ => {
            let (plan, events) = generate::short_run(random);
            let records = Draft::of(&plan, &events);
            ("short book", in_turn(number as usize), records)
        }
    };
    for number in faults {
        damage::damage_records(random, &mut records, *number);
    }
    let needed = records.size();
    let room = if faults.contains(&23) {
        damage::too_small(random, needed)
    } else {
        some_room(random, needed)
    };
    let name = format!("records {number} ({sort}, made for {faults:?})");
    Writing::new(name, records, room.min(MOST_BYTES))
}

fn in_turn(turn: usize) -> &'static [u8] {
    FAULTS[turn % FAULTS.len()]
}

/// A buffer for a book of so many bytes.
fn some_room(random: &mut Random, needed: usize) -> usize {
    match random.below(8) {
        0 => needed.saturating_sub(1),
        1 => 0,
        2 => needed + 1,
        3 => needed + random.between(2, 60),
        4 => MOST_BYTES,
        _ => needed,
    }
}

/// As many events as can be, and mostly as many tasks and locks.
fn great_book(random: &mut Random) -> Draft {
    let plan = match random.below(3) {
        0 => plans::any(random),
        1 => plans::contended(random),
        _ => plans::plain(random),
    };
    let events: Vec<Event> = (0..MOST_EVENTS).map(|_| any_event(random)).collect();
    Draft::of(&plan, &events)
}

/// An event that 8 accepts, whatever may come of it.
fn any_event(random: &mut Random) -> Event {
    let id = random.byte();
    match random.below(6) {
        0 => Event::Release(id),
        1 => Event::Acquire(id),
        2 => Event::Unlock(id),
        3 => Event::Work(random.between(1, usize::from(u16::MAX)) as u16),
        4 => Event::Finish,
        _ => Event::Tick,
    }
}

/// A count of about 65,536, of each body in its turn: one that two bytes just
/// hold, and others that would be 0, 1 or right if they were cut to two bytes.
fn far_count(random: &mut Random, turn: usize) -> Draft {
    let (plan, events) = generate::short_run(random);
    let mut records = Draft::of(&plan, &events);
    let (body, cut) = (turn % 4, usize::from(u16::MAX) + 1);
    let count = match turn / 4 % 4 {
        0 => cut - 1,
        1 => cut,
        2 => cut + 1,
        _ => MOST_RECORDS.min(cut + records.counts()[body]),
    };
    match body {
        0 => records.tasks.resize(count, [1, 1]),
        1 => records.locks.resize(count, [1, 0, 1, 0]),
        2 => records.uses.resize(count, [0, 0]),
        _ => records.events.resize(count, Event::Tick.record()),
    }
    records
}
