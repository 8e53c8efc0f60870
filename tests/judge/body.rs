//! Bodies as they are drawn: work, and sections that have bodies of their own. What the rules
//! make of a body, its text and its events, is made here without the reader, which is held
//! against it.

use crate::event::Event;
use crate::plan::{MOST_LOCKS, MOST_UNITS};
use crate::random::Random;

pub enum Item {
    Work(u16),
    Section(u8, Vec<Item>),
}

/// Amounts and locks at which the number of digits changes, or that are the greatest.
const UNITS: [u16; 14] = [
    1, 2, 9, 10, 99, 100, 999, 1_000, 9_999, 10_000, 60_000, 65_530, 65_534, MOST_UNITS,
];
const LOCKS: [u8; 8] = [0, 1, 2, 9, 10, 29, 30, MOST_LOCKS as u8 - 1];

/// RULES 20.1.
pub fn text(body: &[Item]) -> String {
    let items = body.iter().map(|item| match item {
        Item::Work(units) => format!("w{units}"),
        Item::Section(lock, body) if body.is_empty() => format!("[{lock}]"),
        Item::Section(lock, body) => format!("[{lock} {}]", text(body)),
    });
    items.collect::<Vec<_>>().join(" ")
}

/// RULES 20.2.
pub fn events(body: &[Item]) -> Vec<Event> {
    let mut events = Vec::new();
    put_acts(body, &mut events);
    events.push(Event::Finish);
    events
}

fn put_acts(body: &[Item], events: &mut Vec<Event>) {
    for item in body {
        match item {
            Item::Work(units) => events.push(Event::Work(*units)),
            Item::Section(lock, body) => {
                events.push(Event::Acquire(*lock));
                put_acts(body, events);
                events.push(Event::Unlock(*lock));
            }
        }
    }
}

/// Some items, or none, with at most so many sections one in another.
pub fn any(random: &mut Random, levels: usize) -> Vec<Item> {
    let count = random.pick(&[0, 1, 1, 2, 3]);
    let items = (0..count).map(|_| {
        if levels > 0 && random.one_in(2) {
            Item::Section(some_lock(random), any(random, levels - 1))
        } else {
            work(random)
        }
    });
    items.collect()
}

/// A body with so many sections one in another somewhere, and nowhere more.
pub fn nested(random: &mut Random, depth: usize) -> Vec<Item> {
    let mut lock = some_lock(random);
    let mut body = any(random, 0);
    for level in 1..=depth {
        // A section of the lock that the one in it has, now and then.
        if !random.one_in(6) {
            lock = some_lock(random);
        }
        let mut around = beside(random, level);
        around.push(Item::Section(lock, body));
        around.extend(beside(random, level));
        body = around;
    }
    body
}

/// What stands beside a section that has some levels in it: mostly nothing, and not more
/// levels.
fn beside(random: &mut Random, levels: usize) -> Vec<Item> {
    match random.below(5) {
        0 => any(random, levels.min(2)),
        1 => vec![work(random)],
        _ => Vec::new(),
    }
}

pub fn work(random: &mut Random) -> Item {
    Item::Work(match random.below(3) {
        0 => random.between(1, usize::from(MOST_UNITS)) as u16,
        _ => random.pick(&UNITS),
    })
}

pub fn some_lock(random: &mut Random) -> u8 {
    match random.below(2) {
        0 => random.below(MOST_LOCKS) as u8,
        _ => random.pick(&LOCKS),
    }
}
