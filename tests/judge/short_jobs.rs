//! The reader of jobs on every short text of a few letters and digits. Which of them are
//! jobs, with which events, and which are the beginning of one, is told by the rules alone:
//! all bodies with short texts are built up from their items.

use crate::event::Event;
use crate::job;
use crate::plan::{MOST_LOCKS, MOST_UNITS};
use crate::wrong::Wrong;
use std::collections::{HashMap, HashSet};

/// The bytes of the texts.
const BYTES: &[u8; 7] = b"w[] 013";

/// Texts of up to so many bytes are read.
const MOST_READ: usize = 6;

/// Whatever of them is the beginning of a job is that of one with so many bytes at most.
const MOST_BUILT: usize = MOST_READ + 4;

/// A text and its events, without the finish.
type Built = (Vec<u8>, Vec<Event>);

/// How many texts were read, and those that are read otherwise than they should.
pub fn test() -> (usize, Vec<String>) {
    let mut failed = Vec::new();
    let mut jobs: HashMap<Vec<u8>, Vec<Event>> = HashMap::new();
    let mut beginnings = HashSet::new();
    for (text, mut events) in bodies().into_iter().flatten() {
        events.push(Event::Finish);
        for length in 0..=text.len().min(MOST_READ) {
            beginnings.insert(text[..length].to_vec());
        }
        if jobs.insert(text.clone(), events).is_some() {
            failed.push(format!("{} is the text of two bodies", text.escape_ascii()));
        }
    }
    let texts = texts();
    for text in &texts {
        let read = job::read(text, 4 * (MOST_READ + 1), Wrong::Nothing);
        let answer = (read.number, read.place as usize, read.events as usize);
        let right = match jobs.get(text) {
            Some(events) => (0, 0, events.len()),
            None => {
                let is_one = |length: &usize| beginnings.contains(&text[..*length]);
                let longest = (0..=text.len()).rev().find(is_one);
                (25, longest.unwrap_or(0), 0)
            }
        };
        let events = job::events(text, Wrong::Nothing);
        if answer != right || events.as_ref() != jobs.get(text) {
            let text = text.escape_ascii();
            failed.push(format!("{text}: {answer:?}, not {right:?}"));
        }
    }
    (texts.len(), failed)
}

/// All texts of the bytes.
fn texts() -> Vec<Vec<u8>> {
    let mut all = vec![Vec::new()];
    let mut longest = all.clone();
    for _ in 0..MOST_READ {
        let longer = longest.iter().flat_map(|text| {
            let with = |byte: &u8| [&text[..], &[*byte]].concat();
            BYTES.iter().map(with).collect::<Vec<_>>()
        });
        longest = longer.collect();
        all.extend(longest.clone());
    }
    all
}

/// The numbers in between that the digits make, as they are written.
fn numbers(least: usize, most: usize) -> Vec<(usize, String)> {
    let numbers = (least..=most).map(|number| (number, number.to_string()));
    let is_made = |digits: &str| digits.bytes().all(|digit| BYTES.contains(&digit));
    numbers.filter(|(_, digits)| is_made(digits)).collect()
}

/// All bodies, by the bytes of their texts. A body is an item, or an item, a space and a
/// body.
fn bodies() -> Vec<Vec<Built>> {
    let units = numbers(1, usize::from(MOST_UNITS));
    let locks = numbers(0, MOST_LOCKS - 1);
    let mut items: Vec<Vec<Built>> = vec![Vec::new()];
    let mut bodies: Vec<Vec<Built>> = vec![vec![(Vec::new(), Vec::new())]];
    for size in 1..=MOST_BUILT {
        let of_size = units.iter().filter(|(_, digits)| 1 + digits.len() == size);
        let mut item: Vec<Built> = of_size
            .map(|(units, digits)| {
                let work = Event::Work(*units as u16);
                (format!("w{digits}").into_bytes(), vec![work])
            })
            .collect();
        for (lock, digits) in &locks {
            let lock = *lock as u8;
            for (text, acts) in bodies.iter().flatten() {
                let space = if text.is_empty() { "" } else { " " };
                if size != 2 + digits.len() + space.len() + text.len() {
                    continue;
                }
                let front = format!("[{digits}{space}");
                let text = [front.as_bytes(), text, b"]"].concat();
                let ends = [[Event::Acquire(lock)], [Event::Unlock(lock)]];
                item.push((text, [&ends[0][..], acts, &ends[1]].concat()));
            }
        }
        let mut body = item.clone();
        items.push(item);
        for first in 1..size.saturating_sub(1) {
            for (one, acts) in &items[first] {
                for (others, more) in &bodies[size - first - 1] {
                    if !others.is_empty() {
                        let text = [&one[..], b" ", others].concat();
                        body.push((text, [&acts[..], more].concat()));
                    }
                }
            }
        }
        bodies.push(body);
    }
    bodies
}
