//! Jobs that are read by both: the same answer and the same space, for texts of 12,000
//! events, what is left of them at each of some places, and damaged ones; then their times.

use crate::device;
use crate::ordinary::{Refused, MOST_EVENTS};
use crate::ordinary_job;
use crate::{done, report, time, Figure, TURNS};
use std::hint::black_box;

/// What stands in the space before a job is read.
const FILLED: u8 = 0xEE;

/// The sorts of job: a name, and what is said again and again, with one space between.
const SORTS: [(&str, &str); 4] = [
    ("work", "w1"),
    ("long work", "w65535"),
    ("sections", "[0]"),
    ("deep", "[0 w12 [1 [2 [3 w345 [4 [5 [6 [31 w9]]]]]]]]"),
];

pub fn measure(rounds: usize) -> bool {
    let mut agree = true;
    for (name, part) in SORTS {
        let text = text(part);
        match compare(&text) {
            Ok(events) => times(name, &text, events, rounds),
            Err(what) => {
                println!("job of {name}: the two readers differ in {what}");
                agree = false;
            }
        }
    }
    agree
}

/// As many of these as a book has events, or some fewer.
fn text(part: &str) -> Vec<u8> {
    let events = |text: &str| ordinary_job::read(text.as_bytes(), &mut [0; 400]).unwrap_or(1) - 1;
    vec![part; (MOST_EVENTS - 1) / events(part)]
        .join(" ")
        .into_bytes()
}

/// How many events both read, or what they differ in.
fn compare(text: &[u8]) -> Result<usize, String> {
    let events = same(text, 4 * MOST_EVENTS)?.map_err(|Refused(number, _)| format!("{number}"))?;
    for room in [0, 4 * events - 1, 4 * events, 4 * events + 7] {
        let _ = same(text, room)?;
    }
    for place in (0..text.len()).step_by(text.len() / 300 + 1) {
        let _ = same(&text[..place], 4 * MOST_EVENTS)?;
        for byte in *b"w[] 019x" {
            let mut damaged = text.to_vec();
            damaged[place] = byte;
            let _ = same(&damaged, 4 * MOST_EVENTS)?;
        }
    }
    Ok(events)
}

type Answer = Result<usize, Refused>;

fn same(text: &[u8], room: usize) -> Result<Answer, String> {
    let mut proved_space = vec![FILLED; room];
    let mut ordinary_space = proved_space.clone();
    let proved = device::read_job(text, &mut proved_space);
    let ordinary = ordinary_job::read(text, &mut ordinary_space);
    let (number, place, events) = match ordinary {
        Ok(events) => (0, 0, events),
        Err(Refused(number, place)) => (number, place, 0),
    };
    if (proved.number, proved.place, proved.events) != (number, place, events) {
        return Err(format!("the answer {number} {place} {events}"));
    }
    if proved_space != ordinary_space {
        return Err(format!("the space beside {number} {place}"));
    }
    Ok(ordinary)
}

/// Times both, round by round in turn, for each event of the job.
fn times(name: &str, text: &[u8], events: usize, rounds: usize) {
    let mut space = vec![0; 4 * events];
    let mut times = [const { Vec::new() }; 2];
    for _ in 0..rounds {
        let text = black_box(text);
        times[0].push(time(events as u32, TURNS, || {
            done(device::read_job(text, black_box(&mut space)))
        }));
        times[1].push(time(events as u32, TURNS, || {
            done(ordinary_job::read(text, black_box(&mut space)))
        }));
    }
    let [proved, ordinary] = times.map(Figure::of);
    report(name, "", "job", proved, ordinary);
}
