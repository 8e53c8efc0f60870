//! Jobs in the lines of generated texts. The items of a job are kept as one word of their
//! line, since the spaces in them are not the layout's.

use crate::body;
use crate::draft::Draft;
use crate::drawn::drawn_back;
use crate::event::Event;
use crate::job_damage::{damaged, DAMAGES};
use crate::plan::{MOST_EVENTS, MOST_NESTED, MOST_TASKS};
use crate::random::Random;
use crate::text_damage::Words;

/// The line of a job.
pub fn line(task: u8, items: Vec<u8>) -> Words {
    let mut words = vec![b"job".to_vec(), task.to_string().into_bytes()];
    if !items.is_empty() {
        words.push(items);
    }
    words
}

/// A job, damaged in one of these ways.
pub fn damaged_line(random: &mut Random, ways: &[&str]) -> Words {
    let way = random.pick(ways);
    let (items, _) = damaged(random, way);
    line(random.below(4) as u8, items)
}

pub fn any_damaged_line(random: &mut Random) -> Words {
    damaged_line(random, &DAMAGES)
}

pub fn right_line(random: &mut Random) -> Words {
    line(random.below(4) as u8, some_items(random))
}

/// The text of a job.
pub fn some_items(random: &mut Random) -> Vec<u8> {
    let depth = random.below(MOST_NESTED + 1);
    let body = body::nested(random, depth);
    body::text(&body).into_bytes()
}

/// Puts whole jobs among the events, each with its release.
pub fn put_jobs(random: &mut Random, records: &mut Draft) {
    for _ in 0..random.between(1, 3) {
        let depth = random.below(MOST_NESTED + 1);
        let task = random.below(records.tasks.len().clamp(1, MOST_TASKS));
        let mut events = vec![Event::Release(task as u8)];
        events.extend(body::events(&body::nested(random, depth)));
        let at = random.below(records.events.len() + 1);
        let put = events.into_iter().map(Event::record);
        records.events.splice(at..at, put);
    }
}

/// The lines of events, and how many records each has, where some jobs that stand among
/// them, each with its release, are joined to the line of one.
pub fn joined(random: &mut Random, records: &Draft, lines: Vec<Words>) -> Vec<(Words, usize)> {
    let mut joined = Vec::new();
    let mut at = 0;
    while at < lines.len() {
        let job = job_at(&records.events[at..]).filter(|_| !random.one_in(4));
        let (words, count) = job.unwrap_or_else(|| (lines[at].clone(), 1));
        joined.push((words, count));
        at += count;
    }
    joined
}

/// The line of the job that these events start with, and how many of them it is.
fn job_at(events: &[[u8; 4]]) -> Option<(Words, usize)> {
    let Event::Release(task) = Event::from_record(*events.first()?)? else {
        return None;
    };
    // There is a finish at the end of a job and nowhere else.
    let finish = Event::Finish.record();
    let end = events.iter().position(|record| *record == finish)?;
    let job = events[1..=end].iter();
    let job: Option<Vec<Event>> = job.map(|record| Event::from_record(*record)).collect();
    let items = drawn_back(&job?)?;
    Some((line(task, items), end + 1))
}

/// A line of a text and its events.
type Line = (Words, Vec<Event>);

/// The line of a job with so many events: sections without items, and work at the end where
/// the number wants it. There is at least one event, the finish.
fn job_of(events: usize) -> Line {
    let (sections, works) = ((events - 1) / 2, (events - 1) % 2);
    let section = [Event::Acquire(0), Event::Unlock(0)];
    let items = [vec!["[0]"; sections], vec!["w1"; works]].concat();
    let records = [
        vec![Event::Release(0)],
        section.repeat(sections),
        vec![Event::Work(1); works],
        vec![Event::Finish],
    ];
    (line(0, items.join(" ").into_bytes()), records.concat())
}

/// Lines with about as many events as a book can have, mostly in jobs, and what they are.
#[rustfmt::skip] // a line each
pub fn great(turn: usize) -> (&'static str, Vec<Line>) {
    let (job, most) = (job_of, MOST_EVENTS);
    let tick = (vec![b"tick".to_vec()], vec![Event::Tick]);
    match turn % 8 {
        0 => ("a job with one event too many", vec![job(most)]),
        1 => ("a job with the most events", vec![job(most - 1)]),
        2 => ("a job with more events than there is space for", vec![job(most + 1)]),
        3 => ("two jobs with the most events", vec![job(most / 3 - 1), job(2 * most / 3 - 1)]),
        4 => ("two jobs with one event too many", vec![job(7_000), job(4_999)]),
        5 => ("a job after the most events", vec![job(most - 1), job(1)]),
        6 => ("a job with far more events", vec![tick, job(5), job(2 * most)]),
        _ => ("an event after a job with the most", vec![job(most - 1), tick]),
    }
}
