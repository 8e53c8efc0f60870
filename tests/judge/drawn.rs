//! From the events of a job back to its text.

use crate::event::Event;
use crate::job;
use crate::wrong::Wrong;

/// The text of a job that has these events; nothing where one of them stands in no job, or
/// the last is no finish. Which lock an unlock names is not looked at.
pub fn drawn(events: &[Event]) -> Option<Vec<u8>> {
    let (Event::Finish, items) = events.split_last()? else {
        return None;
    };
    let mut text = String::new();
    for event in items {
        let item = match event {
            Event::Work(units) => format!("w{units}"),
            Event::Acquire(lock) => format!("[{lock}"),
            Event::Unlock(_) => {
                text.push(']');
                continue;
            }
            _ => return None,
        };
        if !text.is_empty() {
            text.push(' ');
        }
        text += &item;
    }
    Some(text.into_bytes())
}

/// The text of a job that has these events and no others; nothing where there is none.
pub fn drawn_back(events: &[Event]) -> Option<Vec<u8>> {
    let text = drawn(events)?;
    let read = job::events(&text, Wrong::Nothing)?;
    (read == events).then_some(text)
}
