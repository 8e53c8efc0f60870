//! A reading: the text of a job, right or wrong, and the event space that its events are to
//! be laid into.

use crate::beginnings;
use crate::drawn::drawn;
use crate::event::Event;
use crate::job::{self, JobRead, RECORD};
use crate::wrong::Wrong;

/// A place is looked for from the front in texts of up to so many bytes.
const SHORT: usize = 24;

pub struct Reading {
    pub name: String,
    /// How the text was made.
    pub sort: &'static str,
    pub text: Vec<u8>,
    /// The bytes of the event space.
    pub room: usize,
    /// What was worked out beside the reader: the events of the text, or the place at which
    /// it is no job.
    pub made_for: Option<Result<Vec<Event>, usize>>,
}

pub struct Outcome {
    pub read: JobRead,
    /// What the judge demands of itself and did not hold, in words.
    pub violation: Option<String>,
}

impl Reading {
    pub fn read(&self, wrong: Wrong) -> Outcome {
        let read = job::read(&self.text, self.room, wrong);
        let violation = match wrong {
            Wrong::Nothing => self.violation(&read),
            _ => None,
        };
        Outcome { read, violation }
    }

    fn violation(&self, read: &JobRead) -> Option<String> {
        let place = read.place as usize;
        let events = job::events(&self.text, Wrong::Nothing);
        let wanted = self.made_for.as_ref();
        if wanted.is_some_and(|wanted| *wanted != events.clone().ok_or(place)) {
            return Some("it was made for other events, or another place".to_string());
        }
        let Some(events) = events else {
            if read.number != 25 {
                return Some("it is no job, and not refused so".to_string());
            }
            if self.text.len() > SHORT {
                return None;
            }
            return beginnings::broken(&self.text, place);
        };
        // Whoever draws the events again has the text.
        if drawn(&events) != Some(self.text.clone()) {
            return Some("its events are those of another text".to_string());
        }
        // RULES 20.6.
        if 2 * events.len() > self.text.len() + 3 {
            return Some(format!("it has {} events", events.len()));
        }
        let right = match RECORD * events.len() <= self.room {
            true => (0, 0, events.len()),
            false => (26, 0, 0),
        };
        let answer = (read.number, place, read.events as usize);
        (answer != right).then(|| format!("the answer is {answer:?}, not {right:?}"))
    }

    pub fn told(&self) -> String {
        let (name, bytes, room) = (&self.name, self.text.len(), self.room);
        format!("{name}, {bytes} bytes, event space {room}")
    }
}
