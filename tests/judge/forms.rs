//! RULES 19.2: the nine records that a line of a text can be, and the job, which is several.
//! The table stands here once; who reads a line, who writes one and who says what a line has
//! to look like takes it from here.

use crate::draft::Draft;
use crate::event::Event;

/// A record in words.
pub struct Form {
    /// The line as it is to be written: the name, and a word for each number. A job's has
    /// one more for its items.
    pub line: &'static str,
    /// The part that it belongs to, from 0: tasks, locks, uses, events.
    pub part: usize,
    /// The most that each of its numbers may be.
    pub most: &'static [u64],
}

const BYTE: u64 = 255;
const TWO_BYTES: u64 = 65_535;

#[rustfmt::skip] // a line each
pub const FORMS: [Form; 10] = [
    Form { line: "task BASE MAXIMUM", part: 0, most: &[BYTE, BYTE] },
    Form { line: "lock CEILING LIMIT", part: 1, most: &[BYTE, TWO_BYTES] },
    Form { line: "use TASK LOCK", part: 2, most: &[BYTE, BYTE] },
    Form { line: "release TASK", part: 3, most: &[BYTE] },
    Form { line: "acquire LOCK", part: 3, most: &[BYTE] },
    Form { line: "unlock LOCK", part: 3, most: &[BYTE] },
    Form { line: "work UNITS", part: 3, most: &[TWO_BYTES] },
    Form { line: "finish", part: 3, most: &[] },
    Form { line: "tick", part: 3, most: &[] },
    Form { line: "job TASK ITEMS", part: 3, most: &[BYTE] },
];

impl Form {
    pub fn name(&self) -> &'static str {
        self.line.split(' ').next().unwrap_or_default()
    }

    /// The place in the table of the form with this name.
    pub fn named(word: &[u8]) -> Option<usize> {
        FORMS.iter().position(|form| form.name().as_bytes() == word)
    }

    /// Whether the text of a job stands behind the numbers.
    pub fn has_items(&self) -> bool {
        self.line.ends_with(" ITEMS")
    }

    /// Puts the record with these numbers, as many as the form has, behind the others
    /// of its part. A number is cut to the bytes that its field has. Of a job it is the
    /// first record.
    pub fn put(&self, numbers: &[u64], records: &mut Draft) {
        let byte = |at: usize| numbers[at] as u8;
        let two = |at: usize| numbers[at] as u16;
        let event = match self.name() {
            "task" => return records.tasks.push([byte(0), byte(1)]),
            "lock" => {
                let [low, high] = two(1).to_le_bytes();
                return records.locks.push([byte(0), 0, low, high]);
            }
            "use" => return records.uses.push([byte(0), byte(1)]),
            "release" | "job" => Event::Release(byte(0)),
            "acquire" => Event::Acquire(byte(0)),
            "unlock" => Event::Unlock(byte(0)),
            "work" => Event::Work(two(0)),
            "finish" => Event::Finish,
            _ => Event::Tick,
        };
        records.events.push(event.record());
    }
}

/// The words of an event's line.
pub fn event_in_words(event: Event) -> String {
    match event {
        Event::Release(task) => format!("release {task}"),
        Event::Acquire(lock) => format!("acquire {lock}"),
        Event::Unlock(lock) => format!("unlock {lock}"),
        Event::Work(units) => format!("work {units}"),
        Event::Finish => "finish".to_string(),
        Event::Tick => "tick".to_string(),
    }
}
