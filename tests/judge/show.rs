//! RULES 19.7 and 19.8: `show`, from any book to a text.

use crate::book::{self, Book, Refusal};
use crate::draft::Draft;
use crate::history::History;
use crate::meanings::{refused, refused_event};
use crate::plan::MOST_EVENTS;
use crate::protocol::Protocol;
use crate::record_lines::{bytes, entry, event, lock, pair, task, NOT_REACHED};
use crate::wire::MOST_BYTES;
use crate::wrong::Wrong;

/// The book as far as the program reads it: what is longer is no book in any case.
pub fn read_part(book: &[u8]) -> &[u8] {
    &book[..book.len().min(MOST_BYTES)]
}

/// The book, by the tests 1 to 8 and 24: there is row space for every one.
pub fn tested(book: &[u8], wrong: Wrong) -> Result<Book, Refusal> {
    book::read_by(book, 4 * MOST_EVENTS, wrong)
}

pub fn show(book: &[u8], wrong: Wrong) -> String {
    let book = read_part(book);
    let lines = match tested(book, wrong) {
        Ok(accepted) => {
            let records = book::cut(book).unwrap_or_default();
            let history = History::of(accepted, Protocol::Second, wrong);
            parts(&records, &comments(&history, wrong), wrong)
        }
        Err(refusal) => {
            let first = format!("# {}", refused(refusal.number, refusal.place));
            let rest = match refusal.number {
                1 => vec![bytes(book)],
                2 | 3 => {
                    let entries = (1..=4).map(|number| entry(book, number));
                    [bytes(book)].into_iter().chain(entries).collect()
                }
                _ => parts(&book::cut(book).unwrap_or_default(), &[], wrong),
            };
            [vec![first], rest].concat()
        }
    };
    lines.iter().map(|line| format!("{line}\n")).collect()
}

/// The four parts: a line that counts the records of each, and a line for each record.
/// The events that no comment is given for were not reached.
fn parts(records: &Draft, comments: &[String], wrong: Wrong) -> Vec<String> {
    let [tasks, locks, uses, events] = records.counts();
    let first = match wrong {
        Wrong::EventsFromZero => 0,
        _ => 1,
    };
    let what = |place: usize| comments.get(place).map_or(NOT_REACHED, String::as_str);
    let mut lines = vec![format!("# {tasks} tasks: base, maximum")];
    lines.extend((0..tasks).map(|place| task(records, place)));
    lines.push(format!("# {locks} locks: ceiling, limit"));
    lines.extend((0..locks).map(|place| lock(records, place)));
    lines.push(format!("# {uses} uses: task, lock"));
    lines.extend((0..uses).map(|place| pair(records, place)));
    lines.push(format!("# {events} events"));
    lines.extend((0..events).map(|place| event(records, place, place + first, what(place))));
    lines
}

/// What came of each event up to the refused one, if there is one.
fn comments(history: &History, wrong: Wrong) -> Vec<String> {
    let accepted = history.moments.iter().map(|moment| match moment.after {
        Some(task) => format!("task {task} runs at {}", moment.user_word),
        None => "nobody runs".to_string(),
    });
    let refused = history
        .refused
        .map(|refused| refused_event(refused.number, wrong));
    let again = refused.clone().filter(|_| wrong == Wrong::RefusedTwice);
    accepted.chain(refused).chain(again).collect()
}
