//! RULES 15: the report on a book, letter for letter as the program prints it.

use crate::plan::{MOST_EVENTS, NOBODY};
use crate::protocol::Protocol;
use crate::replay::{replay, Answer};
use crate::wrong::Wrong;

/// The report by a protocol; there is row space for every book.
pub fn of_book(book: &[u8], protocol: Protocol) -> String {
    let outcome = replay(book, 4 * MOST_EVENTS, Wrong::Nothing);
    let answer = outcome.answers.of(protocol);
    of_answer(answer, *outcome.accepted.of(protocol))
}

/// The report on a replay that accepted so many events.
pub fn of_answer(answer: &Answer, accepted: usize) -> String {
    let mut text = String::from("event running user next call\n");
    for (place, row) in answer.rows.chunks(4).take(accepted).enumerate() {
        let who = match row[0] {
            NOBODY => "-".to_string(),
            task => task.to_string(),
        };
        let (number, user, second, call) = (place + 1, row[1], row[2], row[3]);
        text += &format!("{number} {who} {user} {second} {call}\n");
    }
    if answer.number != 0 {
        return text + &format!("refused {} {}\n", answer.number, answer.place);
    }
    text += &format!("calls {} {}\n", answer.lazy_calls, answer.eager_calls);
    text += "delayed";
    for delay in &answer.delays {
        text += &format!(" {delay}");
    }
    text + "\n"
}
