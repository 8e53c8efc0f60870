//! Counting what the generated books reached: how often each number was the
//! answer, and whether the rules that are easy to miss were met at all.

use crate::plan::NOBODY;
use crate::protocol::ByProtocol;
use crate::refusals::{FROM_BOOKS, WORDS};
use crate::replay::Outcome;
use crate::taken::Counts;

#[derive(Default)]
pub struct Tally {
    pub books: usize,
    accepted_events: usize,
    /// Accepted acquires and unlocks.
    lock_acts: usize,
    lazy_calls: ByProtocol<u64>,
    eager_calls: u64,
    /// Calls of the first protocol after which the same task goes on.
    same_again: usize,
    /// Accepted events after which a lock has raised the running task to its maximum.
    at_maximum: usize,
    answers: [usize; WORDS.len()],
    /// The least and the greatest place of each number.
    places: [Option<(u32, u32)>; WORDS.len()],
    /// What was met of locks that are taken again.
    taken: Counts,
    /// Tasks whose delay isn't 0, and those whose delay equals their bound.
    delayed: usize,
    at_bound: usize,
}

impl Tally {
    pub fn count(&mut self, outcome: &Outcome) {
        // The figures that both protocols have alike are taken from the second.
        let answer = &outcome.answers.second;
        self.books += 1;
        self.accepted_events += outcome.accepted.second;
        self.lock_acts += outcome.lock_acts;
        self.lazy_calls.second += u64::from(answer.lazy_calls);
        self.lazy_calls.first += u64::from(outcome.answers.first.lazy_calls);
        self.same_again += same_again(&outcome.answers.first.rows, outcome.accepted.first);
        self.eager_calls += u64::from(answer.eager_calls);
        self.at_maximum += outcome.at_maximum;
        self.taken.add(&outcome.taken);
        let number = usize::from(answer.number);
        self.answers[number] += 1;
        let (least, most) = self.places[number].unwrap_or((answer.place, answer.place));
        self.places[number] = Some((least.min(answer.place), most.max(answer.place)));
        for (delay, bound) in answer.delays.iter().zip(&answer.bounds) {
            self.delayed += usize::from(*delay > 0);
            self.at_bound += usize::from(*delay > 0 && delay == bound);
        }
    }

    /// What no book met and has to be met for the comparison to mean much: each
    /// number that a book can be answered with, and the rules that are easy to
    /// miss.
    pub fn missing(&self) -> Vec<String> {
        let numbers = FROM_BOOKS.iter().map(|number| {
            let times = self.answers[usize::from(*number)];
            (format!("answer {number}"), times > 0)
        });
        let rules = [
            ("a lazy call", self.lazy_calls.second > 0),
            (
                "a lazy call by the first protocol alone",
                self.lazy_calls.first > self.lazy_calls.second,
            ),
            (
                "an eager call that is no lazy one by the first protocol",
                self.eager_calls > self.lazy_calls.first,
            ),
            (
                "a call that elects the same task again",
                self.same_again > 0,
            ),
            (
                "an acquire or unlock that is no eager call",
                self.lock_acts as u64 > self.eager_calls,
            ),
            (
                "a task that a lock raises to its maximum",
                self.at_maximum > 0,
            ),
            ("a delay", self.delayed > 0),
            ("a delay that reaches its bound", self.at_bound > 0),
        ];
        let rules = rules.map(|(what, met)| (what.to_string(), met));
        let taken = self.taken.named(true).into_iter();
        let taken = taken.map(|(what, times)| (what.to_string(), times > 0));
        let all = numbers.chain(rules).chain(taken);
        all.filter(|(_, met)| !met).map(|(what, _)| what).collect()
    }

    pub fn print_table(&self) {
        println!("answers of the generated books:");
        println!("  no.   times  places        given when");
        for (number, words) in WORDS.iter().enumerate() {
            let times = self.answers[number];
            let places = match self.places[number] {
                Some((least, most)) => format!("{least} to {most}"),
                None => "-".to_string(),
            };
            let note = if FROM_BOOKS.contains(&(number as u8)) {
                ""
            } else {
                " [not from a book]"
            };
            println!("  {number:>3} {times:>7}  {places:<12}  {words}{note}");
        }
        println!("locks taken again in the generated books:");
        for (name, times) in self.taken.named(true) {
            println!("  {times:>6}  {name}");
        }
    }

    pub fn summary(&self) -> String {
        format!(
            "{} generated books, {} events accepted, {} acquires and unlocks, {} lazy calls by the \
             second and {} by the first protocol ({} elect the same task again), {} eager calls, \
             {} rows at a raised task's maximum, {} delays ({} at their bound)",
            self.books,
            self.accepted_events,
            self.lock_acts,
            self.lazy_calls.second,
            self.lazy_calls.first,
            self.same_again,
            self.eager_calls,
            self.at_maximum,
            self.delayed,
            self.at_bound,
        )
    }
}

/// How many of the rows of accepted events have a call and the same running task
/// as the row before.
fn same_again(rows: &[u8], accepted: usize) -> usize {
    let mut before = NOBODY;
    let mut times = 0;
    for row in rows.chunks(4).take(accepted) {
        times += usize::from(row[3] == 1 && row[0] == before);
        before = row[0];
    }
    times
}
