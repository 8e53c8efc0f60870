//! A list on a real kernel beside what is expected of it: who ran after each
//! event, and how often the kernel was called for another priority.

use crate::compare;
use crate::event::Event;
use crate::generate::Case;
use crate::lists;
use crate::plan::NOBODY;
use crate::protocol::{ByProtocol, Protocol, PROTOCOLS};
use crate::replay::Answer;
use crate::wire::{Run, WHOLE};
use crate::wrong::Wrong;
use std::sync::Arc;

/// A list, what the program answers by each protocol and what the kernel made of it.
pub struct Trial {
    pub case: Arc<Case>,
    pub events: Vec<Event>,
    pub answers: ByProtocol<Answer>,
    pub run: Run,
}

impl Trial {
    /// A list on a kernel that does what the eager scheduler does, beside the judge's own
    /// answers.
    pub fn of_itself(case: Case) -> Trial {
        let answers = case.replay(Wrong::Nothing).answers;
        let running = answers.second.rows.chunks(4).map(|row| row[0]);
        let run = Run {
            ending: WHOLE,
            who: [NOBODY].into_iter().chain(running).collect(),
            calls: Some(answers.second.eager_calls),
        };
        Trial {
            events: lists::events(&case),
            case: Arc::new(case),
            answers,
            run,
        }
    }

    /// What differs, in words: the program from the judge, and the kernel from
    /// the program.
    pub fn differences(&self) -> Vec<String> {
        let judge = self.case.replay(Wrong::Nothing).answers;
        let mut found = Vec::new();
        for protocol in PROTOCOLS {
            let answer = self.answers.of(protocol);
            let expected = Expected::of(answer, self.events.len());
            let mut by_protocol = compare::answers(judge.of(protocol), answer);
            by_protocol.extend(expected.other_task(&self.events, &self.run));
            by_protocol.extend(expected.other_calls(&self.run));
            let told = by_protocol.iter();
            found.extend(told.map(|words| format!("{} protocol: {words}", protocol.name())));
        }
        if self.run.ending != WHOLE || self.run.who.len() != self.events.len() + 1 {
            let (taken, words) = (self.run.who.len(), self.run.ending_in_words());
            found.push(format!("after {taken} events that were taken: {words}"));
        }
        found
    }

    /// Whether the kernel differs, in what it ran, from what a judge gone wrong
    /// expects.
    pub fn tells_by_run(&self, wrong: Wrong, protocol: Protocol) -> bool {
        let expected = Expected::gone_wrong(&self.case, wrong, protocol);
        expected.other_task(&self.events, &self.run).is_some()
    }

    /// The same for its calls, which are those of the eager scheduler.
    pub fn tells_by_calls(&self, wrong: Wrong) -> bool {
        let expected = Expected::gone_wrong(&self.case, wrong, Protocol::Second);
        expected.other_calls(&self.run).is_some()
    }

    /// Each event and who ran after it, by the row and by the kernel. Events
    /// count from 1, as rows do.
    pub fn show(&self) {
        println!("{:<26}{:<10}kernel", "event", "row");
        for (at, event) in self.events.iter().enumerate() {
            let (row, ran) = (
                self.answers.second.rows[4 * at],
                self.run.who.get(at + 1).copied(),
            );
            let event = format!("{} {event:?}", at + 1);
            let told = ran.map_or("-".to_string(), named);
            let note = if ran == Some(row) { "" } else { ", differs" };
            println!("{event:<26}{:<10}{told}{note}", named(row));
        }
    }
}

/// What is expected of a run.
struct Expected {
    /// The running task of each row.
    running: Vec<u8>,
    eager_calls: u32,
}

impl Expected {
    /// By the rows of so many accepted events.
    fn of(answer: &Answer, accepted: usize) -> Expected {
        let rows = answer.rows.chunks(4).take(accepted);
        Expected {
            running: rows.map(|row| row[0]).collect(),
            eager_calls: answer.eager_calls,
        }
    }

    /// By a judge gone wrong. It may refuse an event of the list, and no more is
    /// expected then.
    fn gone_wrong(case: &Case, wrong: Wrong, protocol: Protocol) -> Expected {
        let outcome = case.replay(wrong);
        let accepted = *outcome.accepted.of(protocol);
        Expected::of(outcome.answers.of(protocol), accepted)
    }

    /// The first event after which the kernel ran another task, in words.
    fn other_task(&self, events: &[Event], run: &Run) -> Option<String> {
        let expected = [NOBODY].iter().chain(&self.running);
        let mut pairs = expected.zip(&run.who).enumerate();
        let (row, (expected, ran)) = pairs.find(|(_, (expected, ran))| expected != ran)?;
        let after = match row {
            0 => "before any event".to_string(),
            _ => format!("after event {row}, {:?}", events[row - 1]),
        };
        let (ran, expected) = (named(*ran), named(*expected));
        Some(format!("{after}: the kernel ran {ran}, not {expected}"))
    }

    /// The calls of the kernel, if they were counted and are others, in words.
    fn other_calls(&self, run: &Run) -> Option<String> {
        let counted = run.calls.filter(|calls| *calls != self.eager_calls)?;
        let eager = self.eager_calls;
        Some(format!(
            "the kernel was called {counted} times for another priority, not {eager} times"
        ))
    }
}

fn named(task: u8) -> String {
    match task {
        NOBODY => "nobody".to_string(),
        _ => format!("task {task}"),
    }
}
