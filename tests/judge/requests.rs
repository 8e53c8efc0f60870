//! What a program under judgement is asked, and in which order: the hand-made
//! cases, the set pieces, then generated books, writings, texts, jobs and steps in turn,
//! and the long books last. Every book is replayed by both protocols, checked and,
//! where its records can be taken out of it, written again; what is written is
//! checked before. Every book by hand and many another is shown, explained by both
//! protocols, and composed again from what shows it.

use crate::by_hand::ByHand;
use crate::composing::Composing;
use crate::generate::{self, Case};
use crate::jobs;
use crate::protocol::{Protocol, PROTOCOLS};
use crate::reading::Reading;
use crate::texts;
use crate::trials::{self, Trial};
use crate::wire::{self, Command};
use crate::writing::Writing;
use crate::writings;
use std::borrow::Cow;
use std::sync::Arc;

pub enum Ask {
    Replay(Arc<Case>, Protocol),
    Check(Arc<Case>),
    Step(Trial),
    Write(Writing),
    Compose(Composing),
    Show(Arc<Case>),
    Explain(Arc<Case>, Protocol),
    Job(Reading),
}

#[derive(Clone, Copy, PartialEq, Eq)]
pub enum Source {
    ByHand,
    Generated,
}

pub struct Request {
    pub ask: Ask,
    pub source: Source,
}

impl Request {
    /// The replay of a generated book.
    pub fn replay(case: &Arc<Case>, protocol: Protocol) -> Request {
        Request {
            ask: Ask::Replay(Arc::clone(case), protocol),
            source: Source::Generated,
        }
    }

    /// The request as it goes to the program.
    pub fn bytes(&self) -> Vec<u8> {
        let none = Protocol::Second;
        let (command, protocol, room) = match &self.ask {
            Ask::Replay(case, protocol) => (Command::Replay, *protocol, case.row_space),
            Ask::Check(case) => (Command::Check, none, case.row_space),
            Ask::Step(trial) => (Command::Step, trial.protocol, 0),
            Ask::Write(writing) => (Command::Write, none, writing.room),
            Ask::Compose(_) => (Command::Compose, none, 0),
            Ask::Show(_) => (Command::Show, none, 0),
            Ask::Explain(_, protocol) => (Command::Explain, *protocol, 0),
            Ask::Job(reading) => (Command::Job, none, reading.room),
        };
        wire::request(command, protocol, &self.payload(), room)
    }

    /// A book, a plan with a state and an event, records, or a text or a job.
    pub fn payload(&self) -> Cow<'_, [u8]> {
        match &self.ask {
            Ask::Replay(case, _) | Ask::Check(case) => Cow::from(&case.book),
            Ask::Show(case) | Ask::Explain(case, _) => Cow::from(&case.book),
            Ask::Compose(composing) => Cow::from(&composing.text),
            Ask::Job(reading) => Cow::from(&reading.text),
            Ask::Step(trial) => {
                let record = trial.event.record();
                Cow::from([trial.given.bytes(), &record[..]].concat())
            }
            Ask::Write(writing) => Cow::from(writing.payload()),
        }
    }

    /// What is asked, in words.
    pub fn name(&self) -> String {
        match &self.ask {
            Ask::Replay(case, protocol) => {
                format!(
                    "replay by the {} protocol of {}",
                    protocol.name(),
                    case.told()
                )
            }
            Ask::Check(case) => format!("check of {}", case.told()),
            Ask::Step(trial) => {
                let (name, protocol) = (&trial.name, trial.protocol.name());
                format!("{name} by the {protocol} protocol, {:?}", trial.event)
            }
            Ask::Write(writing) => format!("writing of {}", writing.told()),
            Ask::Compose(composing) => format!("composing of {}", composing.told()),
            Ask::Show(case) => format!("showing of {}", case.told()),
            Ask::Explain(case, protocol) => {
                let (name, told) = (protocol.name(), case.told());
                format!("explanation by the {name} protocol of {told}")
            }
            Ask::Job(reading) => format!("reading of {}", reading.told()),
        }
    }
}

/// How many generated steps and jobs there are for each short book, as long as there are
/// all.
const STEPS_FOR_A_BOOK: u64 = 10;
const JOBS_FOR_A_BOOK: u64 = 2;

/// Of so many short books one has a text that is generated beside it, of so many one is
/// shown and explained, and of so many long books.
const BOOKS_FOR_A_TEXT: u64 = 2;
const SHORT_SHOWN_IN: u64 = 7;
const LONG_SHOWN_IN: u64 = 3;

/// How many of each sort are generated, and from which seed.
#[derive(Clone, Copy)]
pub struct Amounts {
    pub seed: u64,
    pub short: u64,
    pub long: u64,
    pub steps: u64,
    pub writings: u64,
    pub jobs: u64,
    /// Lists for a real kernel.
    pub lists: u64,
}

/// The hand-made cases and the set pieces.
pub fn by_hand(by_hand: ByHand) -> impl Iterator<Item = Request> {
    let steps = by_hand.steps.into_iter().map(|case| Ask::Step(case.trial));
    let runs = by_hand.runs.into_iter().map(|case| case.case);
    let books = by_hand.books.into_iter().map(|case| case.case);
    let pieces = by_hand.pieces.into_iter().map(|piece| piece.case);
    let writings = by_hand.writings.into_iter().map(|case| case.writing);
    let texts = by_hand.texts.into_iter().map(|case| case.composing);
    let shows = by_hand.shows.into_iter().map(|case| case.case);
    let jobs = by_hand.jobs.into_iter().map(|case| case.reading);
    let books = runs.chain(books).chain(pieces).map(Arc::new).chain(shows);
    let asks = steps
        .chain(books.flat_map(|case| of_book(case, true)))
        .chain(writings.flat_map(of_writing))
        .chain(texts.map(Ask::Compose))
        .chain(jobs.map(Ask::Job));
    asks.map(|ask| Request {
        ask,
        source: Source::ByHand,
    })
}

/// Generated books, writings, texts, jobs and steps in turn, then the long books.
pub fn generated(amounts: Amounts) -> impl Iterator<Item = Request> {
    let Amounts {
        seed,
        short,
        long,
        steps,
        writings,
        jobs,
        ..
    } = amounts;
    let of_steps = steps.div_ceil(STEPS_FOR_A_BOOK);
    let of_jobs = jobs.div_ceil(JOBS_FOR_A_BOOK);
    let turns = short.max(writings).max(of_steps).max(of_jobs);
    let in_turn = (0..turns).flat_map(move |turn| {
        let is_shown = turn % SHORT_SHOWN_IN == 0;
        let book = || of_book(Arc::new(generate::short(seed, turn)), is_shown);
        let book = (turn < short).then(book);
        let has_text = turn < short && turn % BOOKS_FOR_A_TEXT == 0;
        let text = has_text.then(|| texts::text(seed, turn / BOOKS_FOR_A_TEXT));
        let writing = (turn < writings).then(|| of_writing(writings::writing(seed, turn)));
        let in_turn = |each: u64, all: u64| each * turn..(each * (turn + 1)).min(all);
        let steps = in_turn(STEPS_FOR_A_BOOK, steps);
        let steps = steps.map(move |number| Ask::Step(trials::trial(seed, number)));
        let jobs = in_turn(JOBS_FOR_A_BOOK, jobs);
        let jobs = jobs.map(move |number| Ask::Job(jobs::reading(seed, number)));
        let asks = book.into_iter().chain(writing).flatten();
        asks.chain(text.map(Ask::Compose)).chain(jobs).chain(steps)
    });
    let long = (0..long).flat_map(move |number| {
        let is_shown = number % LONG_SHOWN_IN == 0;
        of_book(Arc::new(generate::long(seed, number)), is_shown)
    });
    in_turn.chain(long).map(|ask| Request {
        ask,
        source: Source::Generated,
    })
}

fn of_book(case: Arc<Case>, is_shown: bool) -> Vec<Ask> {
    let again = Writing::of_book(&case);
    let replays = PROTOCOLS.map(|protocol| Ask::Replay(Arc::clone(&case), protocol));
    let mut asks = Vec::from(replays);
    asks.push(Ask::Check(Arc::clone(&case)));
    asks.extend(again.map(Ask::Write));
    if is_shown {
        asks.extend(in_words(&case));
    }
    asks
}

fn in_words(case: &Arc<Case>) -> Vec<Ask> {
    let explained = PROTOCOLS.map(|protocol| Ask::Explain(Arc::clone(case), protocol));
    let mut asks = vec![Ask::Show(Arc::clone(case))];
    asks.extend(explained);
    asks.push(Ask::Compose(Composing::of_book(case)));
    asks
}

fn of_writing(writing: Writing) -> Vec<Ask> {
    let check = writing.book.clone().map(Ask::Check);
    check.into_iter().chain([Ask::Write(writing)]).collect()
}
