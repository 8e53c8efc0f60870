//! What the judge makes of the replies: each is compared with its own answer,
//! the first ones that differ are told in words, and what was reached is
//! counted.

use crate::check::Checked;
use crate::compare;
use crate::explain::explain;
use crate::generate::Case;
use crate::job_tally::JobTally;
use crate::protocol::ByProtocol;
use crate::refusals::named;
use crate::replay;
use crate::requests::{Ask, Request, Source};
use crate::show::show;
use crate::show_tally::ShowTally;
use crate::sound;
use crate::state_notation::written;
use crate::step_tally::StepTally;
use crate::tally::Tally;
use crate::text_tally::TextTally;
use crate::trials::Trial;
use crate::wire;
use crate::write_tally::WriteTally;
use crate::wrong::Wrong;
use crate::Options;
use std::io::{Read, Result};
use std::sync::Arc;

/// So many differing replies are told in words; the others are only counted.
const TOLD: usize = 5;

/// So many fields or figures of one reply are told.
const TOLD_FIELDS: usize = 6;

/// A book, records or a text of up to so many bytes are told with their bytes, and a
/// state of up to so many changes with its figures.
const SHORT_BOOK: usize = 1_024;
const SHORT_STATE: usize = 80;

pub struct Verdict<'o> {
    options: &'o Options,
    pub heard: usize,
    by_hand: usize,
    pub differing: usize,
    /// How often the judge was not content with itself.
    pub violations: usize,
    books: Tally,
    steps: ByProtocol<StepTally>,
    writings: WriteTally,
    texts: TextTally,
    shows: ShowTally,
    jobs: JobTally,
    /// The book that was replayed last, and the judge's answers for it, which are
    /// those for both protocols.
    replayed: Option<(Arc<Case>, replay::Outcome)>,
    /// The program's latest answer to a check.
    checked: Option<Checked>,
}

impl<'o> Verdict<'o> {
    pub fn new(options: &'o Options) -> Verdict<'o> {
        Verdict {
            options,
            heard: 0,
            by_hand: 0,
            differing: 0,
            violations: 0,
            books: Tally::default(),
            steps: ByProtocol::each(StepTally::new),
            writings: WriteTally::default(),
            texts: TextTally::new(),
            shows: ShowTally::new(),
            jobs: JobTally::new(),
            replayed: None,
            checked: None,
        }
    }

    /// Reads the reply to a request and compares it with the judge's answer.
    pub fn hear(&mut self, request: &Request, replies: &mut impl Read) -> Result<()> {
        let wrong = self.options.wrong;
        let is_generated = request.source == Source::Generated;
        let (found, violation) = match &request.ask {
            Ask::Replay(case, protocol) => {
                let reply = wire::read_replay(replies, case.row_space)?;
                let violation = self.replay(case, is_generated);
                let (_, outcome) = self.replayed.as_ref().expect("it was replayed just now");
                let found = compare::answers(outcome.answers.of(*protocol), &reply);
                (found, violation)
            }
            Ask::Check(case) => {
                let reply = wire::read_check(replies)?;
                let found = compare::checks(&case.check(), &reply);
                self.checked = Some(reply);
                (found, None)
            }
            Ask::Step(trial) => {
                let reply = wire::read_step(replies, &trial.given)?;
                let outcome = trial.step(wrong);
                if is_generated {
                    self.steps.of_mut(trial.protocol).count(trial, &outcome);
                }
                let found = compare::steps(&outcome.stepped, &reply);
                (found, outcome.violation)
            }
            Ask::Write(writing) => {
                let reply = wire::read_write(replies, writing.room)?;
                let outcome = writing.write(wrong);
                if is_generated {
                    self.writings.count(writing, &outcome);
                }
                let mut found = compare::writings(&outcome.written, &reply);
                // The check before it was that of the same records.
                if let Some(checked) = self.checked.take() {
                    found.extend(writing.broken(&checked, &reply));
                }
                (found, outcome.violation)
            }
            Ask::Compose(composing) => {
                let reply = wire::read_compose(replies)?;
                let outcome = composing.compose(wrong);
                if is_generated {
                    self.texts.count(composing, &outcome);
                }
                let mut found = compare::composed(&outcome.composed, &reply);
                found.extend(composing.broken(&reply));
                (found, outcome.violation)
            }
            Ask::Show(case) => {
                let reply = wire::read_text(replies)?;
                let text = show(&case.book, wrong);
                if is_generated {
                    self.shows.count_shown(&text);
                }
                (compare::texts(text.as_bytes(), &reply), None)
            }
            Ask::Explain(case, protocol) => {
                let reply = wire::read_text(replies)?;
                let words = explain(&case.book, *protocol, wrong);
                if is_generated {
                    self.shows.count_explained(&words, *protocol);
                }
                (compare::texts(words.as_bytes(), &reply), None)
            }
            Ask::Job(reading) => {
                let reply = wire::read_job(replies, reading.room)?;
                let outcome = reading.read(wrong);
                if is_generated {
                    self.jobs.count(reading, &outcome);
                }
                let found = compare::readings(&outcome.read, &reply);
                (found, outcome.violation)
            }
        };
        self.heard += 1;
        self.by_hand += usize::from(!is_generated);
        self.conclude(request, &found, violation);
        Ok(())
    }

    /// The judge's own replay of a book, unless that is done; what it demands of
    /// itself and did not hold.
    fn replay(&mut self, case: &Arc<Case>, is_generated: bool) -> Option<String> {
        let replayed = self.replayed.as_ref();
        if replayed.is_some_and(|(latest, _)| Arc::ptr_eq(latest, case)) {
            return None;
        }
        let mut outcome = case.replay(self.options.wrong);
        if is_generated {
            self.books.count(&outcome);
        }
        let violation = outcome.violation.take();
        self.replayed = Some((Arc::clone(case), outcome));
        violation
    }

    fn conclude(&mut self, request: &Request, found: &[String], violation: Option<String>) {
        if let Some(words) = violation {
            self.violations += 1;
            if self.violations <= TOLD {
                println!("{}: the judge's own demand: {words}", request.name());
            }
        }
        if found.is_empty() {
            return;
        }
        self.differing += 1;
        if self.differing <= TOLD {
            tell(request, found);
        }
        if self.differing == 1 {
            self.options.write_dump(&request.payload());
        }
    }

    /// The tables and the summary; false if something had to be reached and was
    /// not.
    pub fn close(&self) -> bool {
        self.books.print_table();
        self.steps.second.print_table();
        self.steps.first.print_table();
        self.writings.print_table();
        self.texts.print_table();
        self.shows.print_table();
        self.jobs.print_table();
        println!("{}", self.books.summary());
        println!("{}", self.steps.second.summary());
        println!("{}", self.steps.first.summary());
        println!("{}", self.writings.summary());
        println!("{}", self.texts.summary());
        println!("{}", self.shows.summary());
        println!("{}", self.jobs.summary());
        println!(
            "{} replies, {} of them to hand-made cases and set pieces: {} differ",
            self.heard, self.by_hand, self.differing,
        );
        let in_words = self.options.is_covered_in_words(&self.texts, &self.shows);
        let by_jobs = self.options.is_covered_by_jobs(&self.jobs);
        self.options
            .is_covered(&self.books, &self.steps, &self.writings)
            && in_words
            && by_jobs
    }
}

fn tell(request: &Request, found: &[String]) {
    println!("{}:", request.name());
    for words in found.iter().take(TOLD_FIELDS) {
        println!("  {words}");
    }
    if found.len() > TOLD_FIELDS {
        println!("  and {} more", found.len() - TOLD_FIELDS);
    }
    match &request.ask {
        Ask::Replay(case, _) | Ask::Check(case) | Ask::Show(case) | Ask::Explain(case, _)
            if case.book.len() <= SHORT_BOOK =>
        {
            print!("{}", hex_dump(&case.book));
        }
        Ask::Compose(composing) if composing.text.len() <= SHORT_BOOK => {
            for line in composing.text.split_inclusive(|byte| *byte == b'\n') {
                println!("    \"{}\"", line.escape_ascii());
            }
        }
        Ask::Job(reading) if reading.text.len() <= SHORT_BOOK => {
            println!("    \"{}\"", reading.text.escape_ascii());
        }
        Ask::Step(trial) => tell_state(trial),
        Ask::Write(writing) if writing.payload().len() <= SHORT_BOOK => {
            print!("{}", hex_dump(&writing.payload()));
        }
        _ => {}
    }
}

/// The state as a hand-made case would have it, and what it breaks.
fn tell_state(trial: &Trial) {
    let figures = written(&trial.given);
    if figures.len() <= SHORT_STATE {
        println!("    fresh of blank, {}", figures.join(", "));
    }
    let outcome = trial.step(Wrong::Nothing);
    println!("    by the rules {}", named(outcome.stepped.number));
    for name in sound::names(&outcome.broken) {
        println!("    broken: {name}");
    }
}

/// Bytes in hexadecimal, 32 to a line.
fn hex_dump(bytes: &[u8]) -> String {
    let mut text = String::new();
    for line in bytes.chunks(32) {
        let bytes: Vec<String> = line.iter().map(|byte| format!("{byte:02x}")).collect();
        text += &format!("    {}\n", bytes.join(" "));
    }
    text
}
