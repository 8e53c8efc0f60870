//! `--self`: the judge without a program. It runs the crane plan, all that was
//! made by hand and all that is generated through its own schedulers with all
//! demands on, and shows that each wrong way changes some answers.

use crate::by_hand::{self, tell, ByHand};
use crate::compare;
use crate::compose::MOST_TEXT;
use crate::composing::Composing;
use crate::crane;
use crate::cuts;
use crate::explain::explain;
use crate::generate::Case;
use crate::job_tally::JobTally;
use crate::jobs::LONG;
use crate::judging::Ending;
use crate::kernel;
use crate::protocol::{ByProtocol, Protocol};
use crate::reading::Reading;
use crate::requests::{self, Ask};
use crate::short_jobs;
use crate::show::show;
use crate::show_tally::ShowTally;
use crate::state_notation::reads_back;
use crate::step_tally::StepTally;
use crate::tally::Tally;
use crate::text_tally::TextTally;
use crate::trials::Trial;
use crate::wire::MOST_BYTES;
use crate::write_tally::WriteTally;
use crate::writing::Writing;
use crate::wrong::{Subject, Wrong, WRONG_WAYS};
use crate::Options;

/// Of so many generated books, steps and writings one is tried in each wrong
/// way, and a step's state written and read back.
const ONE_WRONG_IN: usize = 6;

pub fn judge_self(options: &Options) -> Ending {
    let Some(by_hand) = by_hand::read() else {
        return Ending::Failed;
    };
    let mut right = tell("runs of the crane plan and single steps", crane::test());
    right &= tell("events on words above a maximum", cuts::test());
    right &= tell("figures that are told apart", compare::test());
    right &= tell("short texts that are jobs or none", short_jobs::test());
    right &= by_hand.test();
    right &= kernel::is_telling_of_itself(options);
    let mut own = Own::new();
    own.try_by_hand(&by_hand);
    own.try_generated(options);
    right &= own.close(options);
    if !right {
        println!("FAILED");
        return Ending::Failed;
    }
    println!("the judge agrees with itself");
    Ending::Agrees
}

/// How often each wrong way gave another answer.
type Changed = [usize; WRONG_WAYS.len()];

/// Counts the wrong ways for which the answer is another one. Those of words are tried on
/// what is in words, those of jobs on jobs, and the others on all else.
fn count(changed: &mut Changed, subject: Subject, is_other: impl Fn(Wrong) -> bool) {
    for (times, (_, wrong)) in changed.iter_mut().zip(WRONG_WAYS) {
        if wrong.subject() == subject {
            *times += usize::from(is_other(wrong));
        }
    }
}

struct Own {
    books: Tally,
    steps: ByProtocol<StepTally>,
    writings: WriteTally,
    texts: TextTally,
    shows: ShowTally,
    jobs: JobTally,
    violations: usize,
    changed_by_hand: Changed,
    changed_books: Changed,
    changed_steps: Changed,
    changed_writings: Changed,
    changed_words: Changed,
    changed_jobs: Changed,
}

impl Own {
    fn new() -> Own {
        Own {
            books: Tally::default(),
            steps: ByProtocol::each(StepTally::new),
            writings: WriteTally::default(),
            texts: TextTally::new(),
            shows: ShowTally::new(),
            jobs: JobTally::new(),
            violations: 0,
            changed_by_hand: [0; WRONG_WAYS.len()],
            changed_books: [0; WRONG_WAYS.len()],
            changed_steps: [0; WRONG_WAYS.len()],
            changed_writings: [0; WRONG_WAYS.len()],
            changed_words: [0; WRONG_WAYS.len()],
            changed_jobs: [0; WRONG_WAYS.len()],
        }
    }

    fn try_by_hand(&mut self, by_hand: &ByHand) {
        for case in &by_hand.steps {
            let right = case.trial.step(Wrong::Nothing).stepped;
            let is_other = |wrong| case.trial.step(wrong).stepped != right;
            count(&mut self.changed_by_hand, Subject::Others, is_other);
        }
        for case in &by_hand.runs {
            count(&mut self.changed_by_hand, Subject::Others, |wrong| {
                case.tells(wrong)
            });
        }
        for case in &by_hand.writings {
            let right = case.writing.write(Wrong::Nothing).written;
            let is_other = |wrong| case.writing.write(wrong).written != right;
            count(&mut self.changed_by_hand, Subject::Others, is_other);
        }
        for case in &by_hand.texts {
            let right = case.composing.compose(Wrong::Nothing).composed;
            let is_other = |wrong| case.composing.compose(wrong).composed != right;
            count(&mut self.changed_by_hand, Subject::Words, is_other);
        }
        for case in &by_hand.shows {
            let is_other = |wrong| !case.wrong(wrong).is_empty();
            count(&mut self.changed_by_hand, Subject::Words, is_other);
        }
        // The longest jobs take long, and show nothing that shorter ones do not.
        let jobs = by_hand.jobs.iter();
        for case in jobs.filter(|case| case.reading.text.len() <= MOST_BYTES) {
            let right = case.reading.read(Wrong::Nothing).read;
            let is_other = |wrong| case.reading.read(wrong).read != right;
            count(&mut self.changed_by_hand, Subject::Jobs, is_other);
        }
    }

    fn try_generated(&mut self, options: &Options) {
        for (at, request) in requests::generated(options.amounts).enumerate() {
            let goes_wrong = at % ONE_WRONG_IN == 0;
            let violation = match &request.ask {
                Ask::Replay(case, Protocol::Second) => self.try_book(case, goes_wrong),
                // That was the replay by both protocols, and the reader is the
                // same as that of the replay.
                Ask::Replay(_, Protocol::First) | Ask::Check(_) => None,
                Ask::Step(trial) => self.try_step(trial, goes_wrong),
                Ask::Write(writing) => self.try_writing(writing, goes_wrong),
                Ask::Compose(composing) => self.try_composing(composing, goes_wrong),
                Ask::Show(case) => self.try_show(case, goes_wrong),
                Ask::Explain(case, protocol) => self.try_explain(case, *protocol, goes_wrong),
                Ask::Job(reading) => self.try_job(reading, goes_wrong),
            };
            if let Some(words) = violation {
                self.violations += 1;
                println!("{}: {words}", request.name());
            }
        }
    }

    fn try_book(&mut self, case: &Case, goes_wrong: bool) -> Option<String> {
        let outcome = case.replay(Wrong::Nothing);
        self.books.count(&outcome);
        if goes_wrong {
            let is_other = |wrong| case.replay(wrong).answers != outcome.answers;
            count(&mut self.changed_books, Subject::Others, is_other);
        }
        outcome.violation
    }

    fn try_step(&mut self, trial: &Trial, goes_wrong: bool) -> Option<String> {
        let outcome = trial.step(Wrong::Nothing);
        self.steps.of_mut(trial.protocol).count(trial, &outcome);
        if goes_wrong {
            let is_other = |wrong| trial.step(wrong).stepped != outcome.stepped;
            count(&mut self.changed_steps, Subject::Others, is_other);
            if !reads_back(&trial.given) {
                return Some("it is not read back from its notation".to_string());
            }
        }
        outcome.violation
    }

    fn try_writing(&mut self, writing: &Writing, goes_wrong: bool) -> Option<String> {
        let outcome = writing.write(Wrong::Nothing);
        self.writings.count(writing, &outcome);
        if goes_wrong {
            let is_other = |wrong| writing.write(wrong).written != outcome.written;
            count(&mut self.changed_writings, Subject::Others, is_other);
        }
        outcome.violation
    }

    fn try_composing(&mut self, composing: &Composing, goes_wrong: bool) -> Option<String> {
        let outcome = composing.compose(Wrong::Nothing);
        self.texts.count(composing, &outcome);
        // There are few of the longest texts, and one wrong way is about them alone.
        if goes_wrong || composing.text.len() == MOST_TEXT {
            let is_other = |wrong| composing.compose(wrong).composed != outcome.composed;
            count(&mut self.changed_words, Subject::Words, is_other);
        }
        outcome.violation
    }

    fn try_show(&mut self, case: &Case, goes_wrong: bool) -> Option<String> {
        let text = show(&case.book, Wrong::Nothing);
        self.shows.count_shown(&text);
        if goes_wrong {
            let is_other = |wrong| show(&case.book, wrong) != text;
            count(&mut self.changed_words, Subject::Words, is_other);
        }
        None
    }

    fn try_explain(&mut self, case: &Case, protocol: Protocol, goes_wrong: bool) -> Option<String> {
        let words = explain(&case.book, protocol, Wrong::Nothing);
        self.shows.count_explained(&words, protocol);
        if goes_wrong {
            let is_other = |wrong| explain(&case.book, protocol, wrong) != words;
            count(&mut self.changed_words, Subject::Words, is_other);
        }
        // The line of a refused event is never the last.
        let is_refusal = |line: &&str| line.starts_with("event ") && line.contains(": refused ");
        let last = words.lines().last().filter(is_refusal);
        last.map(|_| "it does not say why the event was refused".to_string())
    }

    fn try_job(&mut self, reading: &Reading, goes_wrong: bool) -> Option<String> {
        let outcome = reading.read(Wrong::Nothing);
        self.jobs.count(reading, &outcome);
        // The long ones take long.
        if goes_wrong && reading.sort != LONG {
            let is_other = |wrong| reading.read(wrong).read != outcome.read;
            count(&mut self.changed_jobs, Subject::Jobs, is_other);
        }
        outcome.violation
    }

    /// Tells all; false if something is wrong or was not reached.
    fn close(&self, options: &Options) -> bool {
        self.books.print_table();
        self.steps.second.print_table();
        self.steps.first.print_table();
        self.writings.print_table();
        self.texts.print_table();
        self.shows.print_table();
        self.jobs.print_table();
        println!("{}", self.books.summary());
        println!("{}", self.steps.second.summary());
        println!("{}", self.steps.first.summary());
        println!("{}", self.writings.summary());
        println!("{}", self.texts.summary());
        println!("{}", self.shows.summary());
        println!("{}", self.jobs.summary());
        println!("{} violations of the judge's own demands", self.violations);
        let is_covered = options.is_covered(&self.books, &self.steps, &self.writings);
        let in_words = options.is_covered_in_words(&self.texts, &self.shows);
        let by_jobs = options.is_covered_by_jobs(&self.jobs);
        let are_told = self.tell_wrong_ways(options);
        self.violations == 0 && is_covered && in_words && by_jobs && are_told
    }

    /// False if a wrong way changed nothing that was made by hand or, in a full
    /// run, no generated step or writing, nothing in words and no job. In books only some of
    /// them can show.
    fn tell_wrong_ways(&self, options: &Options) -> bool {
        let mut right = true;
        println!(
            "gone wrong, another answer by hand, to generated steps, writings and books, in words, to jobs:"
        );
        for (at, (name, wrong)) in WRONG_WAYS.iter().enumerate() {
            let (by_hand, books) = (self.changed_by_hand[at], self.changed_books[at]);
            let (steps, writings) = (self.changed_steps[at], self.changed_writings[at]);
            let (words, jobs) = (self.changed_words[at], self.changed_jobs[at]);
            println!(
                "  {by_hand:>4} {steps:>6} {writings:>6} {books:>6} {words:>6} {jobs:>6}  {name}"
            );
            let (is_shown, is_demanded) = match wrong.subject() {
                Subject::Words => (words > 0, options.has_all_books()),
                Subject::Jobs => (jobs > 0, options.has_all_jobs()),
                Subject::Others => (steps + writings > 0, options.is_full()),
            };
            right &= by_hand > 0 && (is_shown || !is_demanded);
        }
        right
    }
}
