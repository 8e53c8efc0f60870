//! An independent judge of the scheduler project: a second reading of the rules,
//! with its own reader and writer of books and of texts, its own reader of jobs, its own
//! schedulers and its own test of soundness. It makes books, records, texts, jobs and states,
//! has the program under judgement replay, check, write, show, explain, compose, read and
//! step them, and compares every field, figure and byte of every answer with its own. It
//! shares no line with what it judges.
//!
//!     judge [OPTION..] -- COMMAND ARGS..
//!     judge --self [OPTION..]
//!     judge --kernel [OPTION..] -- KERNEL ARGS.. -- COMMAND ARGS..
//!     judge --write KIND FILE
//!     judge --report PROTOCOL FILE
//!     judge --explain PROTOCOL FILE
//!     judge --show FILE
//!     judge --compose FILE
//!     judge --ways
//!
//! With `--kernel` the program's rows are compared with what a real kernel ran. The last
//! four before `--ways` write what the program has to write for that file.
//!
//! It ends with 0 if all agrees, 3 if the program differs and nothing else is
//! amiss, 1 if the run could not do what it had to, 2 if it was called wrongly
//! or cannot start the program.

mod again;
mod aims;
mod beginnings;
mod body;
mod book;
mod book_cases;
#[rustfmt::skip] // its tables read better a line each
mod boundaries;
mod broken;
mod by_hand;
mod check;
mod compare;
mod compose;
mod composing;
mod crane;
mod cuts;
mod damage;
mod demands;
mod draft;
mod drawn;
mod eager;
mod event;
mod explain;
mod forms;
mod generate;
mod history;
mod job;
mod job_cases;
mod job_damage;
mod job_lines;
mod job_tally;
mod jobs;
mod judging;
mod kernel;
mod kernel_tally;
mod kernel_trial;
mod layout;
mod lazy;
mod lenient;
mod lists;
mod maximum_rules;
mod meanings;
mod notation;
mod own;
mod plan;
mod plans;
mod program;
mod protocol;
mod random;
mod reading;
mod record_lines;
mod refusals;
mod replay;
mod report;
mod requests;
mod resume;
mod rounds;
mod run_cases;
mod short_jobs;
mod show;
mod show_cases;
mod show_tally;
mod sound;
mod spans;
mod state_notation;
mod states;
mod step;
mod step_cases;
mod step_rules;
mod step_tally;
mod take_rules;
mod taken;
mod taken_again;
mod tally;
mod text;
mod text_cases;
mod text_damage;
mod text_tally;
mod texts;
mod trials;
mod verdict;
mod walk;
mod whole;
mod wire;
mod word_rules;
mod write_cases;
mod write_tally;
mod writer;
mod writing;
mod writings;
mod wrong;

use job_tally::JobTally;
use judging::Ending;
use protocol::{ByProtocol, Protocol, PROTOCOLS};
use requests::Amounts;
use show_tally::ShowTally;
use std::io::Write;
use std::process::ExitCode;
use step_tally::StepTally;
use tally::Tally;
use text_tally::TextTally;
use write_tally::WriteTally;
use wrong::Wrong;

const USAGE: &str = "\
usage: judge [OPTION..] -- COMMAND ARGS..
       judge --self [OPTION..]
       judge --kernel [OPTION..] -- KERNEL ARGS.. -- COMMAND ARGS..
       judge --write KIND[-TASKS] FILE
           of the kinds crane, largest (without TASKS), contended, plain, ticks, works, waits, sections, jobs, calls
       judge --report second|first FILE
       judge --explain second|first FILE
       judge --show FILE
       judge --compose FILE
       judge --ways
--seed N    of all that is generated (1)
--count N   short books (20000); of every 7 one is shown and explained, and for every 2 there is a text
--long N    books of the most events (40)
--steps N   single steps (200000)
--writes N  books to be written (10000)
--jobs N    jobs to be read (40000)
--lists N   lists for a real kernel (100)
--book FILE for a real kernel this book alone, event by event
--wrong WAY the judge itself goes wrong, in one of the ways that --ways lists
--dump FILE where the book or state of the first difference is written";

/// With so many or more, all that the rules have must be reached.
const DEFAULT: Amounts = Amounts {
    seed: 1,
    short: 20_000,
    long: 40,
    steps: 200_000,
    writings: 10_000,
    jobs: 40_000,
    lists: 100,
};

pub struct Options {
    pub amounts: Amounts,
    pub wrong: Wrong,
    pub dump: Option<String>,
    /// The book that a real kernel shall run, and no other list.
    pub book: Option<String>,
    /// The program under judgement and its arguments; before it the kernel, where
    /// one is asked.
    pub commands: Vec<Vec<String>>,
    task: Task,
}

enum Task {
    Judge,
    JudgeSelf,
    Kernel,
    /// A full-length book of this kind to this file.
    Write(String, String),
    /// The report by this protocol on the book in this file.
    Report(String, String),
    /// The report and the words after it.
    Explain(String, String),
    /// The text that shows the book in this file.
    Show(String),
    /// The book of the text in this file.
    Compose(String),
    Ways,
}

impl Options {
    /// Whether so many steps were asked for that all must be reached.
    pub fn is_full(&self) -> bool {
        self.amounts.steps >= DEFAULT.steps
    }

    /// Whether so many books were asked for that all must be reached.
    pub fn has_all_books(&self) -> bool {
        self.amounts.short >= DEFAULT.short
    }

    /// Whether so many jobs were asked for that all must be reached.
    pub fn has_all_jobs(&self) -> bool {
        self.amounts.jobs >= DEFAULT.jobs
    }

    /// Whether so many lists were asked for that all must be reached.
    pub fn has_all_lists(&self) -> bool {
        self.amounts.lists >= DEFAULT.lists
    }

    /// Writes what differed first, if that was asked for.
    pub fn write_dump(&self, bytes: &[u8]) {
        let Some(path) = &self.dump else {
            return;
        };
        match std::fs::write(path, bytes) {
            Ok(()) => println!("  what was handed in is written to {path}"),
            Err(error) => println!("  cannot write {path}: {error}"),
        }
    }

    /// Whether the generated books, steps and writings reached all that they
    /// have to. A run with fewer than the default number need not.
    pub fn is_covered(
        &self,
        books: &Tally,
        steps: &ByProtocol<StepTally>,
        writings: &WriteTally,
    ) -> bool {
        let has_all_writings = self.amounts.writings >= DEFAULT.writings;
        let by_books = is_reached("books", &books.missing(), self.has_all_books());
        let missing = [steps.second.missing(), steps.first.missing()].concat();
        let by_steps = is_reached("steps", &missing, self.is_full());
        let by_writings = is_reached("writings", &writings.missing(), has_all_writings);
        by_books && by_steps && by_writings
    }

    /// The same for the generated texts and for what was shown and explained. Their number
    /// goes by that of the books.
    pub fn is_covered_in_words(&self, texts: &TextTally, shows: &ShowTally) -> bool {
        let by_texts = is_reached("texts", &texts.missing(), self.has_all_books());
        let by_shows = is_reached("shows", &shows.missing(), self.has_all_books());
        by_texts && by_shows
    }

    /// The same for the generated jobs.
    pub fn is_covered_by_jobs(&self, jobs: &JobTally) -> bool {
        is_reached("jobs", &jobs.missing(), self.has_all_jobs())
    }
}

/// Tells what was not reached; true if nothing is, or nothing is demanded.
pub fn is_reached(by: &str, missing: &[String], is_demanded: bool) -> bool {
    if is_demanded {
        missing.iter().for_each(|what| println!("MISSING: {what}"));
    } else {
        println!("too few {by} to reach all: {} missing", missing.len());
    }
    missing.is_empty() || !is_demanded
}

fn main() -> ExitCode {
    let words: Vec<String> = std::env::args().skip(1).collect();
    let result = match options(&words) {
        Ok(options) => carry_out(&options),
        Err(error) => Err(format!("{error}\n{USAGE}")),
    };
    match result {
        Ok(Ending::Agrees) => ExitCode::SUCCESS,
        Ok(Ending::Failed) => ExitCode::from(1),
        Ok(Ending::Differs) => ExitCode::from(3),
        Err(error) => {
            eprintln!("judge: {error}");
            ExitCode::from(2)
        }
    }
}

fn carry_out(options: &Options) -> Result<Ending, String> {
    match &options.task {
        Task::Judge => judging::judge(options),
        Task::JudgeSelf => Ok(own::judge_self(options)),
        Task::Kernel => kernel::judge(options),
        Task::Write(kind, path) => write_book(kind, path),
        Task::Report(protocol, path) => report_book(protocol, path),
        Task::Explain(protocol, path) => explain_book(protocol, path),
        Task::Show(path) => {
            print!("{}", show::show(&read_file(path)?, Wrong::Nothing));
            Ok(Ending::Agrees)
        }
        Task::Compose(path) => compose_text(path),
        Task::Ways => {
            wrong::WRONG_WAYS
                .iter()
                .for_each(|(name, _)| println!("{name}"));
            Ok(Ending::Agrees)
        }
    }
}

fn options(words: &[String]) -> Result<Options, String> {
    let mut options = Options {
        amounts: DEFAULT,
        wrong: Wrong::Nothing,
        dump: None,
        book: None,
        commands: Vec::new(),
        task: Task::Judge,
    };
    let mut rest = words.iter();
    while let Some(word) = rest.next() {
        let mut value = || rest.next().ok_or(format!("{word} wants a value"));
        match word.as_str() {
            "--seed" => options.amounts.seed = number(value()?)?,
            "--count" => options.amounts.short = number(value()?)?,
            "--long" => options.amounts.long = number(value()?)?,
            "--steps" => options.amounts.steps = number(value()?)?,
            "--writes" => options.amounts.writings = number(value()?)?,
            "--jobs" => options.amounts.jobs = number(value()?)?,
            "--lists" => options.amounts.lists = number(value()?)?,
            "--wrong" => {
                let name = value()?;
                let wrong = wrong::from_name(name);
                options.wrong = wrong.ok_or(format!("no wrong way is called {name}"))?;
            }
            "--dump" => options.dump = Some(value()?.clone()),
            "--book" => options.book = Some(value()?.clone()),
            "--self" => options.task = Task::JudgeSelf,
            "--kernel" => options.task = Task::Kernel,
            "--write" => options.task = Task::Write(value()?.clone(), value()?.clone()),
            "--report" => options.task = Task::Report(value()?.clone(), value()?.clone()),
            "--explain" => options.task = Task::Explain(value()?.clone(), value()?.clone()),
            "--show" => options.task = Task::Show(value()?.clone()),
            "--compose" => options.task = Task::Compose(value()?.clone()),
            "--ways" => options.task = Task::Ways,
            "--" => {
                let commands: Vec<String> = rest.cloned().collect();
                let each = commands.split(|word| word == "--");
                options.commands = each.map(<[String]>::to_vec).collect();
                break;
            }
            _ => return Err(format!("unknown word {word}")),
        }
    }
    let wanted = match options.task {
        Task::Judge => 1,
        Task::Kernel => 2,
        _ => 0,
    };
    if options.commands.len() != wanted || options.commands.iter().any(Vec::is_empty) {
        return Err(format!("programs that are wanted after --: {wanted}"));
    }
    if options.wrong != Wrong::Nothing && !matches!(options.task, Task::Judge) {
        return Err("--wrong wants a program to judge".to_string());
    }
    Ok(options)
}

fn number(word: &str) -> Result<u64, String> {
    word.parse().map_err(|_| format!("{word} is not a number"))
}

/// `--write`: a full-length book, after a look that all of it is accepted.
fn write_book(kind: &str, path: &str) -> Result<Ending, String> {
    let case = generate::full_length(kind).ok_or(format!("no book is of kind {kind}"))?;
    let outcome = case.replay(Wrong::Nothing);
    let answers = &outcome.answers;
    if outcome.violation.is_some() || answers.second.number != 0 {
        println!("{}: refused, or {:?}", case.name, outcome.violation);
        return Ok(Ending::Failed);
    }
    std::fs::write(path, &case.book).map_err(|error| format!("cannot write {path}: {error}"))?;
    println!(
        "{}: {} bytes, {} events accepted, {} lazy ({} by the first protocol) and {} eager calls",
        case.name,
        case.book.len(),
        outcome.accepted.second,
        answers.second.lazy_calls,
        answers.first.lazy_calls,
        answers.second.eager_calls,
    );
    Ok(Ending::Agrees)
}

fn named_protocol(name: &str) -> Result<Protocol, String> {
    let named = PROTOCOLS.into_iter().find(|other| other.name() == name);
    named.ok_or(format!("no protocol is called {name}"))
}

fn read_file(path: &str) -> Result<Vec<u8>, String> {
    std::fs::read(path).map_err(|error| format!("cannot read {path}: {error}"))
}

/// `--report`: what the program has to print for a book.
fn report_book(protocol: &str, path: &str) -> Result<Ending, String> {
    let protocol = named_protocol(protocol)?;
    print!("{}", report::of_book(&read_file(path)?, protocol));
    Ok(Ending::Agrees)
}

/// `--explain`: the same, and then the words.
fn explain_book(protocol: &str, path: &str) -> Result<Ending, String> {
    let protocol = named_protocol(protocol)?;
    let book = read_file(path)?;
    let words = explain::explain(&book, protocol, Wrong::Nothing);
    print!("{}{words}", report::of_book(&book, protocol));
    Ok(Ending::Agrees)
}

/// `--compose`: the book of a text, or the line that says why there is none, to standard
/// error.
fn compose_text(path: &str) -> Result<Ending, String> {
    let composed = compose::compose(&read_file(path)?, Wrong::Nothing).composed;
    let written = std::io::stdout().write_all(&composed.book);
    written.map_err(|error| format!("cannot write the book: {error}"))?;
    if composed.line.is_empty() {
        return Ok(Ending::Agrees);
    }
    eprint!("{}", String::from_utf8_lossy(&composed.line));
    Ok(Ending::Failed)
}
