//! The proved replay against the same one in ordinary Rust, as it comes and with
//! the proved one's tree and shortcuts, over books of full length and by both
//! protocols: all must give the same rows and figures; then each is timed. Then
//! how the time grows, by books of the same kind with other numbers of tasks. Then
//! the books written from their records, and single steps, from states of the books
//! and from full states, one of them with locks that were taken again.
//!
//!     bench [--rounds N] BOOK.. [--growth BOOK..]
//!
//! It ends with 0 if all agree on every book, every writing and every step, else
//! with 1. Times only inform.

mod device;
mod jobs;
mod ordinary;
mod ordinary_job;
mod ordinary_step;
mod ordinary_tree;
mod ordinary_write;
mod scenes;
mod steps;
mod writes;

use ordinary::{Protocol, MOST_TASKS, ROW_SPACE};
use scenes::Scene;
use std::hint::black_box;
use std::process::ExitCode;
use std::time::Instant;

/// Replays in a round: short enough that most rounds run undisturbed.
const TURNS: u32 = 5;
const DEFAULT_ROUNDS: usize = 301;

/// The number of tasks that the time of as many as can be is compared with.
const FORMER: usize = 96;

fn main() -> ExitCode {
    let mut rounds = DEFAULT_ROUNDS;
    let mut books = Vec::new();
    let mut growing = Vec::new();
    let mut grows = false;
    let mut words = std::env::args().skip(1);
    while let Some(word) = words.next() {
        if word == "--rounds" {
            let number = words.next().and_then(|number| number.parse().ok());
            rounds = number
                .filter(|rounds| *rounds > 0)
                .unwrap_or(DEFAULT_ROUNDS);
            continue;
        }
        if word == "--growth" {
            grows = true;
            continue;
        }
        let list = if grows { &mut growing } else { &mut books };
        match std::fs::read(&word) {
            Ok(book) => list.push((short(&word).to_string(), book)),
            Err(error) => {
                eprintln!("bench: cannot read {word}: {error}");
                return ExitCode::from(2);
            }
        }
    }
    let replays_agree = replays(&books, rounds, true) & replays(&growing, rounds, false);
    let writes_agree = writes(&books, rounds);
    let jobs_agree = jobs(rounds);
    let steps_agree = steps(&books, rounds);
    ExitCode::from(u8::from(
        !(replays_agree && writes_agree && jobs_agree && steps_agree),
    ))
}

fn head(what: &str, of: &str, by: &str, rounds: usize) {
    println!("{what}: the median of {rounds} rounds (the least); the ratio of the medians");
    println!(
        "{of:<13} {by:<8} {:<7} {:>16} {:>16} {:>6}",
        "", "proved", "ordinary", "ratio"
    );
}

/// Whether all agree on the replay of every book by both protocols; its parts are
/// timed as well, or not.
fn replays(books: &[(String, Vec<u8>)], rounds: usize, parts: bool) -> bool {
    println!("ns an event: the median of {rounds} rounds (the least); the ratio of the medians");
    println!(
        "{:<13} {:<8} {:<7} {:>16} {:>16} {:>6} {:>16} {:>6}",
        "book", "protocol", "", "proved", "ordinary", "ratio", "with the tree", "ratio"
    );
    let mut agree = true;
    let mut proved = Vec::new();
    for (name, book) in books {
        let differing = |protocol| difference(protocol, book).map(|what| (protocol, what));
        match Protocol::BOTH.into_iter().find_map(differing) {
            None => proved.push((name.as_str(), measure(name, book, rounds, parts))),
            Some((protocol, what)) => {
                let by = protocol.name();
                println!("{name}: by the {by} protocol they differ in {what}");
                agree = false;
            }
        }
    }
    if !parts {
        grown(&proved);
    }
    println!();
    agree
}

/// How many times as long an event takes with as many tasks as can be as with 96,
/// by each protocol, for each kind of book that there is with both. The two books
/// are not timed in turn, so on a machine that is not idle the least says more.
fn grown(proved: &[(&str, [Figure; 2])]) {
    println!("proved, {MOST_TASKS} tasks to {FORMER}: the ratio of the medians (of the least)");
    println!("{:<13} {:>14} {:>14}", "book", "second", "first");
    for (name, after) in proved {
        let kind = name.strip_suffix(&format!("-{MOST_TASKS}"));
        let former = kind.map(|kind| format!("{kind}-{FORMER}"));
        let is_former = |other: &&(&str, _)| Some(other.0) == former.as_deref();
        if let (Some(kind), Some((_, before))) = (kind, proved.iter().find(is_former)) {
            let [second, first] = [0, 1].map(|at| after[at].ratio(before[at]));
            println!("{kind:<13} {second:>14} {first:>14}");
        }
    }
}

/// Whether both agree on every book that is written.
fn writes(books: &[(String, Vec<u8>)], rounds: usize) -> bool {
    head("ns an event", "book", "", rounds);
    let mut agree = true;
    for (name, book) in books {
        match writes::compare(book) {
            Ok(()) => writes::measure(name, book, rounds),
            Err(what) => {
                println!("{name}: the two writers differ in {what}");
                agree = false;
            }
        }
    }
    agree
}

/// Whether both agree on every job that is read.
fn jobs(rounds: usize) -> bool {
    println!();
    head("ns an event", "job", "", rounds);
    jobs::measure(rounds)
}

/// Whether both agree on every single step by both protocols: from the states of
/// the books, from full states, and from one in which locks were taken again.
fn steps(books: &[(String, Vec<u8>)], rounds: usize) -> bool {
    println!();
    head("ns a step", "states", "protocol", rounds);
    let mut agree = true;
    let mut tallies = Protocol::BOTH.map(steps::Tally::new);
    let mut try_scene = |scene: &dyn Fn(Protocol) -> Scene| {
        for tally in &mut tallies {
            let scene = scene(tally.protocol);
            match steps::compare(&scene, tally) {
                Ok(()) => steps::measure(&scene, rounds),
                Err(what) => {
                    let (name, by) = (&scene.name, scene.protocol.name());
                    println!("{name}: by the {by} protocol the two differ in {what}");
                    agree = false;
                }
            }
        }
    };
    for (name, book) in books {
        if let Ok(checked) = ordinary::check(book, ROW_SPACE) {
            try_scene(&|protocol| scenes::of_book(protocol, name, &checked));
        }
    }
    for tasks in scenes::FULL {
        try_scene(&|protocol| scenes::full(protocol, tasks));
    }
    try_scene(&|protocol| scenes::again(protocol, MOST_TASKS));
    for tally in tallies {
        let (by, steps) = (tally.protocol.name(), tally.compared());
        println!("{steps} steps compared by the {by} protocol");
        for what in tally.lacks() {
            println!("never compared by it: {what}");
            agree = false;
        }
    }
    agree
}

/// A file's name without its folder and its ending.
fn short(path: &str) -> &str {
    path.rsplit('/')
        .next()
        .unwrap_or(path)
        .trim_end_matches(".book")
}

/// What the replays of a book by a protocol differ in; and whether the book is
/// accepted, since the time of a refused one says nothing.
fn difference(protocol: Protocol, book: &[u8]) -> Option<&'static str> {
    let mut proved_rows = vec![0xEE; ROW_SPACE];
    let proved = device::replay(protocol, book, &mut proved_rows);
    let check = device::check(book, ROW_SPACE);
    for replay in [ordinary::replay, ordinary_tree::replay] {
        let mut rows = vec![0xEE; ROW_SPACE];
        let ordinary = replay(protocol, book, &mut rows);
        let refused = ordinary.refused;
        let plan = device::Plan::of(&ordinary.plan);
        let tests = [
            (
                "verdict",
                (proved.number, proved.place) == (refused.0, refused.1),
            ),
            ("acceptance", proved.number == 0),
            ("rows", proved_rows == rows),
            ("plan", proved.plan == plan),
            (
                "check",
                (check.number, check.place) == (0, 0) && check.plan == plan,
            ),
            (
                "place of the events",
                ordinary::check(book, ROW_SPACE)
                    .is_ok_and(|checked| checked.events == &book[check.events..]),
            ),
        ];
        let wrong = tests.iter().find(|(_, same)| !same).map(|(what, _)| *what);
        let wrong = wrong.or_else(|| proved.state.differs(&ordinary.state));
        if wrong.is_some() {
            return wrong;
        }
    }
    None
}

/// Times all, round by round in turn: the whole replay by each protocol, the check
/// of the book alone, and by their difference the run of the events. What the proved
/// replay takes by both protocols.
fn measure(name: &str, book: &[u8], rounds: usize, parts: bool) -> [Figure; 2] {
    let mut rows = vec![0; ROW_SPACE];
    let events = device::replay(Protocol::Second, book, &mut rows)
        .state
        .accepted;
    let mut replays = [const { [const { Vec::new() }; 3] }; 2];
    let mut checks = [const { Vec::new() }; 2];
    for _ in 0..rounds {
        let book = black_box(book);
        for (protocol, times) in Protocol::BOTH.into_iter().zip(&mut replays) {
            let protocol = black_box(protocol);
            times[0].push(time(events, TURNS, || {
                done(device::replay(protocol, book, black_box(&mut rows)))
            }));
            times[1].push(time(events, TURNS, || {
                done(ordinary::replay(protocol, book, black_box(&mut rows)))
            }));
            times[2].push(time(events, TURNS, || {
                done(ordinary_tree::replay(protocol, book, black_box(&mut rows)))
            }));
        }
        if parts {
            checks[0].push(time(events, TURNS, || {
                done(device::check(book, black_box(ROW_SPACE)))
            }));
            checks[1].push(time(events, TURNS, || {
                done(ordinary::check(book, black_box(ROW_SPACE)))
            }));
        }
    }
    let [proved_check, ordinary_check] = checks.map(Figure::of);
    let replays = replays.map(|times| times.map(Figure::of));
    for (protocol, [proved, ordinary, tree]) in Protocol::BOTH.into_iter().zip(replays) {
        report_with(name, protocol.name(), "replay", [proved, ordinary, tree]);
        if parts {
            let runs = [
                proved.less(proved_check),
                ordinary.less(ordinary_check),
                tree.less(ordinary_check),
            ];
            report_with("", "", "run", runs);
        }
    }
    if parts {
        report("", "", "check", proved_check, ordinary_check);
    }
    replays.map(|[proved, ..]| proved)
}

fn report(name: &str, by: &str, part: &str, proved: Figure, ordinary: Figure) {
    println!("{}", line(name, by, part, proved, ordinary));
}

/// The same, and the ordinary one with the tree.
fn report_with(name: &str, by: &str, part: &str, [proved, ordinary, tree]: [Figure; 3]) {
    println!(
        "{} {:>16} {:>6.2}",
        line(name, by, part, proved, ordinary),
        tree.show(),
        proved.median / tree.median
    );
}

fn line(name: &str, by: &str, part: &str, proved: Figure, ordinary: Figure) -> String {
    format!(
        "{name:<13} {by:<8} {part:<7} {:>16} {:>16} {:>6.2}",
        proved.show(),
        ordinary.show(),
        proved.median / ordinary.median
    )
}

/// The whole answer is wanted, so that no part of the work is left out.
fn done<T>(answer: T) {
    black_box(&answer);
}

/// Nanoseconds for each of so many parts of the work, which is done so many
/// times in a round.
fn time(parts: u32, turns: u32, mut work: impl FnMut()) -> f64 {
    let start = Instant::now();
    for _ in 0..turns {
        work();
    }
    start.elapsed().as_nanos() as f64 / f64::from(turns) / f64::from(parts.max(1))
}

#[derive(Clone, Copy)]
struct Figure {
    median: f64,
    least: f64,
}

impl Figure {
    /// Of the times of all rounds, or of none.
    fn of(mut times: Vec<f64>) -> Figure {
        times.sort_by(f64::total_cmp);
        Figure {
            median: times.get(times.len() / 2).copied().unwrap_or(0.0),
            least: times.first().copied().unwrap_or(0.0),
        }
    }

    fn show(self) -> String {
        let digits = if self.median < 1000.0 { 2 } else { 0 };
        format!("{:.digits$} ({:.digits$})", self.median, self.least)
    }

    fn ratio(self, other: Figure) -> String {
        let (median, least) = (self.median / other.median, self.least / other.least);
        format!("{median:.2} ({least:.2})")
    }

    fn less(self, other: Figure) -> Figure {
        Figure {
            median: self.median - other.median,
            least: self.least - other.least,
        }
    }
}
