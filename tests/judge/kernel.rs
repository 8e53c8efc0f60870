//! `--kernel`: the same lists on a real kernel. The program under judgement gives
//! the rows of each list by both protocols, the kernel runs it, and what ran after
//! each event has to be the running task of both rows. Where the kernel's calls for another
//! priority were counted, they have to be the eager calls.
//!
//! Then the judge goes wrong in what it expects, in each way that a kernel can
//! show, and has to find that the kernel differs.

use crate::generate::Case;
use crate::is_reached;
use crate::judging::Ending;
use crate::kernel_tally::{Calls, KernelTally};
use crate::kernel_trial::Trial;
use crate::lists;
use crate::program::{Program, Replies};
use crate::protocol::{ByProtocol, Protocol, PROTOCOLS};
use crate::requests::Request;
use crate::wire::{self, SILENT};
use crate::wrong::Wrong;
use crate::Options;
use std::io;
use std::sync::Arc;

/// The wrong ways that show in what a kernel runs, by each protocol that goes wrong
/// in them, and those that show in the number of its calls alone.
const BY_RUN: [Wrong; 5] = [
    Wrong::Tail,
    Wrong::GivesWay,
    Wrong::Base,
    Wrong::ReleaseLeavesKernelWord,
    Wrong::RestoresAtOnce,
];
const BY_CALLS: [Wrong; 4] = [
    Wrong::EveryLockAct,
    Wrong::AcquiresAlone,
    Wrong::AgainIsCall,
    Wrong::InPartIsCall,
];

/// So many lists that differ are told in words.
const TOLD: usize = 5;

/// Judges what a kernel ran. An error is a program that could not be started, or
/// a book that has no list.
pub fn judge(options: &Options) -> Result<Ending, String> {
    let cases: Vec<Arc<Case>> = cases(options)?.into_iter().map(Arc::new).collect();
    let [kernel, program] = [0, 1].map(|at| &options.commands[at]);
    let answers = |protocol| {
        ask(program, &cases, protocol, |case, replies| {
            Ok((wire::read_replay(replies, case.row_space)?, true))
        })
    };
    let second = answers(Protocol::Second)?;
    let first = answers(Protocol::First)?;
    // A kernel knows neither protocol, and does not look at which one is asked.
    let runs = ask(kernel, &cases, Protocol::Second, |_, replies| {
        let run = wire::read_run(replies)?;
        // After one that had to be ended no other is tried.
        let goes_on = run.ending != SILENT;
        Ok((run, goes_on))
    })?;
    let (Some(second), Some(first), Some(runs)) = (second, first, runs) else {
        println!("FAILED");
        return Ok(Ending::Failed);
    };
    let answers = second.into_iter().zip(first);
    let answers = answers.map(|(second, first)| ByProtocol { second, first });
    let trials: Vec<Trial> = (cases.into_iter().zip(answers).zip(runs))
        .map(|((case, answers), run)| Trial {
            events: lists::events(&case),
            case,
            answers,
            run,
        })
        .collect();
    Ok(conclude(options, &trials))
}

/// The lists that are tried.
fn cases(options: &Options) -> Result<Vec<Case>, String> {
    let Some(path) = &options.book else {
        return Ok(lists::all(options.amounts.seed, options.amounts.lists));
    };
    let book = std::fs::read(path).map_err(|error| format!("cannot read {path}: {error}"))?;
    let case = lists::of_book(path, &book).ok_or(format!("{path} is refused"))?;
    Ok(vec![case])
}

/// The replies of a program that is asked to replay each list by a protocol: all,
/// or up to the first after which the reader wants no more; nothing where one did
/// not come.
fn ask<T>(
    command: &[String],
    cases: &[Arc<Case>],
    protocol: Protocol,
    read: impl Fn(&Case, &mut Replies) -> io::Result<(T, bool)>,
) -> Result<Option<Vec<T>>, String> {
    let replay = |case| Request::replay(case, protocol);
    let requests: Vec<Request> = cases.iter().map(replay).collect();
    let mut program = Program::start(command, requests.into_iter())?;
    let mut replies = Vec::new();
    let has_replied = program.hear(|_, input| {
        let (reply, goes_on) = read(&cases[replies.len()], input)?;
        replies.push(reply);
        Ok(goes_on)
    });
    if replies.len() < cases.len() {
        program.kill();
        return Ok(has_replied.then_some(replies));
    }
    Ok(program.end().then_some(replies))
}

/// The same lists without a kernel: what has to be reached and told is, by a kernel that is
/// the eager scheduler, and that counts its calls. So the lists are known to be telling
/// before a real one runs them.
pub fn is_telling_of_itself(options: &Options) -> bool {
    let cases = lists::all(options.amounts.seed, options.amounts.lists);
    let trials: Vec<Trial> = cases.into_iter().map(Trial::of_itself).collect();
    let differing = trials
        .iter()
        .filter(|it| !it.differences().is_empty())
        .count();
    println!(
        "{} lists for a real kernel: {differing} differ",
        trials.len()
    );
    is_telling(options, &trials) && differing == 0
}

fn conclude(options: &Options, trials: &[Trial]) -> Ending {
    if options.book.is_some() {
        trials.iter().for_each(Trial::show);
    }
    let differing = tell_differing(options, trials);
    if differing > 0 {
        println!("{differing} of {} lists DIFFER", trials.len());
        return Ending::Differs;
    }
    tell_calls(trials);
    if options.book.is_none() && !is_telling(options, trials) {
        println!("FAILED");
        return Ending::Failed;
    }
    println!("after every event the kernel ran the task of the program's rows");
    Ending::Agrees
}

/// How many lists differ; the first ones are told.
fn tell_differing(options: &Options, trials: &[Trial]) -> usize {
    let mut differing = 0;
    for trial in trials {
        let found = trial.differences();
        if found.is_empty() {
            continue;
        }
        differing += 1;
        if differing <= TOLD {
            println!("{}:", trial.case.name);
            found.iter().for_each(|words| println!("  {words}"));
        }
        if differing == 1 {
            options.write_dump(&trial.case.book);
        }
    }
    differing
}

/// The calls on the books of full length, and on all lists; on a single one
/// where there are no others.
fn tell_calls(trials: &[Trial]) {
    Calls::print_head();
    let is_told = |trial: &&Trial| trial.case.is_full_length() || trials.len() == 1;
    for trial in trials.iter().filter(is_told) {
        Calls::of(trial).print(&trial.case.name);
    }
    let all = Calls::of_all(trials);
    if trials.len() > 1 {
        all.print(&format!("all {} lists", trials.len()));
    }
    if all.kernel.is_none() {
        println!("the kernel's own calls were not counted: its tracing cannot be read here");
    }
}

/// Whether the lists, which agree, reach what they have to, and whether the
/// kernel differs from each judge gone wrong.
fn is_telling(options: &Options, trials: &[Trial]) -> bool {
    let mut tally = KernelTally::default();
    trials.iter().for_each(|trial| tally.count(trial));
    println!("{}", tally.summary());
    let is_covered = is_reached("lists", &tally.missing(), options.has_all_lists());
    let by_run = BY_RUN.map(|wrong| {
        let touched = PROTOCOLS.into_iter().filter(|it| wrong.touches(*it));
        let told = touched.map(|protocol| {
            let way = format!("{wrong:?} by the {} protocol", protocol.name());
            is_told(trials, &way, |trial| trial.tells_by_run(wrong, protocol))
        });
        told.fold(true, |all, told| all & told)
    });
    let has_calls = Calls::of_all(trials).kernel.is_some();
    let by_calls = BY_CALLS.map(|wrong| {
        let way = format!("{wrong:?}");
        !has_calls || is_told(trials, &way, |trial| trial.tells_by_calls(wrong))
    });
    is_covered && by_run.iter().chain(&by_calls).all(|told| *told)
}

/// Whether the kernel differs in some list from a judge gone wrong.
fn is_told(trials: &[Trial], way: &str, tells: impl Fn(&Trial) -> bool) -> bool {
    let differing = trials.iter().filter(|trial| tells(trial)).count();
    println!("gone wrong as {way}: {differing} lists differ");
    differing > 0
}
