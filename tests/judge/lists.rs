//! The lists that a real kernel is asked to run: the runs of the crane plan and of the
//! paper up to what they are refused for, the benchmark's books, and generated ones. All
//! of their events are accepted.

use crate::book;
use crate::crane;
use crate::draft::Draft;
use crate::event::Event;
use crate::generate::{full_length, Case, FULL_LENGTH};
use crate::plan::Plan;
use crate::plans;
use crate::random::Random;
use crate::walk::{self, walk};
use crate::wrong::Wrong;
use std::collections::BTreeSet;

/// How many priorities there are for bases and ceilings: Linux has 99 under
/// `SCHED_FIFO`, and the driver has the least of them.
const MOST_LEVELS: usize = 98;

/// Generated lists have from one to so many events.
const MOST_EVENTS: usize = 1_200;

pub fn all(seed: u64, count: u64) -> Vec<Case> {
    let books = FULL_LENGTH.iter().filter_map(|kind| full_length(kind));
    let generated = (0..count).map(|number| list(seed, number));
    runs().chain(books).chain(generated).collect()
}

/// The runs of the crane plan, and that of the paper.
fn runs() -> impl Iterator<Item = Case> {
    let others: [(&str, &[Event]); 2] = [("nest", &crane::NEST), ("fair", &crane::FAIR)];
    let runs = crane::RUNS.into_iter().chain(crane::TAKEN_AGAIN);
    let of_crane = runs.chain(others);
    let of_crane =
        of_crane.map(|(name, events)| until_refused(name.to_string(), &crane::plan(), events));
    let name = "the paper's run".to_string();
    of_crane.chain([case(name, &crane::plan_of_paper(), &crane::RUN_OF_PAPER)])
}

/// The list of a book, up to what it is refused for; nothing for a book whose
/// events don't run at all.
pub fn of_book(name: &str, book: &[u8]) -> Option<Case> {
    let book = book::read(book, usize::MAX).ok()?;
    Some(until_refused(name.to_string(), &book.plan, &book.events))
}

fn until_refused(name: String, plan: &Plan, events: &[Event]) -> Case {
    let whole = case(name, plan, events);
    let outcome = whole.replay(Wrong::Nothing);
    let name = match outcome.answers.second.number {
        0 => whole.name,
        number => format!("{} up to its refusal {number}", whole.name),
    };
    case(name, plan, &events[..outcome.accepted.second])
}

/// The generated list of this number: small and large plans in turn, with deep
/// nests, with locks that are taken again, with tasks that wait for each other and
/// without.
fn list(seed: u64, number: u64) -> Case {
    let random = &mut Random::for_case(seed, 5, number);
    let (sort, style, make): (_, _, fn(&mut Random) -> Plan) = match number % 8 {
        0 => ("any", &walk::MIXED, plans::any),
        1 => ("any, contended", &walk::CONTENDED_AGAIN, plans::any),
        2 => ("deep", &walk::DEEP, plans::deep),
        3 => ("large, contended", &walk::CONTENDED_AGAIN, plans::contended),
        4 => ("large, plain", &walk::PLAIN_AGAIN, plans::plain),
        5 => ("any, again", &walk::AGAIN, plans::any),
        6 => ("deep, again", &walk::AGAIN, plans::deep),
        _ => ("heaped", &walk::HEAPED, plans::deep),
    };
    let mut plan = make(random);
    while levels(&plan) > MOST_LEVELS {
        plan = make(random);
    }
    let length = random.between(1, MOST_EVENTS);
    let events = walk(random, &plan, style, length, None);
    case(format!("list {number} ({sort})"), &plan, &events)
}

fn case(name: String, plan: &Plan, events: &[Event]) -> Case {
    Case {
        name,
        book: Draft::of(plan, events).bytes(),
        row_space: 4 * events.len(),
    }
}

/// How many bases the plan has; a ceiling is one of them.
fn levels(plan: &Plan) -> usize {
    plan.bases.iter().collect::<BTreeSet<_>>().len()
}

/// The events of a list.
pub fn events(case: &Case) -> Vec<Event> {
    book::read(&case.book, case.row_space)
        .map(|book| book.events)
        .unwrap_or_default()
}
