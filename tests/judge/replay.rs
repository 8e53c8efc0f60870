//! The replay of a book by both protocols: the reader's tests 1 to 9 and 24, then
//! event after event until one is refused. The eager scheduler and both lazy ones take
//! each event side by side.

use crate::book::{self, Book};
use crate::demands::{self, Happened};
use crate::eager::Eager;
use crate::event::Event;
use crate::lazy::Lazy;
use crate::protocol::ByProtocol;
use crate::resume::figures;
use crate::sound;
use crate::spans;
use crate::taken::{Counts, Taken};
use crate::taken_again::{self, Before};
use crate::wrong::Wrong;

/// At about so many moments of a run an open lock is taken once more and given back, whatever
/// comes next in the list.
const TRIED_MOMENTS: usize = 64;

/// The byte that fills the row space before a replay.
pub const FILL: u8 = 0xEE;

/// All that a program under judgement has to answer for a book and a protocol.
#[derive(Clone, Debug, PartialEq, Eq)]
pub struct Answer {
    /// 0 if nothing is refused.
    pub number: u8,
    pub place: u32,
    pub lazy_calls: u32,
    pub eager_calls: u32,
    /// Of each task of the plan; none where 1 to 9 or 24 refused.
    pub delays: Vec<u16>,
    pub bounds: Vec<u16>,
    /// The whole row space.
    pub rows: Vec<u8>,
}

pub struct Outcome {
    pub answers: ByProtocol<Answer>,
    /// How many events were accepted, and how many of these were acquires or
    /// unlocks; by both protocols as many, unless the judge goes wrong.
    pub accepted: ByProtocol<usize>,
    pub lock_acts: usize,
    /// After how many of them the running task was raised to its maximum: one more
    /// would have to be cut.
    pub at_maximum: usize,
    /// What the run met of locks that are taken again; nothing where the judge goes wrong.
    pub taken: Counts,
    /// The first of the judge's own demands that did not hold, in words.
    pub violation: Option<String>,
}

pub fn replay(bytes: &[u8], row_space: usize, wrong: Wrong) -> Outcome {
    match book::read_by(bytes, row_space, wrong) {
        Ok(book) => run(&book, row_space, wrong),
        // There is no state then, and no row is written.
        Err(refusal) => Outcome {
            answers: ByProtocol::each(|_| Answer {
                number: refusal.number,
                place: refusal.place,
                lazy_calls: 0,
                eager_calls: 0,
                delays: Vec::new(),
                bounds: Vec::new(),
                rows: vec![FILL; row_space],
            }),
            accepted: ByProtocol::default(),
            lock_acts: 0,
            at_maximum: 0,
            taken: Counts::default(),
            violation: None,
        },
    }
}

/// A lazy scheduler on its way through a book.
struct Run<'p> {
    lazy: Lazy<'p>,
    bounds: &'p [u16],
    rows: Vec<u8>,
    accepted: usize,
    /// There from the first event on that is refused, or from the end.
    answer: Option<Answer>,
}

impl<'p> Run<'p> {
    fn new(lazy: Lazy<'p>, bounds: &'p [u16], row_space: usize) -> Run<'p> {
        Run {
            lazy,
            bounds,
            rows: vec![FILL; row_space],
            accepted: 0,
            answer: None,
        }
    }

    /// The next event, unless one was refused. Each accepted one writes its row;
    /// the rest of the row space keeps its fill. What it is answered, and whether
    /// it was a lazy call.
    fn take(&mut self, event: Event, eager: &Eager, by_eager: u8) -> (u8, bool) {
        if let Some(answer) = &self.answer {
            return (answer.number, false);
        }
        let by_lazy = self.lazy.step(event);
        let lazy_call = by_lazy == Ok(true);
        // In a wrong mode the two may part; then the lazy one's word counts.
        match by_lazy.err().unwrap_or(by_eager) {
            0 => {
                let at = 4 * self.accepted;
                self.rows[at..at + 4].copy_from_slice(&self.lazy.row(lazy_call));
                self.accepted += 1;
            }
            number => self.end(number, eager),
        }
        (by_lazy.err().unwrap_or(0), lazy_call)
    }

    /// The answer names the number and the place of the first event that is
    /// refused, and has the figures of the state before it. (A refused event
    /// changes nothing.)
    fn end(&mut self, number: u8, eager: &Eager) {
        let place = if number == 0 { 0 } else { self.accepted as u32 };
        self.answer = Some(Answer {
            number,
            place,
            lazy_calls: self.lazy.calls,
            eager_calls: eager.calls(),
            delays: eager.delays().to_vec(),
            bounds: self.bounds.to_vec(),
            rows: std::mem::take(&mut self.rows),
        });
    }

    /// The answer, also where nothing was refused.
    fn answer(mut self, eager: &Eager) -> Answer {
        if self.answer.is_none() {
            self.end(0, eager);
        }
        self.answer.expect("it has ended")
    }
}

fn run(book: &Book, row_space: usize, wrong: Wrong) -> Outcome {
    let bounds = book.plan.bounds();
    let mut eager = Eager::new(&book.plan, wrong);
    let mut runs = ByProtocol::each(|protocol| {
        let lazy = Lazy::new(&book.plan, protocol, wrong);
        Run::new(lazy, &bounds, row_space)
    });
    let mut violation = None;
    let mut at_maximum = 0;
    let mut taken = Counts::default();
    let mut was_in_part = false;
    for (at, event) in book.events.iter().enumerate() {
        let (eager_calls, kernel_word) = (eager.calls(), runs.first.lazy.second_word);
        let lazies = [&runs.second.lazy, &runs.first.lazy];
        let is_asked = wrong == Wrong::Nothing && violation.is_none();
        let before = is_asked
            .then(|| Before::of(*event, &eager, lazies))
            .flatten();
        let situation = is_asked
            .then(|| Taken::at(&book.plan, &eager, *event))
            .flatten();
        let by_eager = eager.step(*event).err().unwrap_or(0);
        if let Some(situation) = situation {
            taken.meet(situation.is(by_eager));
            taken.unfinished += usize::from(was_in_part && by_eager == 22);
            was_in_part = by_eager == 0 && situation.is_in_part();
        }
        let by_lazy = ByProtocol {
            second: runs.second.take(*event, &eager, by_eager),
            first: runs.first.take(*event, &eager, by_eager),
        };
        let is_accepted = by_lazy.second.0 == 0;
        at_maximum += usize::from(is_accepted && is_at_maximum(&runs.second.lazy));
        if wrong == Wrong::Nothing && violation.is_none() {
            let happened = Happened {
                event: *event,
                by_eager,
                by_lazy,
                is_eager_call: eager.calls() > eager_calls,
                kernel_word,
            };
            let lazies = [&runs.second.lazy, &runs.first.lazy];
            let is_tried = at % (1 + book.events.len() / TRIED_MOMENTS) == 0;
            violation = demands::after_event(&happened, &bounds, &eager, lazies)
                .and_then(|()| match &before {
                    Some(before) => before.demand(by_eager, &eager, lazies),
                    None => Ok(()),
                })
                .and_then(|()| match is_tried {
                    true => taken_again::at_moment(&eager, lazies),
                    false => Ok(()),
                })
                .map_err(|words| format!("at event {at}, {event:?}: {words}"))
                .err();
        }
        if runs.second.answer.is_some() && runs.first.answer.is_some() {
            break;
        }
    }
    let accepted = ByProtocol::each(|protocol| runs.of(protocol).accepted);
    if wrong == Wrong::Nothing && violation.is_none() {
        let lazies = [&runs.second.lazy, &runs.first.lazy];
        violation = lazies.iter().find_map(|lazy| is_sound(lazy).err());
    }
    let answers = ByProtocol {
        second: runs.second.answer(&eager),
        first: runs.first.answer(&eager),
    };
    let history = &book.events[..accepted.second];
    if wrong == Wrong::Nothing && violation.is_none() {
        violation = demands::after_run(book, accepted.second, &answers).err();
    }
    if wrong == Wrong::Nothing && violation.is_none() {
        let spans = spans::over_history(&book.plan, history, &answers.second.rows);
        let held = spans.and_then(|spans| {
            taken.repeated = spans.repeated;
            taken.repeated_with_call = spans.repeated_with_call;
            demands::sections_over_history(&spans, &eager, &book.plan)
        });
        violation = held.err();
    }
    Outcome {
        answers,
        lock_acts: history.iter().filter(is_lock_act).count(),
        at_maximum,
        taken,
        accepted,
        violation,
    }
}

fn is_lock_act(event: &&Event) -> bool {
    matches!(event, Event::Acquire(_) | Event::Unlock(_))
}

/// Whether a lock has raised the running task, and to its maximum.
fn is_at_maximum(lazy: &Lazy) -> bool {
    lazy.running.is_some_and(|task| {
        let (base, maximum) = (lazy.plan.bases[task], lazy.plan.maxima[task]);
        lazy.user_word.0 == maximum && base < maximum
    })
}

/// A state that is reached from a fresh start is sound.
fn is_sound(lazy: &Lazy) -> Result<(), String> {
    let broken = sound::broken(&figures(lazy), lazy.protocol);
    if broken.is_empty() {
        return Ok(());
    }
    let (protocol, names) = (lazy.protocol, sound::names(&broken));
    Err(format!(
        "the last state of the {} protocol is not sound: {names:?}",
        protocol.name()
    ))
}
