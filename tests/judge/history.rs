//! What happened in a book by one protocol, as `show` and `explain` tell it: who ran
//! before and after each accepted event, and who had taken which locks when one was
//! refused. The takes, the open sections and their units are worked out from the accepted
//! events and from who did them, and not from a scheduler's figures.

use crate::book::Book;
use crate::event::Event;
use crate::lazy::Lazy;
use crate::plan::{Plan, NOBODY};
use crate::protocol::Protocol;
use crate::wrong::Wrong;

/// An accepted event.
#[derive(Clone, Copy)]
pub struct Moment {
    pub event: Event,
    /// The task that ran before it.
    pub before: Option<usize>,
    /// The one that runs after it, and at which user word.
    pub after: Option<usize>,
    pub user_word: u8,
    pub is_call: bool,
}

/// The event that was refused.
#[derive(Clone, Copy)]
pub struct Refused {
    pub event: Event,
    pub number: u8,
    /// The task that runs.
    pub running: Option<usize>,
}

pub struct History {
    pub plan: Plan,
    pub moments: Vec<Moment>,
    pub refused: Option<Refused>,
}

/// An open section, from the first take of its lock on.
#[derive(Clone, Copy)]
pub struct Open {
    pub lock: usize,
    pub units: u64,
}

/// What a task has taken and not given back.
#[derive(Default)]
pub struct Taken {
    /// Each by its lock, the oldest first.
    pub takes: Vec<usize>,
    /// Each open lock once, however often it is taken, in the order of their first takes.
    pub open: Vec<Open>,
}

impl Taken {
    fn take(&mut self, lock: usize, wrong: Wrong) {
        self.takes.push(lock);
        let goes_on = self.open.iter_mut().find(|open| open.lock == lock);
        match goes_on {
            None => self.open.push(Open { lock, units: 0 }),
            Some(open) if wrong == Wrong::UnitsOfNewestTake => open.units = 0,
            Some(_) => {}
        }
    }

    /// The newest take is given back, which is of this lock. The section ends where no
    /// other is left.
    fn give_back(&mut self, lock: usize, wrong: Wrong) {
        self.takes.pop();
        if !self.takes.contains(&lock) {
            self.open.retain(|open| open.lock != lock);
        } else if wrong == Wrong::UnitsSinceReturn {
            let open = self.open.iter_mut().find(|open| open.lock == lock);
            open.into_iter().for_each(|open| open.units = 0);
        }
    }

    fn work(&mut self, units: u64) {
        self.open.iter_mut().for_each(|open| open.units += units);
    }

    /// The units of the section of a lock; 0 for one that is not open.
    pub fn units(&self, lock: usize) -> u64 {
        let open = self.open.iter().find(|open| open.lock == lock);
        open.map_or(0, |open| open.units)
    }
}

impl History {
    pub fn of(book: Book, protocol: Protocol, wrong: Wrong) -> History {
        let mut moments = Vec::new();
        let mut refused = None;
        let mut lazy = Lazy::new(&book.plan, protocol, wrong);
        let mut running = None;
        for event in &book.events {
            match lazy.step(*event) {
                Ok(is_call) => {
                    let [task, user_word, ..] = lazy.row(is_call);
                    let after = Some(usize::from(task)).filter(|_| task != NOBODY);
                    moments.push(Moment {
                        event: *event,
                        before: running,
                        after,
                        user_word,
                        is_call,
                    });
                    running = after;
                }
                Err(number) => {
                    refused = Some(Refused {
                        event: *event,
                        number,
                        running,
                    });
                    break;
                }
            }
        }
        History {
            plan: book.plan,
            moments,
            refused,
        }
    }

    /// What a task has taken after the last accepted event.
    pub fn taken(&self, task: usize, wrong: Wrong) -> Taken {
        let mut taken = Taken::default();
        let by_task = |moment: &&Moment| moment.before == Some(task);
        for moment in self.moments.iter().filter(by_task) {
            match moment.event {
                Event::Acquire(lock) => taken.take(usize::from(lock), wrong),
                Event::Unlock(lock) => taken.give_back(usize::from(lock), wrong),
                Event::Work(units) => taken.work(u64::from(units)),
                _ => {}
            }
        }
        taken
    }

    /// The task that has a lock open.
    pub fn holder(&self, lock: usize) -> Option<usize> {
        let has_open = |task: &usize| self.taken(*task, Wrong::Nothing).takes.contains(&lock);
        (0..self.plan.bases.len()).find(has_open)
    }
}
