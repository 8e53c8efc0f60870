//! What makes an event an example of the rules about a lock that is taken again: a table of
//! situations, told from the state before the event and from its answer. Generated books and
//! generated steps are counted by it, each with its own kind of state.

use crate::aims::{open_locks, times, Scene};
use crate::event::Event;
use crate::plan::{Plan, MOST_TAKES};

/// How often one book or several met the situations, and what only a history can tell.
#[derive(Clone, Copy, Default)]
pub struct Counts {
    pub met: [usize; SITUATIONS.len()],
    /// Sections that ended in which the lock was taken more than once, and those of them
    /// that ended with a call.
    pub repeated: usize,
    pub repeated_with_call: usize,
    /// Finishes that were refused right after an unlock that left its lock open.
    pub unfinished: usize,
}

impl Counts {
    pub fn meet(&mut self, is_met: [bool; SITUATIONS.len()]) {
        for (times, is_met) in self.met.iter_mut().zip(is_met) {
            *times += usize::from(is_met);
        }
    }

    pub fn add(&mut self, other: &Counts) {
        for (times, more) in self.met.iter_mut().zip(other.met) {
            *times += more;
        }
        self.repeated += other.repeated;
        self.repeated_with_call += other.repeated_with_call;
        self.unfinished += other.unfinished;
    }

    /// All of them with their names. Of those that end in a refusal a list has none whose
    /// events are all accepted.
    pub fn named(&self, with_refusals: bool) -> Vec<(&'static str, usize)> {
        let met = SITUATIONS.iter().zip(self.met);
        let met = met.filter(|(situation, _)| with_refusals || situation.is_accepted());
        let mut named: Vec<_> = met.map(|(it, times)| (it.name, times)).collect();
        named.push(("a section in which its lock is taken again", self.repeated));
        named.push((
            "such a section that ends with a call",
            self.repeated_with_call,
        ));
        if with_refusals {
            let name = "22 right after an unlock that leaves its lock open";
            named.push((name, self.unfinished));
        }
        named
    }
}

/// An event while the running task has a lock open.
pub struct Taken<'p> {
    plan: &'p Plan,
    event: Event,
    /// The takes of the running task, each by its lock, oldest first.
    takes: Vec<usize>,
    /// By the same places, the units of each lock.
    units: Vec<usize>,
    /// Whether a task of higher base is released. From a fresh start it waits for a lock
    /// that the running task has open.
    is_waited_for: bool,
}

impl<'p> Taken<'p> {
    /// Nothing where nobody runs, or who runs has no lock open.
    pub fn at(plan: &'p Plan, scene: &impl Scene, event: Event) -> Option<Taken<'p>> {
        let task = scene.running()?;
        let takes = scene.takes(task);
        if takes.is_empty() {
            return None;
        }
        let is_above = |other: &usize| plan.bases[*other] > plan.bases[task];
        let mut above = (0..plan.bases.len()).filter(is_above);
        Some(Taken {
            plan,
            event,
            units: takes.iter().map(|lock| scene.units(*lock)).collect(),
            takes,
            is_waited_for: above.any(|other| scene.is_released(other)),
        })
    }

    /// Which of the situations it is, by whether each is, given the answer to the event.
    pub fn is(&self, number: u8) -> [bool; SITUATIONS.len()] {
        SITUATIONS.map(|situation| situation.number == number && (situation.is_met)(self))
    }

    /// Whether the event gives one of several takes of a lock back, if it is accepted.
    pub fn is_in_part(&self) -> bool {
        self.in_part().is_some()
    }

    fn newest(&self) -> Option<&usize> {
        self.takes.last()
    }

    /// The lock, if the event is a take of one that is open already.
    fn again(&self) -> Option<usize> {
        let Event::Acquire(lock) = self.event else {
            return None;
        };
        Some(usize::from(lock)).filter(|lock| self.takes.contains(lock))
    }

    /// The lock and the takes that are left, if the event gives one of several back.
    fn in_part(&self) -> Option<(usize, &[usize])> {
        let Event::Unlock(lock) = self.event else {
            return None;
        };
        let (_, left) = self.takes.split_last()?;
        let lock = usize::from(lock);
        Some((lock, left)).filter(|_| left.contains(&lock))
    }

    /// Whether a work is so for a lock that is taken more than once, by the lock's units,
    /// those of the work, how often the lock is taken, and its limit.
    fn works(&self, is_so: impl Fn(usize, usize, usize, usize) -> bool) -> bool {
        let Event::Work(amount) = self.event else {
            return false;
        };
        let mut places = self.takes.iter().zip(&self.units);
        places.any(|(lock, units)| {
            let (times, limit) = (times(&self.takes, *lock), self.plan.locks[*lock].limit);
            times > 1 && is_so(*units, usize::from(amount), times, usize::from(limit))
        })
    }
}

/// A situation that an event can be, and the answer that it gets there.
#[derive(Clone, Copy)]
pub struct Situation {
    pub name: &'static str,
    number: u8,
    is_met: fn(&Taken) -> bool,
}

impl Situation {
    fn is_accepted(&self) -> bool {
        self.number == 0
    }
}

const fn on(number: u8, name: &'static str, is_met: fn(&Taken) -> bool) -> Situation {
    Situation {
        name,
        number,
        is_met,
    }
}

#[rustfmt::skip] // a line each
pub const SITUATIONS: [Situation; 20] = [
    on(0, "a lock taken again", |taken| taken.again().is_some()),
    on(0, "a lock taken again under another", again_under_another),
    on(0, "a lock taken again while a more urgent task waits", |taken| taken.again().is_some() && taken.is_waited_for),
    on(0, "a lock taken again that has units", again_with_units),
    on(0, "the eighth take of one lock", eighth_of_one),
    on(0, "the eighth take, of fewer locks", eighth_of_fewer),
    on(0, "an unlock that leaves its lock open", |taken| taken.is_in_part()),
    on(0, "an unlock that leaves its lock open under another", in_part_under_another),
    on(0, "an unlock that leaves its lock open while a more urgent task waits", in_part_waited_for),
    on(0, "an unlock that leaves its lock open, which has units", in_part_with_units),
    on(0, "work with a lock taken twice", |taken| taken.works(|_, _, _, _| true)),
    on(0, "work that would pass the limit if each take counted", passed_by_each_take),
    on(0, "work up to the limit of a lock taken twice", up_to_the_limit),
    on(18, "18 with eight takes of one lock", |taken| open_locks(&taken.takes).len() == 1),
    on(18, "18 with fewer than eight open locks", |taken| open_locks(&taken.takes).len() < MOST_TAKES),
    on(18, "18 for a lock that is open", |taken| taken.again().is_some()),
    on(18, "18 for a lock that is not", |taken| taken.again().is_none()),
    on(19, "19 for a lock taken twice, under another", older_taken_twice),
    on(21, "21 over two takes", passed_over_two_takes),
    on(22, "22 with two takes of one lock alone", |taken| taken.takes.len() > 1 && open_locks(&taken.takes).len() == 1),
];

fn again_under_another(taken: &Taken) -> bool {
    taken
        .again()
        .is_some_and(|lock| taken.newest() != Some(&lock))
}

fn in_part_waited_for(taken: &Taken) -> bool {
    taken.is_in_part() && taken.is_waited_for
}

fn in_part_under_another(taken: &Taken) -> bool {
    let in_part = taken.in_part();
    in_part.is_some_and(|(lock, left)| left.last() != Some(&lock))
}

fn passed_by_each_take(taken: &Taken) -> bool {
    taken.works(|units, more, times, limit| units + times * more > limit)
}

fn up_to_the_limit(taken: &Taken) -> bool {
    taken.works(|units, more, _, limit| units + more == limit)
}

/// Some of the units were worked before.
fn passed_over_two_takes(taken: &Taken) -> bool {
    taken.works(|units, more, _, limit| units > 0 && units + more > limit)
}

fn eighth_of_one(taken: &Taken) -> bool {
    let again = taken.again();
    again.is_some_and(|lock| times(&taken.takes, lock) + 1 == MOST_TAKES)
}

fn has_units(taken: &Taken, lock: usize) -> bool {
    let mut places = taken.takes.iter().zip(&taken.units);
    places.any(|(other, units)| *other == lock && *units > 0)
}

fn again_with_units(taken: &Taken) -> bool {
    taken.again().is_some_and(|lock| has_units(taken, lock))
}

fn in_part_with_units(taken: &Taken) -> bool {
    taken
        .in_part()
        .is_some_and(|(lock, _)| has_units(taken, lock))
}

/// Two locks or more, and one of them twice or more.
fn eighth_of_fewer(taken: &Taken) -> bool {
    let Event::Acquire(lock) = taken.event else {
        return false;
    };
    let after = [&taken.takes[..], &[usize::from(lock)]].concat();
    after.len() == MOST_TAKES && (2..MOST_TAKES).contains(&open_locks(&after).len())
}

fn older_taken_twice(taken: &Taken) -> bool {
    let Event::Unlock(lock) = taken.event else {
        return false;
    };
    times(&taken.takes, usize::from(lock)) > 1
}
