//! Lists of events, made by walking the judge's own eager scheduler: at each
//! step one of the sensible events is chosen, so that most are accepted; where
//! a refusal is wanted, the walk makes it as soon as the state allows.

use crate::aims;
use crate::eager::Eager;
use crate::event::Event;
use crate::plan::{Plan, MOST_TAKES, MOST_TASKS};
use crate::random::Random;
use crate::wrong::Wrong;

/// How strongly each sort of event is favoured; 0 for never.
pub struct Style {
    /// A take of a lock that the running task has not open.
    pub acquire: usize,
    /// A take of one that it has open.
    pub again: usize,
    pub unlock: usize,
    /// A release that waits only for the newest open lock: above the priority
    /// without that lock, not above the running task's. The unlock that closes it is
    /// a lazy call.
    pub release_behind_lock: usize,
    /// A release strictly above the running task's priority.
    pub release_above: usize,
    /// A release at the running task's priority.
    pub release_tie: usize,
    pub release_any: usize,
    pub work: usize,
    pub finish: usize,
    pub tick: usize,
    /// With so many tasks released there are no more releases but those that
    /// run at once or wait behind the newest lock; a few released tasks leave
    /// the less urgent ones room to run.
    pub most_released: usize,
    /// Whether the walk looks for locks that raise the running task, starts
    /// with the least urgent tasks, and is in haste to finish a task that
    /// nothing raises or that is one of too many.
    pub seeks_raises: bool,
}

pub const MIXED: Style = Style {
    acquire: 6,
    again: 3,
    unlock: 4,
    release_behind_lock: 3,
    release_above: 3,
    release_tie: 3,
    release_any: 3,
    work: 5,
    finish: 3,
    tick: 1,
    most_released: MOST_TASKS,
    seeks_raises: false,
};

/// Short sections with a more urgent task waiting behind each. Each lock is taken once, as
/// in the books that the benchmark has always had.
pub const CONTENDED: Style = Style {
    acquire: 12,
    again: 0,
    unlock: 10,
    release_behind_lock: 12,
    release_above: 3,
    release_tie: 3,
    release_any: 1,
    work: 4,
    finish: 4,
    tick: 1,
    most_released: 8,
    seeks_raises: true,
};

/// The same, and locks are taken again inside their sections.
pub const CONTENDED_AGAIN: Style = Style {
    again: 8,
    ..CONTENDED
};

/// Locks are taken far more often than given back, and mostly others than before.
pub const DEEP: Style = Style {
    acquire: 24,
    again: 3,
    unlock: 3,
    release_behind_lock: 2,
    release_above: 1,
    release_tie: 1,
    release_any: 1,
    work: 2,
    finish: 1,
    tick: 1,
    most_released: MOST_TASKS,
    seeks_raises: false,
};

/// Mostly release, work, finish and tick.
pub const PLAIN: Style = Style {
    acquire: 2,
    again: 0,
    unlock: 4,
    release_behind_lock: 0,
    release_above: 4,
    release_tie: 1,
    release_any: 3,
    work: 8,
    finish: 7,
    tick: 3,
    most_released: MOST_TASKS,
    seeks_raises: false,
};

/// The same, and locks are taken again.
pub const PLAIN_AGAIN: Style = Style { again: 4, ..PLAIN };

/// Few locks, which are taken again and again and given back in parts, with work between
/// and more urgent tasks behind them.
pub const AGAIN: Style = Style {
    acquire: 3,
    again: 9,
    unlock: 8,
    release_behind_lock: 3,
    release_above: 1,
    release_tie: 1,
    release_any: 1,
    work: 8,
    finish: 3,
    tick: 1,
    most_released: 4,
    seeks_raises: false,
};

/// As many takes as can be of as few locks as can be.
pub const HEAPED: Style = Style {
    acquire: 2,
    again: 40,
    unlock: 2,
    release_behind_lock: 2,
    release_above: 1,
    release_tie: 1,
    release_any: 1,
    work: 2,
    finish: 1,
    tick: 1,
    most_released: MOST_TASKS,
    seeks_raises: false,
};

/// The refusals that a walk can be asked for. 21 is there twice: there is the most to tell
/// apart of it, by nests and by takes, and many a walk never comes to a limit.
pub const WANTED: [u8; 9] = [12, 13, 14, 15, 18, 19, 21, 21, 22];

/// A refusal that a walk shall end in.
#[derive(Clone, Copy)]
pub struct Wanted {
    pub number: u8,
    /// Not before this place.
    pub from: usize,
    /// Only while the running task has as many takes as it can.
    pub with_most_takes: bool,
}

impl Wanted {
    fn is_due(&self, place: usize, eager: &Eager) -> bool {
        let takes = eager.running().map_or(0, |task| eager.takes(task).len());
        place >= self.from && (takes == MOST_TAKES || !self.with_most_takes)
    }

    /// An event that is refused as wanted, if the state has one. Mostly the walk goes on
    /// until that is of interest.
    fn event(
        &self,
        random: &mut Random,
        plan: &Plan,
        eager: &Eager,
        latest: Option<&Event>,
    ) -> Option<Event> {
        if !random.one_in(self.patience(plan, eager, latest)) {
            return None;
        }
        aims::refused(random, plan, eager, self.number)
    }

    /// Of so many such states one is taken. For 21 it is of interest that an older section
    /// is the one that would be passed, or that of a lock that is taken again; for both 21
    /// and 22 that the latest event gave a take back, and another of the same lock is left.
    fn patience(&self, plan: &Plan, eager: &Eager, latest: Option<&Event>) -> usize {
        if !matches!(self.number, 21 | 22) {
            return 1;
        }
        let takes = eager.running().map_or(&[][..], |task| eager.takes(task));
        let is_in_part = match latest {
            Some(Event::Unlock(lock)) => takes.contains(&usize::from(*lock)),
            _ => false,
        };
        let is_older = aims::outer_section_is_tightest(plan, eager);
        let is_repeated = aims::repeated_section_is_tightest(plan, eager);
        match self.number {
            21 if is_older || is_repeated && is_in_part => 1,
            21 if is_repeated => 8,
            22 if is_in_part => 1,
            _ => 20,
        }
    }
}

/// A list of `length` events. Without a wanted refusal all are accepted. With
/// one, the first place where it is due and the state allows it has an event so
/// refused; the events after it are well-formed and otherwise arbitrary.
pub fn walk(
    random: &mut Random,
    plan: &Plan,
    style: &Style,
    length: usize,
    wanted: Option<Wanted>,
) -> Vec<Event> {
    let mut eager = Eager::new(plan, Wrong::Nothing);
    let mut events = Vec::new();
    while events.len() < length {
        if let Some(wanted) = wanted.filter(|wanted| wanted.is_due(events.len(), &eager)) {
            if let Some(event) = wanted.event(random, plan, &eager, events.last()) {
                assert_eq!(eager.step(event), Err(wanted.number), "the wanted refusal");
                events.push(event);
                break;
            }
        }
        let event = sensible(random, plan, &eager, style);
        assert_eq!(eager.step(event), Ok(()), "a sensible event");
        events.push(event);
    }
    while events.len() < length {
        events.push(arbitrary(random));
    }
    events
}

/// An event of a right form, whatever the state.
fn arbitrary(random: &mut Random) -> Event {
    match random.below(6) {
        0 => Event::Release(random.below(8) as u8),
        1 => Event::Acquire(random.below(4) as u8),
        2 => Event::Unlock(random.below(4) as u8),
        3 => Event::Work(random.between(1, 6) as u16),
        4 => Event::Finish,
        _ => Event::Tick,
    }
}

/// One of the events that the state accepts, chosen by the style's weights.
fn sensible(random: &mut Random, plan: &Plan, eager: &Eager, style: &Style) -> Event {
    let mut choices: Vec<(usize, Event)> = vec![(style.tick, Event::Tick)];
    releases(random, plan, eager, style, &mut choices);
    if let Some(task) = eager.running() {
        acts(random, plan, eager, style, task, &mut choices);
    }
    let sum = choices.iter().map(|(weight, _)| weight).sum();
    let mut drawn = random.below(sum);
    for (weight, event) in choices {
        if drawn < weight {
            return event;
        }
        drawn -= weight;
    }
    unreachable!("the drawn number is below the sum of the weights")
}

/// One act of each sort that the running task may do.
fn acts(
    random: &mut Random,
    plan: &Plan,
    eager: &Eager,
    style: &Style,
    task: usize,
    choices: &mut Vec<(usize, Event)>,
) {
    let takes = eager.takes(task);
    let priority = eager.priority(task);
    let may_open: Vec<usize> = (0..plan.locks.len())
        .filter(|lock| plan.declares(task, *lock) && !takes.contains(lock))
        .collect();
    let raises: Vec<usize> = may_open
        .iter()
        .copied()
        .filter(|lock| plan.locks[*lock].ceiling > priority)
        .collect();
    if takes.len() < MOST_TAKES {
        let raising = random.pick_any(&raises).filter(|_| style.seeks_raises);
        let is_dull = style.seeks_raises && raising.is_none();
        if let Some(lock) = raising.or_else(|| random.pick_any(&may_open)) {
            let weight = style.acquire / if is_dull { 4 } else { 1 };
            choices.push((weight, Event::Acquire(lock as u8)));
        }
        if style.again > 0 && !takes.is_empty() {
            // Half of the time the newest once more, else any, be it under others.
            let newest = takes.last().copied().filter(|_| random.one_in(2));
            let lock = newest.unwrap_or_else(|| random.pick(takes));
            choices.push((style.again, Event::Acquire(lock as u8)));
        }
    }
    let released = (0..plan.bases.len())
        .filter(|other| eager.is_released(*other))
        .count();
    let is_in_haste = style.seeks_raises && (raises.is_empty() || released >= style.most_released);
    match takes.last() {
        None => {
            let weight = style.finish * if is_in_haste { 8 } else { 1 };
            choices.push((weight, Event::Finish));
        }
        Some(newest) => choices.push((style.unlock, Event::Unlock(*newest as u8))),
    }
    let room = aims::room(plan, eager, task);
    if room > 0 {
        let amount = match random.below(8) {
            0 | 1 if !takes.is_empty() => room,
            0 => random.between(1, room),
            _ => random.between(1, room.min(6)),
        };
        choices.push((style.work, Event::Work(amount as u16)));
    }
}

/// One release of each sort that the state allows.
fn releases(
    random: &mut Random,
    plan: &Plan,
    eager: &Eager,
    style: &Style,
    choices: &mut Vec<(usize, Event)>,
) {
    let waiting: Vec<usize> = (0..plan.bases.len())
        .filter(|task| !eager.is_released(*task))
        .collect();
    let mut add = |weight: usize, wanted: &dyn Fn(u8) -> bool| {
        let sort: Vec<usize> = waiting
            .iter()
            .copied()
            .filter(|task| wanted(plan.bases[*task]))
            .collect();
        if let Some(task) = random.pick_any(&sort) {
            choices.push((weight, Event::Release(task as u8)));
        }
    };
    let Some(running) = eager.running() else {
        let least = waiting
            .iter()
            .map(|task| plan.bases[*task])
            .min()
            .unwrap_or(0);
        add(20, &|base| !style.seeks_raises || base == least);
        return;
    };
    let priority = eager.priority(running);
    add(style.release_above, &|base| base > priority);
    if plan.bases.len() - waiting.len() < style.most_released {
        add(style.release_tie, &|base| base == priority);
        add(style.release_any, &|_| true);
    }
    let takes = eager.takes(running);
    if let Some(newest) = takes.last() {
        let others = takes.iter().filter(|lock| *lock != newest);
        let ceilings = others.map(|lock| plan.locks[*lock].ceiling);
        let restored = ceilings.fold(plan.bases[running], u8::max);
        add(style.release_behind_lock, &|base| {
            restored < base && base <= priority
        });
    }
}
