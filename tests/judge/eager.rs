//! The eager scheduler: the running task is worked out anew after each event
//! from bases, takes and release numbers. It keeps no word, no kept or saved
//! priority and no owner; nothing here is shared with the lazy scheduler.

use crate::aims::Scene;
use crate::event::Event;
use crate::plan::{Plan, MOST_ACCEPTED, MOST_TAKES};
use crate::wrong::Wrong;

/// What is known of a task from its accepted release until its accepted finish.
#[derive(Clone)]
struct Job {
    /// Which one of the accepted events, from 1, released the task.
    release_number: u32,
    /// The takes of the task, each by its lock, oldest first.
    takes: Vec<usize>,
}

#[derive(Clone)]
pub struct Eager<'p> {
    plan: &'p Plan,
    wrong: Wrong,
    accepted: u32,
    /// By task; nothing for a task that isn't released.
    jobs: Vec<Option<Job>>,
    running: Option<usize>,
    /// By lock: the units of its section, from the first take to the return of the last; 0
    /// for a closed lock.
    units: Vec<u32>,
    /// By task.
    delays: Vec<u16>,
    /// An accepted acquire or unlock is one where the priority of the task that
    /// does it is another one afterwards.
    calls: u32,
}

impl<'p> Eager<'p> {
    /// The fresh start.
    pub fn new(plan: &'p Plan, wrong: Wrong) -> Eager<'p> {
        Eager {
            plan,
            wrong,
            accepted: 0,
            jobs: plan.bases.iter().map(|_| None).collect(),
            running: None,
            units: vec![0; plan.locks.len()],
            delays: vec![0; plan.bases.len()],
            calls: 0,
        }
    }

    pub fn running(&self) -> Option<usize> {
        self.running
    }

    pub fn is_released(&self, task: usize) -> bool {
        self.jobs[task].is_some()
    }

    /// 0 for a task that isn't released.
    pub fn release_number(&self, task: usize) -> u32 {
        self.jobs[task].as_ref().map_or(0, |job| job.release_number)
    }

    /// The takes of a task, each by its lock, oldest first; none for an unreleased task.
    pub fn takes(&self, task: usize) -> &[usize] {
        self.jobs[task].as_ref().map_or(&[], |job| &job.takes)
    }

    /// A lock is open for a task that has a take of it.
    fn has_open(&self, task: usize, lock: usize) -> bool {
        self.takes(task).contains(&lock)
    }

    pub fn units(&self, lock: usize) -> u32 {
        self.units[lock]
    }

    pub fn all_units(&self) -> &[u32] {
        &self.units
    }

    pub fn delays(&self) -> &[u16] {
        &self.delays
    }

    pub fn calls(&self) -> u32 {
        self.calls
    }

    /// The base of a released task, or the greatest ceiling of its open locks
    /// where that is greater.
    pub fn priority(&self, task: usize) -> u8 {
        let ceilings = self
            .takes(task)
            .iter()
            .map(|lock| self.plan.locks[*lock].ceiling);
        ceilings.fold(self.plan.bases[task], u8::max)
    }

    /// The greatest priority among the released tasks other than the running one,
    /// 0 without one.
    pub fn greatest_other_priority(&self) -> u8 {
        (0..self.jobs.len())
            .filter(|task| self.is_released(*task) && self.running != Some(*task))
            .map(|task| self.priority(task))
            .max()
            .unwrap_or(0)
    }

    /// One event: accepted, or its refusal number and nothing changed.
    pub fn step(&mut self, event: Event) -> Result<(), u8> {
        match self.refusal(event) {
            0 => {
                self.accept(event);
                Ok(())
            }
            number => Err(number),
        }
    }

    /// The number of the first test that fails, 0 if none does. 11 and 20 come
    /// first, then 12 for an act, then the tests of each kind in the order of
    /// their numbers. 10 needs a state that wasn't reached from a fresh start,
    /// which this scheduler cannot hold.
    pub fn refusal(&self, event: Event) -> u8 {
        if self.accepted >= MOST_ACCEPTED {
            return 11;
        }
        if event == Event::Work(0) {
            return 20;
        }
        match (event, self.running) {
            (Event::Release(task), _) => self.refusal_of_release(usize::from(task)),
            (Event::Tick, _) => 0,
            // All others are acts of a running task.
            (_, None) => 12,
            (Event::Acquire(lock), Some(task)) => self.refusal_of_acquire(task, usize::from(lock)),
            (Event::Unlock(lock), Some(task)) => self.refusal_of_unlock(task, usize::from(lock)),
            (Event::Work(amount), Some(task)) => {
                let passes = |lock: usize| {
                    let limit = u32::from(self.plan.locks[lock].limit);
                    let more = self.charge(task, lock, amount);
                    more > 0 && self.units[lock] + more > limit
                };
                if (0..self.plan.locks.len()).any(passes) {
                    21
                } else {
                    0
                }
            }
            (Event::Finish, Some(task)) => {
                if self.takes(task).is_empty() {
                    0
                } else {
                    22
                }
            }
        }
    }

    fn refusal_of_release(&self, task: usize) -> u8 {
        if task >= self.plan.bases.len() {
            return 13; // no such task
        }
        if self.is_released(task) {
            return 14; // it is released already
        }
        0
    }

    fn refusal_of_acquire(&self, task: usize, lock: usize) -> u8 {
        if lock >= self.plan.locks.len() {
            return 13; // no such lock
        }
        if !self.plan.declares(task, lock) {
            return 15; // the task is no user of the lock
        }
        if self.wrong == Wrong::AgainRefused && self.has_open(task, lock) {
            return 16; // this task has it open, which is right
        }
        if (0..self.jobs.len()).any(|other| other != task && self.has_open(other, lock)) {
            return 17; // another one has it open
        }
        if self.counted(task) >= MOST_TAKES {
            return 18; // this task has no place for another take
        }
        0
    }

    /// How many takes of a task count for 18: all, also those of one lock.
    fn counted(&self, task: usize) -> usize {
        let is_open = |lock: &usize| self.has_open(task, *lock);
        match self.wrong {
            Wrong::LocksCounted => (0..self.plan.locks.len()).filter(is_open).count(),
            Wrong::OneMoreTake => self.takes(task).len().saturating_sub(1),
            _ => self.takes(task).len(),
        }
    }

    fn refusal_of_unlock(&self, task: usize, lock: usize) -> u8 {
        if lock >= self.plan.locks.len() {
            return 13; // no such lock
        }
        let may_return = match self.wrong {
            Wrong::AnyTakeReturned => self.has_open(task, lock),
            _ => self.takes(task).last() == Some(&lock),
        };
        if !may_return {
            return 19; // the newest take of this task isn't of this lock
        }
        0
    }

    /// What a work by a task is for the section of a lock: all of it where the task has
    /// the lock open, and nothing for another lock. How often it has taken the lock makes
    /// no difference.
    fn charge(&self, task: usize, lock: usize, amount: u16) -> u32 {
        let takes = self.takes(task);
        let times = match self.wrong {
            Wrong::Newest => usize::from(takes.last() == Some(&lock)),
            Wrong::ChargedByTake => takes.iter().filter(|other| **other == lock).count(),
            _ => usize::from(takes.contains(&lock)),
        };
        times as u32 * u32::from(amount)
    }

    /// The effect of an event that isn't refused.
    fn accept(&mut self, event: Event) {
        self.accepted += 1;
        let before = self.running;
        match (event, self.running) {
            (Event::Release(task), _) => {
                let task = usize::from(task);
                self.jobs[task] = Some(Job {
                    release_number: self.accepted,
                    takes: Vec::new(),
                });
                // The delay counts anew for each job.
                self.delays[task] = 0;
            }
            (Event::Acquire(lock), Some(task)) => {
                let lock = usize::from(lock);
                let priority = self.priority(task);
                let is_again = self.has_open(task, lock);
                self.takes_of(task).push(lock);
                // The first take begins a section, any other goes on with it.
                if !is_again || self.wrong == Wrong::AgainStartsAnew {
                    self.units[lock] = 0;
                }
                self.count_call(event, priority != self.priority(task), is_again);
            }
            (Event::Unlock(lock), Some(task)) => {
                let lock = usize::from(lock);
                let priority = self.priority(task);
                let takes = self.takes_of(task);
                let newest = takes.iter().rposition(|taken| *taken == lock);
                takes.remove(newest.expect("19 was not given"));
                // The last return ends the section.
                let stays_open = self.has_open(task, lock);
                if !stays_open || self.wrong == Wrong::UnitsAtFirstReturn {
                    self.units[lock] = 0;
                }
                self.count_call(event, priority != self.priority(task), stays_open);
            }
            (Event::Work(amount), Some(task)) => {
                for lock in 0..self.plan.locks.len() {
                    self.units[lock] += self.charge(task, lock, amount);
                }
                self.delay_others(task, amount);
            }
            (Event::Finish, Some(task)) => self.jobs[task] = None,
            // A tick counts as an event and does nothing else. With nobody
            // running all acts were refused.
            _ => {}
        }
        self.running = self.elect();
        if self.wrong == Wrong::Tail {
            self.put_at_tail(before);
        }
    }

    /// Counts an acquire or an unlock, given whether it changes the priority of its task,
    /// and whether another take of the lock is there too.
    fn count_call(&mut self, event: Event, changes: bool, is_one_of_several: bool) {
        if self.wrong.counts(event, changes, is_one_of_several) {
            self.calls += 1;
        }
    }

    fn takes_of(&mut self, task: usize) -> &mut Vec<usize> {
        &mut self.jobs[task]
            .as_mut()
            .expect("only a released task runs")
            .takes
    }

    /// Work delays every released task whose base is above the worker's.
    fn delay_others(&mut self, worker: usize, amount: u16) {
        for task in 0..self.jobs.len() {
            if self.is_released(task) && self.plan.bases[worker] < self.plan.bases[task] {
                self.delays[task] = self.delays[task].saturating_add(amount);
            }
        }
    }

    /// The released task of greatest priority, and of equal ones the one that
    /// was released first; nobody where none is released.
    fn elect(&self) -> Option<usize> {
        let mut best: Option<usize> = None;
        for task in (0..self.jobs.len()).filter(|task| self.is_released(*task)) {
            let better = match best {
                None => true,
                Some(other) => {
                    let (ours, theirs) = (self.priority(task), self.priority(other));
                    let earlier = self.release_number(task) < self.release_number(other);
                    ours > theirs || (ours == theirs && earlier)
                }
            };
            if better {
                best = Some(task);
            }
        }
        best
    }

    /// Only for the wrong way `tail`: the preempted task counts as if it had
    /// been released by this very event.
    fn put_at_tail(&mut self, before: Option<usize>) {
        if let Some(task) = before.filter(|task| self.running != Some(*task)) {
            if let Some(job) = self.jobs[task].as_mut() {
                job.release_number = self.accepted;
            }
        }
    }
}

impl Scene for Eager<'_> {
    fn running(&self) -> Option<usize> {
        self.running
    }

    fn is_released(&self, task: usize) -> bool {
        self.jobs[task].is_some()
    }

    fn takes(&self, task: usize) -> Vec<usize> {
        self.takes(task).to_vec()
    }

    fn units(&self, lock: usize) -> usize {
        self.units[lock] as usize
    }
}
