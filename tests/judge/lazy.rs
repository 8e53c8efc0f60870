//! The lazy scheduler, by either protocol: the user word, the second word, kept
//! priorities, saved words, switches and lazy calls, to the letter of the rules,
//! also where the running task isn't the most urgent one. It never works out a
//! priority from the takes; nothing here is shared with the eager scheduler.
//!
//! The protocols part in one place, `set_second_word`. Every kernel entry ends
//! there: a release, a finish, a tick and an unlock that calls. Nothing else sets
//! the second word. Every entry starts with `cut`, by both protocols, and nothing
//! else cuts.

use crate::event::Event;
use crate::plan::{Plan, MOST_ACCEPTED, MOST_TAKES, MOST_UNITS, NOBODY};
use crate::protocol::Protocol;
use crate::wrong::Wrong;

/// A number of user space. It is another type than the kernel's number, so that
/// the two cannot be taken for each other.
#[derive(Clone, Copy, Debug, PartialEq, Eq, PartialOrd, Ord)]
pub struct Word(pub u8);

/// A number of the kernel: the kept priority of a task.
#[derive(Clone, Copy, Debug, PartialEq, Eq, PartialOrd, Ord)]
pub struct Kept(pub u8);

/// A take: an accepted acquire whose unlock is still to come, with the user word that
/// it saved. Each take saves one, also a take of a lock that the task has open.
#[derive(Clone, Copy, PartialEq, Eq)]
pub struct Take {
    pub lock: usize,
    pub saved: Word,
}

/// The figures of one task.
#[derive(Clone, PartialEq, Eq)]
pub struct TaskFigures {
    /// 0 while the task isn't released.
    pub release_number: u32,
    /// 0 for the running task and for an unreleased one.
    pub kept: Kept,
    /// Oldest first. A lock may be in it more than once.
    pub takes: Vec<Take>,
    pub delay: u16,
}

impl TaskFigures {
    /// How many takes of a lock the task has.
    fn takes_of(&self, lock: usize) -> usize {
        self.takes.iter().filter(|take| take.lock == lock).count()
    }

    fn has_open(&self, lock: usize) -> bool {
        self.takes_of(lock) > 0
    }
}

/// The figures of one lock, from its first take to the return of its last.
#[derive(Clone, PartialEq, Eq)]
pub struct Section {
    pub holder: Option<usize>,
    pub units: u32,
}

#[derive(Clone)]
pub struct Lazy<'p> {
    pub plan: &'p Plan,
    pub protocol: Protocol,
    pub wrong: Wrong,
    pub accepted: u32,
    pub running: Option<usize>,
    pub user_word: Word,
    /// The next word or the kernel word, by the protocol.
    pub second_word: Word,
    pub tasks: Vec<TaskFigures>,
    pub sections: Vec<Section>,
    pub calls: u32,
    /// How often the eager scheduler would have called: an accepted acquire or
    /// unlock counts where the word of the task that does it changes.
    pub eager_calls: u32,
    /// How often a kernel entry has cut the user word. It is no figure of a state:
    /// from a sound one it stays 0.
    pub cuts: u32,
}

impl<'p> Lazy<'p> {
    /// The fresh start.
    pub fn new(plan: &'p Plan, protocol: Protocol, wrong: Wrong) -> Lazy<'p> {
        let figures = TaskFigures {
            release_number: 0,
            kept: Kept(0),
            takes: Vec::new(),
            delay: 0,
        };
        let closed = Section {
            holder: None,
            units: 0,
        };
        Lazy {
            plan,
            protocol,
            wrong: wrong.of(protocol),
            accepted: 0,
            running: None,
            user_word: Word(0),
            second_word: Word(0),
            tasks: vec![figures; plan.bases.len()],
            sections: vec![closed; plan.locks.len()],
            calls: 0,
            eager_calls: 0,
            cuts: 0,
        }
    }

    /// The locks that a task has open, each once, in the order of their first takes.
    fn open_locks(&self, task: usize) -> Vec<usize> {
        let mut open = Vec::new();
        for take in &self.tasks[task].takes {
            if !open.contains(&take.lock) {
                open.push(take.lock);
            }
        }
        open
    }

    /// The row that an accepted event writes: who runs, the two words, and
    /// whether it was a lazy call.
    pub fn row(&self, lazy_call: bool) -> [u8; 4] {
        let running = self.running.map_or(NOBODY, |task| task as u8);
        [
            running,
            self.user_word.0,
            self.second_word.0,
            u8::from(lazy_call),
        ]
    }

    /// One event: whether it was a lazy call, or its refusal number and nothing
    /// changed. 11 and 20 come before the tests of the event's kind.
    pub fn step(&mut self, event: Event) -> Result<bool, u8> {
        if self.accepted == MOST_ACCEPTED {
            return Err(11);
        }
        if event == Event::Work(0) && self.wrong != Wrong::No20 {
            return Err(20);
        }
        let lazy_call = match event {
            Event::Release(task) => self.release(usize::from(task))?,
            Event::Acquire(lock) => self.acquire(usize::from(lock))?,
            Event::Unlock(lock) => self.unlock(usize::from(lock))?,
            Event::Work(amount) => self.work(amount)?,
            Event::Finish => self.finish()?,
            Event::Tick => self.tick(),
        };
        self.accepted += 1;
        Ok(lazy_call)
    }

    /// 12 where nobody runs.
    fn runner(&self) -> Result<usize, u8> {
        self.running.ok_or(12)
    }

    /// Release: 13, 14.
    fn release(&mut self, task: usize) -> Result<bool, u8> {
        if task >= self.tasks.len() {
            return Err(13);
        }
        if self.tasks[task].release_number != 0 {
            return Err(14);
        }
        self.cut();
        let base = self.plan.bases[task];
        let figures = &mut self.tasks[task];
        figures.release_number = self.accepted + 1;
        figures.delay = 0;
        // What is kept for a newcomer is its base.
        figures.kept = Kept(base);
        // The kernel switches only for a base that is above the user word.
        let switches = match self.wrong {
            Wrong::ReleaseAtOrAbove => base >= self.user_word.0,
            _ => base > self.user_word.0,
        };
        match self.wrong {
            Wrong::NewcomerRuns if switches => self.switch_to(Some(task)),
            _ if switches => self.switch(),
            Wrong::ReleaseLeavesKernelWord => {}
            _ => self.set_second_word(),
        }
        Ok(false)
    }

    /// Acquire: 12, 13, 15, 17, 18. It is a take, be the lock closed or open for the task
    /// that takes it.
    fn acquire(&mut self, lock: usize) -> Result<bool, u8> {
        let task = self.runner()?;
        if lock >= self.sections.len() {
            return Err(13);
        }
        if !self.plan.declares(task, lock) {
            return Err(15);
        }
        let is_again = self.tasks[task].has_open(lock);
        if is_again && self.wrong == Wrong::AgainRefused {
            return Err(16);
        }
        let of_another = self.sections[lock].holder.is_some_and(|it| it != task);
        if of_another && self.wrong != Wrong::No17 {
            return Err(17);
        }
        if self.is_full(task) {
            return Err(18);
        }
        // The user word is saved and rises to the ceiling, if it is below it. The
        // kernel knows nothing of it, so the second word stays.
        let before = self.user_word;
        let saved = match self.wrong {
            Wrong::AgainSavesNothing if is_again => Word(0),
            _ => before,
        };
        self.tasks[task].takes.push(Take { lock, saved });
        self.user_word = before.max(Word(self.plan.locks[lock].ceiling));
        if self.wrong == Wrong::AcquireSetsKernelWord {
            self.set_second_word();
        }
        // A section starts with nothing worked. One that is open goes on.
        let section = &mut self.sections[lock];
        section.holder = Some(task);
        if !is_again || self.wrong == Wrong::AgainStartsAnew {
            section.units = 0;
        }
        let changes = self.user_word != before;
        let act = Event::Acquire(lock as u8);
        if self.wrong.counts(act, changes, is_again) {
            self.eager_calls += 1;
        }
        Ok(false)
    }

    /// Whether a task has as many takes as can be.
    fn is_full(&self, task: usize) -> bool {
        let takes = self.tasks[task].takes.len();
        match self.wrong {
            Wrong::OneMoreTake => takes > MOST_TAKES,
            Wrong::LocksCounted => self.open_locks(task).len() >= MOST_TAKES,
            _ => takes >= MOST_TAKES,
        }
    }

    /// Unlock: 12, 13, 19.
    fn unlock(&mut self, lock: usize) -> Result<bool, u8> {
        let task = self.runner()?;
        if lock >= self.sections.len() {
            return Err(13);
        }
        let at = self.take_to_return(task, lock).ok_or(19)?;
        let first = self.first_take(task, lock);
        let returned = self.tasks[task].takes.remove(at);
        // The section ends with the last take of its lock, and else it goes on.
        let stays_open = self.tasks[task].has_open(lock);
        let section = &mut self.sections[lock];
        if !stays_open || self.wrong == Wrong::UnitsAtFirstReturn {
            section.units = 0;
        }
        if !stays_open || self.wrong == Wrong::OwnerAtFirstReturn {
            section.holder = None;
        }
        let raised = self.user_word;
        self.user_word = match self.wrong {
            Wrong::Base => Word(self.plan.bases[task]),
            Wrong::RestoresAtOnce => first.saved,
            _ => returned.saved,
        };
        // After a switch the word is another task's, so this comes first.
        let changes = self.user_word != raised;
        let act = Event::Unlock(lock as u8);
        if self.wrong.counts(act, changes, stays_open) {
            self.eager_calls += 1;
        }
        // If the second word is above what was restored, this is a lazy call, and
        // the kernel switches, be it to the same task again. Else the kernel is
        // not entered, and the second word stays.
        let lazy_call = match self.wrong {
            Wrong::AtOrAbove | Wrong::GivesWay | Wrong::KernelWordAtOrAbove => {
                self.second_word >= self.user_word
            }
            _ => self.user_word < self.second_word,
        };
        if self.wrong == Wrong::GivesWay && self.user_word == self.second_word {
            self.tasks[task].release_number = self.accepted + 1;
        }
        let word_before = self.second_word;
        if lazy_call {
            self.calls += 1;
            // What the kernel finds is the word that was just put back.
            self.cut();
            self.switch();
        }
        match self.wrong {
            Wrong::CallLeavesKernelWord if lazy_call => self.second_word = word_before,
            Wrong::UnlockSetsKernelWord if !lazy_call => self.set_second_word(),
            Wrong::SameAgainUncounted if lazy_call && self.running == Some(task) => {
                self.calls -= 1;
                return Ok(false);
            }
            _ => {}
        }
        Ok(lazy_call)
    }

    /// Where in its row the take of a lock is that an unlock by the task gives back: it is
    /// the newest, and has to be of this lock.
    fn take_to_return(&self, task: usize, lock: usize) -> Option<usize> {
        let takes = &self.tasks[task].takes;
        let at = takes.iter().rposition(|take| take.lock == lock)?;
        let is_newest = at + 1 == takes.len();
        (is_newest || self.wrong == Wrong::AnyTakeReturned).then_some(at)
    }

    /// The take with which the section of a lock began that the task has open.
    fn first_take(&self, task: usize, lock: usize) -> Take {
        let mut takes = self.tasks[task].takes.iter();
        let first = takes.find(|take| take.lock == lock);
        *first.expect("the task has the lock open")
    }

    /// Work: 12, 21.
    fn work(&mut self, amount: u16) -> Result<bool, u8> {
        let worker = self.runner()?;
        let charged = self.charged(worker, u32::from(amount));
        for (lock, units) in &charged {
            let after = self.sections[*lock].units + units;
            if after > u32::from(self.plan.locks[*lock].limit) {
                return Err(21);
            }
        }
        for (lock, units) in charged {
            self.sections[lock].units += units;
        }
        self.delay_others(worker, amount);
        Ok(false)
    }

    /// What a work of so many units is in the sections that the worker has open: so many
    /// in each, however often its lock is taken.
    fn charged(&self, worker: usize, units: u32) -> Vec<(usize, u32)> {
        let figures = &self.tasks[worker];
        let newest = figures.takes.last().map(|take| take.lock);
        let mut charged = Vec::new();
        for lock in self.open_locks(worker) {
            match self.wrong {
                Wrong::Newest if newest != Some(lock) => {}
                Wrong::ChargedByTake => {
                    let times = figures.takes_of(lock) as u32;
                    charged.push((lock, times * units));
                }
                _ => charged.push((lock, units)),
            }
        }
        charged
    }

    /// Every released task of a base above the worker's is delayed; a delay
    /// stays at its greatest value when it gets there.
    fn delay_others(&mut self, worker: usize, amount: u16) {
        let base_of_worker = self.plan.bases[worker];
        if self.spares_all(base_of_worker) {
            return;
        }
        for (figures, base) in self.tasks.iter_mut().zip(&self.plan.bases) {
            if figures.release_number != 0 && base_of_worker < *base {
                let sum = u32::from(figures.delay) + u32::from(amount);
                figures.delay = match self.wrong {
                    Wrong::DelayWraps => figures.delay.wrapping_add(amount),
                    _ => sum.min(u32::from(MOST_UNITS)) as u16,
                };
            }
        }
    }

    /// Whether work by a task of this base is wrongly nobody's delay.
    fn spares_all(&self, base: u8) -> bool {
        match self.wrong {
            Wrong::SparedByOne => self.second_word.0 <= base.saturating_add(1),
            Wrong::SparedByKernelWord => self.second_word.0 <= base,
            _ => false,
        }
    }

    /// Finish: 12, 22.
    fn finish(&mut self) -> Result<bool, u8> {
        let task = self.runner()?;
        if !self.tasks[task].takes.is_empty() {
            return Err(22);
        }
        self.cut();
        // It always switches, but nothing is kept for the task that leaves: all
        // its figures are 0 now, except its delay.
        let last_word = self.user_word;
        self.tasks[task].release_number = 0;
        self.running = None;
        self.user_word = Word(0);
        self.switch();
        if self.wrong == Wrong::KeptStays {
            self.tasks[task].kept = Kept(last_word.0);
        }
        Ok(false)
    }

    /// Tick: never refused. It is a kernel entry and no more. The next word of a
    /// sound state is what it was before.
    fn tick(&mut self) -> bool {
        self.cut();
        if self.wrong != Wrong::TickLeavesKernelWord {
            self.set_second_word();
        }
        false
    }

    /// What every kernel entry does before all else: a user word above the maximum of
    /// the running task becomes that maximum. With nobody running there is none.
    fn cut(&mut self) {
        let Some(task) = self.running else {
            return;
        };
        let maximum = Word(self.plan.maxima[task]);
        if self.user_word > maximum {
            self.user_word = maximum;
            self.cuts += 1;
        }
    }

    /// The user word is kept as the priority of the task that leaves. Whoever of
    /// the released tasks has the greatest kept priority is next, and of equal
    /// ones the one released first. While a task runs, nothing is kept for it.
    fn switch(&mut self) {
        self.switch_to(None);
    }

    /// The same, or to a task that is named, which only a wrong way does.
    fn switch_to(&mut self, named: Option<usize>) {
        if let Some(leaving) = self.running {
            self.tasks[leaving].kept = Kept(self.user_word.0);
        }
        let chosen = named.or_else(|| self.elect());
        if self.wrong == Wrong::Tail && self.running != chosen {
            // The preempted task counts as if this event had released it.
            if let Some(leaving) = self.running {
                self.tasks[leaving].release_number = self.accepted + 1;
            }
        }
        let word_of_leaving = self.user_word;
        self.running = chosen;
        // From now on the user word is that of whoever runs, 0 with nobody.
        self.user_word = Word(0);
        if let Some(task) = chosen {
            self.user_word = Word(self.tasks[task].kept.0);
            self.tasks[task].kept = Kept(0);
        }
        self.set_second_word();
        if self.wrong == Wrong::KernelWordBeforeSwitch {
            self.second_word = word_of_leaving;
        }
    }

    fn elect(&self) -> Option<usize> {
        let mut chosen: Option<usize> = None;
        for (task, figures) in self.tasks.iter().enumerate() {
            if figures.release_number == 0 {
                continue;
            }
            let wins = chosen.is_none_or(|other| {
                let rival = &self.tasks[other];
                figures.kept > rival.kept
                    || (figures.kept == rival.kept && figures.release_number < rival.release_number)
            });
            if wins {
                chosen = Some(task);
            }
        }
        chosen
    }

    /// What every kernel entry leaves in the second word, after any switch.
    ///
    /// The next word tells how urgent the most urgent waiting task is, 0 without
    /// one: it is the greatest of all kept priorities, since nothing is kept for
    /// the running task nor for an unreleased one. The kernel word is the user
    /// word of the task that runs now, 0 with nobody.
    fn set_second_word(&mut self) {
        self.second_word = match self.protocol {
            Protocol::Second => {
                let greatest = self.tasks.iter().map(|figures| figures.kept).max();
                Word(greatest.unwrap_or(Kept(0)).0)
            }
            Protocol::First => self.user_word,
        };
    }
}
