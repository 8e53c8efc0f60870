//! RULES 14.2, 14.3 and 14.9 over the history of a run, which is the list of accepted events
//! and who ran at each: who has a lock open, by counting its takes and its returns; the sections,
//! each from a take of a lock that its task has not open to the return of the last take, with
//! the work done in it; and which section it was that held a job up. No scheduler's figures are looked at.

use crate::event::Event;
use crate::plan::{Plan, MOST_TAKES};

/// A section.
#[derive(Clone, Copy, PartialEq, Eq)]
pub struct Span {
    pub task: usize,
    pub lock: usize,
    /// The place of the event that began it.
    from: usize,
    /// How many more takes than returns there are, and the most that there were.
    pub takes: usize,
    most: usize,
    pub units: u64,
}

/// A job that goes on.
struct Job {
    released_at: usize,
    has_run: bool,
    /// The sections in each of which all work of tasks of lower base was done, each by its
    /// task, its lock and where it began; nothing before the first such work.
    held_up_in: Option<Vec<(usize, usize, usize)>>,
}

pub struct Spans<'p> {
    plan: &'p Plan,
    /// The sections that are open.
    pub open: Vec<Span>,
    /// By task, its takes, each by its lock, the oldest first.
    takes: Vec<Vec<usize>>,
    /// By task.
    jobs: Vec<Option<Job>>,
    /// Sections that have ended in which the lock was taken more than once, and how many
    /// of these ended with a lazy call of the second protocol.
    pub repeated: usize,
    pub repeated_with_call: usize,
}

/// Goes through a history. The rows are those of its events: the task that ran at an event
/// is the one that the row before names. An error says in words what the rules forbid.
pub fn over_history<'p>(
    plan: &'p Plan,
    history: &[Event],
    rows: &[u8],
) -> Result<Spans<'p>, String> {
    let mut spans = Spans {
        plan,
        open: Vec::new(),
        takes: vec![Vec::new(); plan.bases.len()],
        jobs: plan.bases.iter().map(|_| None).collect(),
        repeated: 0,
        repeated_with_call: 0,
    };
    for (at, event) in history.iter().enumerate() {
        let ran = at
            .checked_sub(1)
            .map(|before| usize::from(rows[4 * before]));
        let done = spans.take(at, *event, ran, rows[4 * at + 3] == 1);
        done.map_err(|words| format!("over the history, at event {at}: {words}"))?;
        // Whoever runs now has run.
        let runs = usize::from(rows[4 * at]);
        if let Some(Some(job)) = spans.jobs.get_mut(runs) {
            job.has_run = true;
        }
    }
    Ok(spans)
}

impl Spans<'_> {
    /// The next event. Acts are by the task that ran.
    fn take(
        &mut self,
        at: usize,
        event: Event,
        ran: Option<usize>,
        is_call: bool,
    ) -> Result<(), String> {
        match (event, ran) {
            (Event::Release(task), _) => {
                self.jobs[usize::from(task)] = Some(Job {
                    released_at: at,
                    has_run: false,
                    held_up_in: None,
                });
            }
            (Event::Acquire(lock), Some(task)) => self.begin(at, task, usize::from(lock))?,
            (Event::Unlock(lock), Some(task)) => {
                self.give_back(task, usize::from(lock), is_call)?
            }
            (Event::Work(amount), Some(task)) => {
                self.work(task, u64::from(amount))?;
                self.hold_up(task)?;
            }
            (Event::Finish, Some(task)) => {
                if let Some(span) = self.open.iter().find(|span| span.task == task) {
                    return Err(format!("task {task} finishes with lock {} open", span.lock));
                }
                self.jobs[task] = None;
            }
            _ => {}
        }
        Ok(())
    }

    /// A take: of a lock that the task has not open, which begins a section, or of one that
    /// it has. No other task may have it.
    fn begin(&mut self, at: usize, task: usize, lock: usize) -> Result<(), String> {
        self.takes[task].push(lock);
        if self.takes[task].len() > MOST_TAKES {
            return Err(format!("task {task} has more takes than can be"));
        }
        match self.open.iter_mut().find(|span| span.lock == lock) {
            Some(span) if span.task != task => {
                let other = span.task;
                return Err(format!(
                    "lock {lock} is open for {other} and {task} at once"
                ));
            }
            Some(span) => {
                span.takes += 1;
                span.most = span.most.max(span.takes);
            }
            None => self.open.push(Span {
                task,
                lock,
                from: at,
                takes: 1,
                most: 1,
                units: 0,
            }),
        }
        Ok(())
    }

    /// A return of the newest take. The last of its lock ends the section.
    fn give_back(&mut self, task: usize, lock: usize, is_call: bool) -> Result<(), String> {
        let newest = self.takes[task].pop();
        let mut spans = self.open.iter_mut();
        let span = spans.find(|span| span.lock == lock && span.task == task);
        let Some(span) = span.filter(|_| newest == Some(lock)) else {
            return Err(format!(
                "task {task} gives lock {lock} back, and its newest take is {newest:?}"
            ));
        };
        span.takes -= 1;
        if span.takes > 0 {
            return match is_call {
                true => Err(format!("lock {lock} stays open, and it is a call")),
                false => Ok(()),
            };
        }
        let is_repeated = span.most > 1;
        self.repeated += usize::from(is_repeated);
        self.repeated_with_call += usize::from(is_repeated && is_call);
        self.open.retain(|span| span.lock != lock);
        Ok(())
    }

    /// Work counts once for each section of the task that works.
    fn work(&mut self, task: usize, amount: u64) -> Result<(), String> {
        for span in self.open.iter_mut().filter(|span| span.task == task) {
            span.units += amount;
            let (lock, units) = (span.lock, span.units);
            if units > u64::from(self.plan.locks[lock].limit) {
                return Err(format!(
                    "lock {lock}'s section has {units} units, past its limit"
                ));
            }
        }
        Ok(())
    }

    /// The work of a task holds up each job of higher base. That is all in one section,
    /// which began before the release of the job, and whose lock's ceiling is at least the
    /// base of the job's task; and it comes before the job has run.
    fn hold_up(&mut self, worker: usize) -> Result<(), String> {
        let bases = &self.plan.bases;
        for (task, job) in self.jobs.iter_mut().enumerate() {
            let Some(job) = job.as_mut().filter(|_| bases[worker] < bases[task]) else {
                continue;
            };
            if job.has_run {
                return Err(format!(
                    "task {task} has run, and task {worker} holds it up"
                ));
            }
            let can_hold_up = |span: &&Span| {
                let ceiling = self.plan.locks[span.lock].ceiling;
                span.task == worker && span.from < job.released_at && ceiling >= bases[task]
            };
            let spans = self.open.iter().filter(can_hold_up);
            let mut now: Vec<_> = spans
                .map(|span| (span.task, span.lock, span.from))
                .collect();
            if let Some(before) = &job.held_up_in {
                now.retain(|span| before.contains(span));
            }
            if now.is_empty() {
                return Err(format!(
                    "no section has all the work that holds task {task} up"
                ));
            }
            job.held_up_in = Some(now);
        }
        Ok(())
    }
}
