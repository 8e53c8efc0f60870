//! Counting what the lists for a real kernel reach, so that its agreement means
//! something, and the calls of all schedulers beside the kernel's own.

use crate::event::Event;
use crate::kernel_trial::Trial;
use crate::plan::{MOST_TAKES, NOBODY};
use crate::taken::Counts;
use crate::wrong::Wrong;

#[derive(Default)]
pub struct KernelTally {
    lists: usize,
    events: usize,
    /// Events after which another task runs than before, or nobody.
    switches: usize,
    /// Events after which another released task is as urgent as the running one.
    ties: usize,
    /// Unlocks of which this is so, and after which their task goes on.
    unlocks_at_ties: usize,
    /// Unlocks that are lazy calls by the second protocol: they are those after
    /// which another task runs.
    calls: usize,
    /// Events after which nobody runs.
    idle: usize,
    /// The most tasks of a plan, and the most takes that a task had.
    tasks: usize,
    nest: usize,
    /// What was met of locks that are taken again.
    taken: Counts,
}

impl KernelTally {
    /// Counts a list whose events are all accepted.
    pub fn count(&mut self, trial: &Trial) {
        let answer = &trial.answers.second;
        let tasks = answer.delays.len();
        self.lists += 1;
        self.events += trial.events.len();
        self.tasks = self.tasks.max(tasks);
        self.taken.add(&trial.case.replay(Wrong::Nothing).taken);
        let mut takes = vec![0; tasks];
        let mut before = NOBODY;
        for (event, row) in trial.events.iter().zip(answer.rows.chunks(4)) {
            let (running, user, next, call) = (row[0], row[1], row[2], row[3]);
            let is_tie = running != NOBODY && user == next;
            match event {
                Event::Acquire(_) => {
                    takes[usize::from(before)] += 1;
                    self.nest = self.nest.max(takes[usize::from(before)]);
                }
                Event::Unlock(_) => {
                    takes[usize::from(before)] -= 1;
                    self.unlocks_at_ties += usize::from(is_tie && running == before);
                }
                _ => {}
            }
            self.switches += usize::from(running != before);
            self.ties += usize::from(is_tie);
            self.calls += usize::from(call);
            self.idle += usize::from(running == NOBODY);
            before = running;
        }
    }

    /// What was not met and has to be for the comparison to mean much.
    pub fn missing(&self) -> Vec<String> {
        let wanted = [
            ("a switch", self.switches > 0),
            ("two tasks that are equally urgent", self.ties > 0),
            ("an unlock that leaves them so", self.unlocks_at_ties > 0),
            ("an unlock that is a lazy call", self.calls > 0),
            ("nobody", self.idle > 0),
            ("as many takes as can be", self.nest == MOST_TAKES),
        ];
        let taken = self.taken.named(false).into_iter();
        let taken = taken.map(|(what, times)| (what, times > 0));
        let missing = wanted.into_iter().chain(taken).filter(|(_, met)| !met);
        missing.map(|(what, _)| what.to_string()).collect()
    }

    pub fn summary(&self) -> String {
        format!(
            "{} lists of plans of up to {} tasks, {} events, {} switches ({} after an unlock), {} \
             ties ({} after an unlock), up to {} takes of a task, {} sections with a lock taken \
             again ({} end with a call)",
            self.lists,
            self.tasks,
            self.events,
            self.switches,
            self.calls,
            self.ties,
            self.unlocks_at_ties,
            self.nest,
            self.taken.repeated,
            self.taken.repeated_with_call,
        )
    }
}

/// The calls of all schedulers, and those of the kernel where they were counted.
#[derive(Clone, Copy)]
pub struct Calls {
    /// By the second protocol and by the first.
    second: u32,
    first: u32,
    eager: u32,
    pub kernel: Option<u32>,
}

impl Calls {
    pub fn of(trial: &Trial) -> Calls {
        Calls {
            second: trial.answers.second.lazy_calls,
            first: trial.answers.first.lazy_calls,
            eager: trial.answers.second.eager_calls,
            kernel: trial.run.calls,
        }
    }

    pub fn of_all(trials: &[Trial]) -> Calls {
        let none = Calls {
            second: 0,
            first: 0,
            eager: 0,
            kernel: Some(0),
        };
        trials.iter().map(Calls::of).fold(none, |sum, one| Calls {
            second: sum.second + one.second,
            first: sum.first + one.first,
            eager: sum.eager + one.eager,
            kernel: sum.kernel.zip(one.kernel).map(|(sum, one)| sum + one),
        })
    }

    /// Saved is what the second protocol leaves out of what the eager scheduler
    /// does.
    pub fn print_head() {
        println!("calls:  eager  kernel  first second  saved");
    }

    pub fn print(self, name: &str) {
        let Calls {
            second,
            first,
            eager,
            ..
        } = self;
        let kernel = self.kernel.map_or("-".to_string(), |it| it.to_string());
        let (left_out, all) = (u64::from(eager.saturating_sub(second)), u64::from(eager));
        let saved = (100 * left_out + all / 2).checked_div(all);
        let saved = saved.map_or("-".to_string(), |percent| format!("{percent} %"));
        println!("{eager:>13} {kernel:>7} {first:>6} {second:>6} {saved:>6}  {name}");
    }
}
