//! The recorder's plan: tasks, locks and uses, and the bound on a task's delay;
//! and the sizes of the rules. Each size stands here and nowhere else.

/// The most records of each kind in a book. A plan has at least one task.
pub const MOST_TASKS: usize = 200;
pub const MOST_LOCKS: usize = 32;
pub const MOST_USES: usize = 6_400;
pub const MOST_EVENTS: usize = 12_000;
/// The most takes that one task may have at once, of one lock or of several.
pub const MOST_TAKES: usize = 8;
/// The most sections that stand one in another in a drawn job.
pub const MOST_NESTED: usize = 8;
/// The most events that a state may have accepted.
pub const MOST_ACCEPTED: u32 = 1_000_000;
/// The most units of a section, of one work and of a delay.
pub const MOST_UNITS: u16 = 65_535;
/// Stands where a task is named and nobody runs.
pub const NOBODY: u8 = 255;

#[derive(Clone, Copy, Debug, PartialEq, Eq)]
pub struct Lock {
    pub ceiling: u8,
    pub limit: u16,
}

/// A task or a lock is named by its place, from 0.
#[derive(Clone, Debug, PartialEq, Eq)]
pub struct Plan {
    /// The base priority of each task; of two, the greater one is more urgent.
    pub bases: Vec<u8>,
    /// The maximum of each task: the highest priority that it may ever have.
    pub maxima: Vec<u8>,
    pub locks: Vec<Lock>,
    /// Pairs of task and lock: the task may take the lock. They rise by task,
    /// and by lock for the same task.
    pub uses: Vec<(u8, u8)>,
}

impl Plan {
    /// The plan with the least maxima that the rules allow: the base of each task, or
    /// the greatest ceiling of the locks that it may take, where that is greater.
    pub fn with_least_maxima(bases: Vec<u8>, locks: Vec<Lock>, uses: Vec<(u8, u8)>) -> Plan {
        let mut maxima = bases.clone();
        for (user, used) in &uses {
            let maximum = &mut maxima[usize::from(*user)];
            *maximum = locks[usize::from(*used)].ceiling.max(*maximum);
        }
        Plan {
            bases,
            maxima,
            locks,
            uses,
        }
    }

    /// Whether the task is a user of the lock.
    pub fn declares(&self, task: usize, lock: usize) -> bool {
        self.uses.binary_search(&(task as u8, lock as u8)).is_ok()
    }

    /// The bases of the users of a lock.
    pub fn bases_of_users(&self, lock: usize) -> Vec<u8> {
        self.uses
            .iter()
            .filter(|(_, used)| usize::from(*used) == lock)
            .map(|(user, _)| self.bases[usize::from(*user)])
            .collect()
    }

    /// Only locks whose ceiling reaches the task's base and that have a user of
    /// lower base can delay it; the greatest limit of these is its bound, 0
    /// where there is no such lock.
    pub fn bound(&self, task: usize) -> u16 {
        let p = self.bases[task];
        let mut greatest = 0;
        for (user, used) in &self.uses {
            let lock = self.locks[usize::from(*used)];
            if lock.ceiling >= p && self.bases[usize::from(*user)] < p {
                greatest = greatest.max(lock.limit);
            }
        }
        greatest
    }

    pub fn bounds(&self) -> Vec<u16> {
        (0..self.bases.len()).map(|task| self.bound(task)).collect()
    }
}
