//! The reader of books: refusals 1 to 7, then 24, then 8 and 9, each naming the
//! first record that breaks it. A test goes over the whole book before the next one
//! starts, so each is a function of its own. The writer has 2, 4 to 7, 24 and 8 from
//! here too.

use crate::draft::Draft;
use crate::event::Event;
use crate::plan::{Lock, Plan, MOST_EVENTS, MOST_LOCKS, MOST_TASKS, MOST_USES};
use crate::wrong::Wrong;

#[derive(Clone, Copy, Debug, PartialEq, Eq)]
pub struct Refusal {
    pub number: u8,
    pub place: u32,
}

/// A book that passed 1 to 9 and 24.
pub struct Book {
    pub plan: Plan,
    pub events: Vec<Event>,
    /// Where the event body starts.
    pub events_at: usize,
}

/// The bytes of the four entries of the contents.
pub const CONTENTS_BYTES: usize = 4 * ENTRY_BYTES;
pub const ENTRY_BYTES: usize = 8;

/// The bytes of one record in each of the four bodies.
const RECORD_BYTES: [usize; 4] = [2, 4, 2, 4];

/// The bytes of a book with as many records of each kind as can be.
pub const LARGEST_BOOK: usize = CONTENTS_BYTES
    + RECORD_BYTES[0] * MOST_TASKS
    + RECORD_BYTES[1] * MOST_LOCKS
    + RECORD_BYTES[2] * MOST_USES
    + RECORD_BYTES[3] * MOST_EVENTS;

pub fn read(bytes: &[u8], row_space: usize) -> Result<Book, Refusal> {
    read_by(bytes, row_space, Wrong::Nothing)
}

/// The same by a judge that may have gone wrong.
pub fn read_by(bytes: &[u8], row_space: usize, wrong: Wrong) -> Result<Book, Refusal> {
    test_1_length(bytes)?;
    test_2_counts(counts(bytes), wrong)?;
    let records = test_3_contents(bytes)?;
    let plan = test_plan(&records, wrong)?;
    let events = test_8_events(&records.events)?;
    if wrong == Wrong::AboveMaximumAfter8 {
        test_24_maxima(&plan, wrong)?;
    }
    test_9_row_space(row_space, events.len())?;
    let events_at = starts(records.counts())[3];
    Ok(Book {
        plan,
        events,
        events_at,
    })
}

/// The records of a book, right or wrong, in whatever number; nothing where its
/// contents don't say where they lie.
pub fn cut(bytes: &[u8]) -> Option<Draft> {
    test_1_length(bytes).ok()?;
    test_3_contents(bytes).ok()
}

/// Where the bodies start that have so many records, and where the last ends.
pub fn starts(counts: [usize; 4]) -> [usize; 5] {
    let mut starts = [CONTENTS_BYTES; 5];
    for entry in 1..=4 {
        starts[entry] = starts[entry - 1] + counts[entry - 1] * RECORD_BYTES[entry - 1];
    }
    starts
}

pub fn refuse<T>(number: u8, place: usize) -> Result<T, Refusal> {
    Err(Refusal {
        number,
        place: place as u32,
    })
}

fn two_bytes(bytes: &[u8], at: usize) -> usize {
    usize::from(u16::from_le_bytes([bytes[at], bytes[at + 1]]))
}

fn four_bytes(bytes: &[u8], at: usize) -> u64 {
    u64::from(u32::from_le_bytes([
        bytes[at],
        bytes[at + 1],
        bytes[at + 2],
        bytes[at + 3],
    ]))
}

/// Where an entry, from 1, starts.
pub fn entry_at(entry: usize) -> usize {
    ENTRY_BYTES * (entry - 1)
}

/// The counts of the four entries.
fn counts(bytes: &[u8]) -> [usize; 4] {
    [1, 2, 3, 4].map(|entry| two_bytes(bytes, entry_at(entry) + 2))
}

/// 1: the contents don't fit. The place is 0.
fn test_1_length(bytes: &[u8]) -> Result<(), Refusal> {
    if bytes.len() < CONTENTS_BYTES {
        return refuse(1, 0);
    }
    Ok(())
}

/// 2: a number of records is out of range. The range goes by the position of
/// the entry, whatever kind is written there, and the place is the entry.
pub fn test_2_counts(counts: [usize; 4], wrong: Wrong) -> Result<(), Refusal> {
    let least = [1, 0, 0, 0];
    let most = wrong.most();
    for entry in 1..=4 {
        let count = counts[entry - 1];
        if count < least[entry - 1] || count > most[entry - 1] {
            return refuse(2, entry);
        }
    }
    Ok(())
}

/// 3: an entry whose kind isn't its position or whose offset isn't the end of
/// the body before it; the place is the entry. After all four, place 5: the
/// last body ends elsewhere than the book.
fn test_3_contents(bytes: &[u8]) -> Result<Draft, Refusal> {
    let starts = starts(counts(bytes));
    for entry in 1..=4 {
        let kind = two_bytes(bytes, entry_at(entry));
        let offset = four_bytes(bytes, entry_at(entry) + 4);
        if kind != entry || offset != starts[entry - 1] as u64 {
            return refuse(3, entry);
        }
    }
    if starts[4] != bytes.len() {
        return refuse(3, 5);
    }
    Ok(Draft {
        tasks: records(&bytes[starts[0]..starts[1]]),
        locks: records(&bytes[starts[1]..starts[2]]),
        uses: records(&bytes[starts[2]..starts[3]]),
        events: records(&bytes[starts[3]..starts[4]]),
    })
}

/// A body as records of so many bytes.
fn records<const BYTES: usize>(body: &[u8]) -> Vec<[u8; BYTES]> {
    let whole = |record: &[u8]| record.try_into().expect("a whole record");
    body.chunks(BYTES).map(whole).collect()
}

/// 4 to 7 and 24: the plan that the records make.
pub fn test_plan(records: &Draft, wrong: Wrong) -> Result<Plan, Refusal> {
    let (bases, maxima) = test_4_tasks(&records.tasks, wrong)?;
    let locks = test_5_locks(&records.locks)?;
    let uses = test_6_uses(&records.uses, bases.len(), locks.len())?;
    let plan = Plan {
        bases,
        maxima,
        locks,
        uses,
    };
    if wrong == Wrong::AboveMaximumBefore7 {
        test_24_maxima(&plan, wrong)?;
    }
    test_7_ceilings(&plan, wrong)?;
    if wrong != Wrong::AboveMaximumAfter8 {
        test_24_maxima(&plan, wrong)?;
    }
    Ok(plan)
}

/// 4: a task's first byte is its base, which isn't 0; the second one is its maximum,
/// which isn't below the base. The bases come back, and the maxima.
pub fn test_4_tasks(records: &[[u8; 2]], wrong: Wrong) -> Result<(Vec<u8>, Vec<u8>), Refusal> {
    for (place, [base, maximum]) in records.iter().enumerate() {
        if *base == 0 || *maximum < wrong.least_maximum(*base) {
            return refuse(4, place);
        }
    }
    Ok(records
        .iter()
        .map(|[base, maximum]| (*base, *maximum))
        .unzip())
}

/// 5: a lock's ceiling, a byte that is 0, and its limit in two bytes; neither
/// ceiling nor limit is 0.
pub fn test_5_locks(records: &[[u8; 4]]) -> Result<Vec<Lock>, Refusal> {
    let mut locks = Vec::new();
    for (place, record) in records.iter().enumerate() {
        let lock = Lock {
            ceiling: record[0],
            limit: u16::from_le_bytes([record[2], record[3]]),
        };
        if lock.ceiling == 0 || record[1] != 0 || lock.limit == 0 {
            return refuse(5, place);
        }
        locks.push(lock);
    }
    Ok(locks)
}

/// 6: a use's task and lock are there, and each use lies after the one before
/// it, by task and then by lock. Of two uses that don't, and equal ones don't,
/// the later one is named.
pub fn test_6_uses(
    records: &[[u8; 2]],
    tasks: usize,
    locks: usize,
) -> Result<Vec<(u8, u8)>, Refusal> {
    let mut uses: Vec<(u8, u8)> = Vec::new();
    for (place, [task, lock]) in records.iter().copied().enumerate() {
        if usize::from(task) >= tasks || usize::from(lock) >= locks {
            return refuse(6, place);
        }
        if let Some((task_before, lock_before)) = uses.last() {
            let increasing = task > *task_before || (task == *task_before && lock > *lock_before);
            if !increasing {
                return refuse(6, place);
            }
        }
        uses.push((task, lock));
    }
    Ok(uses)
}

/// 7: each lock has two users or more, and the greatest base of its users is its
/// ceiling. The lock is named.
pub fn test_7_ceilings(plan: &Plan, wrong: Wrong) -> Result<(), Refusal> {
    for (place, lock) in plan.locks.iter().enumerate() {
        let bases = plan.bases_of_users(place);
        let is_shared = bases.len() >= wrong.least_users();
        if !is_shared || bases.iter().max() != Some(&lock.ceiling) {
            return refuse(7, place);
        }
    }
    Ok(())
}

/// 24: no task may take a lock whose ceiling is above its maximum; at it is right.
/// The use is named.
pub fn test_24_maxima(plan: &Plan, wrong: Wrong) -> Result<(), Refusal> {
    for (place, (task, lock)) in plan.uses.iter().enumerate() {
        let (task, lock) = (usize::from(*task), usize::from(*lock));
        let (ceiling, maximum) = (plan.locks[lock].ceiling, plan.maxima[task]);
        let is_above = match wrong {
            Wrong::AtMaximum => ceiling >= maximum,
            _ => ceiling > maximum,
        };
        if is_above {
            let is_lock_named = wrong == Wrong::AboveMaximumNamesLock;
            return refuse(24, if is_lock_named { lock } else { place });
        }
    }
    Ok(())
}

/// 8: each event is one of the six, as far as its record alone can tell. The
/// whole event body is tested before any event runs.
pub fn test_8_events(records: &[[u8; 4]]) -> Result<Vec<Event>, Refusal> {
    let mut events = Vec::new();
    for (place, record) in records.iter().enumerate() {
        match Event::from_record(*record) {
            Some(event) => events.push(event),
            None => return refuse(8, place),
        }
    }
    Ok(events)
}

/// 9: there are four bytes of row space for each event. The place is 0.
fn test_9_row_space(row_space: usize, events: usize) -> Result<(), Refusal> {
    if row_space < 4 * events {
        return refuse(9, 0);
    }
    Ok(())
}
