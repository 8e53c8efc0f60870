//! Damaged books: for each of the refusals 1 to 9 and 24 the ways in which a record,
//! a contents entry, the length or the row space can be wrong, at several places
//! and also several at once, so that the order of the tests matters.

use crate::book::{entry_at, CONTENTS_BYTES, ENTRY_BYTES};
use crate::draft::Draft;
use crate::plan::{MOST_EVENTS, MOST_LOCKS, MOST_TASKS, MOST_USES};
use crate::random::Random;
use crate::wire::MOST_BYTES;

/// The numbers that a book can be damaged for, in the order of their tests.
pub const NUMBERS: [u8; 10] = [1, 2, 3, 4, 5, 6, 7, 24, 8, 9];

/// Applies the damages of these refusal numbers to a book that would be
/// accepted. The answer need not be the least of them: one damage can hide or
/// mend another. The bytes and the row space come back.
pub fn damaged(random: &mut Random, mut draft: Draft, numbers: &[u8]) -> (Vec<u8>, usize) {
    for number in numbers {
        // A count is wrong with its body, or in the contents alone.
        if *number != 2 || random.one_in(2) {
            damage_records(random, &mut draft, *number);
        }
    }
    let row_space = if numbers.contains(&9) {
        too_small(random, 4 * draft.events.len())
    } else {
        row_space(random, 4 * draft.events.len())
    };
    let mut bytes = draft.bytes();
    let grown = draft.tasks.is_empty()
        || draft.tasks.len() > MOST_TASKS
        || draft.locks.len() > MOST_LOCKS
        || draft.uses.len() > MOST_USES
        || draft.events.len() > MOST_EVENTS;
    for number in numbers {
        match number {
            2 if !grown => count_out_of_range(random, &mut bytes),
            3 => damage_contents(random, &mut bytes),
            _ => {}
        }
    }
    if numbers.contains(&1) {
        let length = match random.below(3) {
            0 => random.below(2),
            1 => ENTRY_BYTES * random.below(4),
            _ => CONTENTS_BYTES - random.between(1, 2),
        };
        bytes.truncate(length);
    }
    bytes.truncate(MOST_BYTES);
    (bytes, row_space)
}

/// Makes records that this number refuses; of the others none is in the records.
pub fn damage_records(random: &mut Random, draft: &mut Draft, number: u8) {
    match number {
        2 => grow_a_body(random, draft),
        4 => damage_task(random, draft),
        5 => damage_lock(random, draft),
        6 => damage_use(random, draft),
        7 => damage_ceiling(random, draft),
        24 => damage_maximum(random, draft),
        8 => damage_event(random, draft),
        _ => {}
    }
}

/// A row space that is enough for rows of `needed` bytes: mostly exactly so.
pub fn row_space(random: &mut Random, needed: usize) -> usize {
    match random.below(40) {
        0..=29 => needed,
        30..=33 => needed + random.between(1, 3),
        34..=38 => needed + random.between(4, 60),
        _ => random.between(needed, MOST_BYTES.max(needed)),
    }
}

/// A row space under what is needed, where that can be.
pub fn too_small(random: &mut Random, needed: usize) -> usize {
    match random.below(4) {
        0 => 0,
        1 => needed.saturating_sub(random.between(1, 4)),
        2 => random.below(needed + 1).min(needed.saturating_sub(1)),
        _ => needed.saturating_sub(1),
    }
}

/// The first, the last or any place of a row of records; 0 for an empty one.
fn some_place(random: &mut Random, count: usize) -> usize {
    match random.below(3) {
        0 => 0,
        1 => count.saturating_sub(1),
        _ => random.below(count.max(1)),
    }
}

/// 2, with bodies of matching size: none, a few more than can be, or as many as
/// a byte can or cannot count.
fn grow_a_body(random: &mut Random, draft: &mut Draft) {
    let byte = usize::from(u8::MAX);
    let mut more = |most: usize| most + random.pick(&[1, 1, 2]);
    let (tasks, locks) = (more(MOST_TASKS), more(MOST_LOCKS));
    let (uses, events) = (more(MOST_USES), more(MOST_EVENTS));
    let last_use = [(MOST_TASKS - 1) as u8, (MOST_LOCKS - 1) as u8];
    match random.below(16) {
        0..=2 => draft.tasks.clear(),
        3..=6 => {
            let count = random.pick(&[tasks, tasks, byte.max(tasks), byte + 1]);
            draft.tasks.resize(count, [1, 1]);
        }
        7..=10 => {
            let count = random.pick(&[locks, locks, byte + 1]);
            draft.locks.resize(count, [1, 0, 1, 0]);
        }
        11..=14 => draft.uses.resize(uses, last_use),
        _ => draft.events.resize(events, [6, 0, 0, 0]),
    }
}

/// 2, in the contents alone.
fn count_out_of_range(random: &mut Random, bytes: &mut [u8]) {
    let entry = random.between(1, 4);
    let least = [MOST_TASKS, MOST_LOCKS, MOST_USES, MOST_EVENTS][entry - 1] + 1;
    let count = match random.below(4) {
        0 if entry == 1 => 0,
        0 | 1 => least,
        2 => usize::from(u16::MAX),
        _ => random.between(least, usize::from(u16::MAX)),
    };
    write_count(bytes, entry, count);
}

fn write_count(bytes: &mut [u8], entry: usize, count: usize) {
    let at = entry_at(entry) + 2;
    bytes[at..at + 2].copy_from_slice(&(count as u16).to_le_bytes());
}

/// 3: kind, offset, a legal but wrong count, or the end.
fn damage_contents(random: &mut Random, bytes: &mut Vec<u8>) {
    let entry = random.between(1, 4);
    let at = entry_at(entry);
    match random.below(8) {
        0 => bytes[at] = random.below(6) as u8,
        1 => bytes[at + 1] = random.some_byte(),
        2 => bytes[at + 4] = bytes[at + 4].wrapping_add(random.pick(&[1, 2, u8::MAX, u8::MAX - 1])),
        3 => bytes[at + random.between(4, 7)] = random.byte(),
        4 => {
            let count = u16::from_le_bytes([bytes[at + 2], bytes[at + 3]]);
            let changed = if random.one_in(2) {
                count.wrapping_add(1)
            } else {
                count.max(1) - 1
            };
            write_count(bytes, entry, usize::from(changed));
        }
        5 => {
            let other = entry_at(random.between(1, 4));
            for byte in 0..ENTRY_BYTES {
                bytes.swap(at + byte, other + byte);
            }
        }
        6 => {
            let shorter = match random.below(3) {
                0 => CONTENTS_BYTES,
                1 => random.between(CONTENTS_BYTES, bytes.len()),
                _ => bytes.len() - 1,
            };
            bytes.truncate(shorter.max(CONTENTS_BYTES));
        }
        _ => {
            let spare = random.pick(&[1, 1, 2, 4, CONTENTS_BYTES]);
            let fill = random.byte();
            bytes.resize(bytes.len() + spare, fill);
        }
    }
}

/// 4: no base, or a maximum below it, often by one.
fn damage_task(random: &mut Random, draft: &mut Draft) {
    let place = some_place(random, draft.tasks.len());
    let Some([base, maximum]) = draft.tasks.get_mut(place) else {
        return;
    };
    match random.below(6) {
        0..=2 => *base = 0,
        3 | 4 => *maximum = base.saturating_sub(1),
        _ => *maximum = random.below(usize::from(*base).max(1)) as u8,
    }
}

/// 5: no ceiling, no limit, or something in the second byte.
fn damage_lock(random: &mut Random, draft: &mut Draft) {
    if draft.locks.is_empty() {
        draft.locks.push([1, 0, 1, 0]);
    }
    let place = some_place(random, draft.locks.len());
    let lock = &mut draft.locks[place];
    match random.below(3) {
        0 => lock[0] = 0,
        1 => lock[1] = random.some_byte(),
        _ => (lock[2], lock[3]) = (0, 0),
    }
}

/// 6: an unknown task or lock, a use twice, or uses in another order.
fn damage_use(random: &mut Random, draft: &mut Draft) {
    if draft.uses.is_empty() {
        draft.uses.push([0, 0]);
    }
    let (tasks, locks) = (draft.tasks.len(), draft.locks.len());
    let place = some_place(random, draft.uses.len());
    match random.below(6) {
        0 => draft.uses[place][0] = tasks.min(usize::from(u8::MAX)) as u8,
        1 => draft.uses[place][1] = locks.min(usize::from(u8::MAX)) as u8,
        2 => draft.uses[place] = [random.byte(), random.byte()],
        3 => {
            let doubled = draft.uses[place];
            draft.uses.insert(place, doubled);
        }
        4 => {
            let other = some_place(random, draft.uses.len());
            draft.uses.swap(place, other);
        }
        _ => {
            let next = (place + 1).min(draft.uses.len() - 1);
            draft.uses.swap(place, next);
        }
    }
}

/// 7: users go, or the ceiling or a base becomes another.
fn damage_ceiling(random: &mut Random, draft: &mut Draft) {
    if draft.locks.is_empty() || (random.one_in(8) && draft.locks.len() < MOST_LOCKS) {
        draft.locks.push([1, 0, 1, 0]);
        return;
    }
    let place = some_place(random, draft.locks.len());
    match random.below(7) {
        0 => draft.uses.retain(|pair| usize::from(pair[1]) != place),
        1 => draft.locks[place][0] = draft.locks[place][0].max(2) - 1,
        2 => draft.locks[place][0] = draft.locks[place][0].saturating_add(1),
        3 => draft.locks[place][0] = random.some_byte(),
        4 | 5 => leave_one_user(random, draft, place),
        _ => {
            // A base rises above the ceilings of its locks, and its maximum with it.
            let task = some_place(random, draft.tasks.len());
            if let Some([base, maximum]) = draft.tasks.get_mut(task) {
                *base = base.saturating_add(1);
                *maximum = (*maximum).max(*base);
            }
        }
    }
}

/// 7: of a lock's users one stays, mostly one whose base is the ceiling, which is
/// right then.
fn leave_one_user(random: &mut Random, draft: &mut Draft, lock: usize) {
    let ceiling = draft.locks[lock][0];
    let is_use = |pair: &&[u8; 2]| usize::from(pair[1]) == lock;
    let mut users: Vec<u8> = draft
        .uses
        .iter()
        .filter(is_use)
        .map(|pair| pair[0])
        .collect();
    if !random.one_in(3) {
        let base = |user: u8| draft.tasks.get(usize::from(user)).map(|task| task[0]);
        users.retain(|user| base(*user) == Some(ceiling));
    }
    if users.is_empty() {
        return;
    }
    let stays = random.pick(&users);
    draft
        .uses
        .retain(|pair| usize::from(pair[1]) != lock || pair[0] == stays);
}

/// 24: the maximum of a user sinks under the ceiling of its lock, often by one, and
/// not under its base. Other uses of the same task can then be at fault too.
fn damage_maximum(random: &mut Random, draft: &mut Draft) {
    let raised: Vec<[u8; 2]> = draft
        .uses
        .iter()
        .filter(|pair| raises(draft, **pair))
        .copied()
        .collect();
    let Some([task, lock]) = raised.get(some_place(random, raised.len())) else {
        add_raised_user(draft);
        return;
    };
    let ceiling = usize::from(draft.locks[usize::from(*lock)][0]);
    let [base, maximum] = &mut draft.tasks[usize::from(*task)];
    *maximum = match random.below(4) {
        0 | 1 => ceiling as u8 - 1,
        2 => *base,
        _ => random.between(usize::from(*base), ceiling - 1) as u8,
    };
}

/// Whether the lock of a use has a ceiling above the base of its task.
fn raises(draft: &Draft, [task, lock]: [u8; 2]) -> bool {
    let base = draft.tasks.get(usize::from(task)).map(|task| task[0]);
    let ceiling = draft.locks.get(usize::from(lock)).map(|lock| lock[0]);
    base.is_some() && base < ceiling
}

/// 24, where no lock raises anybody: two tasks and a lock of theirs come last, if
/// there is place, and the maximum of the one is its base.
fn add_raised_user(draft: &mut Draft) {
    let (task, lock) = (draft.tasks.len(), draft.locks.len());
    if task + 2 > MOST_TASKS || lock >= MOST_LOCKS {
        return;
    }
    draft.tasks.extend([[1, 1], [2, 2]]);
    draft.locks.push([2, 0, 1, 0]);
    draft
        .uses
        .extend([task, task + 1].map(|task| [task as u8, lock as u8]));
}

/// 8: no such kind, something in a field without use, or a work of 0.
fn damage_event(random: &mut Random, draft: &mut Draft) {
    if draft.events.is_empty() {
        draft.events.push([6, 0, 0, 0]);
    }
    let place = some_place(random, draft.events.len());
    let event = &mut draft.events[place];
    let id_is_used = (1..=3).contains(&event[0]);
    match random.below(6) {
        0 => event[0] = random.pick(&[0, 7, u8::MAX]),
        1 => event[0] = random.between(7, usize::from(u8::MAX)) as u8,
        2 => *event = [4, 0, 0, 0],
        3 if !id_is_used => event[1] = random.some_byte(),
        4 => {
            *event = [
                random.between(5, 6) as u8,
                random.below(2) as u8,
                random.byte(),
                1,
            ]
        }
        _ => {
            let kind = random.pick(&[1, 2, 3, 5, 6]);
            *event = [kind, 0, 0, 0];
            event[random.between(2, 3)] = random.some_byte();
        }
    }
}

/// One byte of the book becomes another.
pub fn change_one_byte(random: &mut Random, bytes: &mut [u8]) {
    // Half of the changes fall on the contents and the first records.
    let end = if random.one_in(2) {
        bytes.len().min(CONTENTS_BYTES + 16)
    } else {
        bytes.len()
    };
    let at = random.below(end);
    let before = bytes[at];
    bytes[at] = match random.below(5) {
        0 => 0,
        1 => u8::MAX,
        2 => before.wrapping_add(1),
        3 => before.wrapping_sub(1),
        _ => random.byte(),
    };
}

/// Bytes that were never a book.
pub fn random_bytes(random: &mut Random) -> Vec<u8> {
    let length = random.below(120);
    let small = random.one_in(2);
    (0..length)
        .map(|_| {
            if small {
                random.below(5) as u8
            } else {
                random.byte()
            }
        })
        .collect()
}

/// Right contents in front of bodies of random small bytes, so that the tests
/// 4 to 8 meet records that no other generator makes.
pub fn random_bodies(random: &mut Random) -> Draft {
    let mut draft = Draft::default();
    let mends = random.one_in(2);
    for _ in 0..random.between(1, 3) {
        let base = random.between(usize::from(mends), 3);
        let maximum = random.between(if mends { base } else { 0 }, 4);
        draft.tasks.push([base as u8, maximum as u8]);
    }
    for _ in 0..random.below(3) {
        let base = random.between(1, 3) as u8;
        draft
            .locks
            .push([base, 0, random.between(0, 6) as u8, random.below(2) as u8]);
    }
    for _ in 0..random.below(5) {
        draft
            .uses
            .push([random.below(3) as u8, random.below(2) as u8]);
    }
    if mends {
        draft.uses.sort_unstable();
        draft.uses.dedup();
    }
    for _ in 0..random.below(8) {
        let amount = if random.one_in(3) {
            random.between(0, 2) as u8
        } else {
            0
        };
        draft
            .events
            .push([random.below(8) as u8, random.below(3) as u8, amount, 0]);
    }
    if mends {
        for event in &mut draft.events {
            match event[0] {
                4 => (event[1], event[2]) = (0, event[2].max(1)),
                5 | 6 => (event[1], event[2]) = (0, 0),
                _ => event[2] = 0,
            }
        }
    }
    draft
}
