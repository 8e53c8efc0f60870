//! Books that are written by both: the same answer and the same buffer, for the
//! books themselves and for records that each number refuses; then their times.

use crate::device;
use crate::ordinary::Refused;
use crate::ordinary_write::{self, Records};
use crate::{done, report, time, Figure, TURNS};
use std::hint::black_box;

/// What stands in a buffer before a book is written.
const FILLED: u8 = 0xEE;

/// What the two differ in, of the records of a book and of changed ones.
pub fn compare(book: &[u8]) -> Result<(), String> {
    let records = Records::of(book);
    for room in [book.len(), book.len() + 7] {
        if same(&records, room)? != Ok(book.to_vec()) {
            return Err("the book that is written again".to_string());
        }
    }
    for (number, change) in CHANGES {
        for room in [book.len() + 7, 0] {
            let mut changed = records.clone();
            change(&mut changed);
            match same(&changed, room)? {
                Err(refused) if refused == *number => {}
                _ => return Err(format!("what {number} refuses")),
            }
        }
    }
    match same(&records, book.len() - 1)? {
        Err(23) => Ok(()),
        _ => Err("what 23 refuses".to_string()),
    }
}

type Change = fn(&mut Records);

const CHANGES: &[(u8, Change)] = &[
    (2, |records| records.tasks.clear()),
    (4, |records| records.tasks[0] &= 0xff),
    (5, |records| records.locks[0] &= 0xffff),
    (6, |records| records.uses[0] |= 255),
    (7, |records| records.locks[0] ^= 128),
    // All tasks and locks have the one priority 2, but the last user 1, which no lock
    // may raise.
    (24, |records| {
        records.tasks.fill(0x0202);
        for lock in &mut records.locks {
            *lock = *lock & 0xffff_0000 | 2;
        }
        let [last, _] = records.uses.last().unwrap().to_le_bytes();
        records.tasks[usize::from(last)] = 0x0101;
    }),
    (8, |records| *records.events.last_mut().unwrap() = 7),
];

/// The book that both write, or the number with which both refuse.
fn same(records: &Records, room: usize) -> Result<Result<Vec<u8>, u8>, String> {
    let mut proved_bytes = vec![FILLED; room];
    let mut ordinary_bytes = proved_bytes.clone();
    let proved = device::write(records, &mut proved_bytes);
    let ordinary = ordinary_write::write(records, &mut ordinary_bytes);
    let (number, place, length) = match ordinary {
        Ok(length) => (0, 0, length),
        Err(Refused(number, place)) => (number, place, 0),
    };
    if (proved.number, proved.place, proved.length) != (number, place, length) {
        return Err(format!("the answer {number} {place} {length}"));
    }
    if proved_bytes != ordinary_bytes {
        return Err(format!("the buffer beside {number} {place}"));
    }
    proved_bytes.truncate(length);
    Ok(if number == 0 {
        Ok(proved_bytes)
    } else {
        Err(number)
    })
}

/// Times both, round by round in turn, for each event of the book.
pub fn measure(name: &str, book: &[u8], rounds: usize) {
    let records = Records::of(book);
    let events = records.events.len() as u32;
    let mut buffer = vec![0; book.len()];
    let mut times = [const { Vec::new() }; 2];
    for _ in 0..rounds {
        let records = black_box(&records);
        times[0].push(time(events, TURNS, || {
            done(device::write(records, black_box(&mut buffer)))
        }));
        times[1].push(time(events, TURNS, || {
            done(ordinary_write::write(records, black_box(&mut buffer)))
        }));
    }
    let [proved, ordinary] = times.map(Figure::of);
    report(name, "", "write", proved, ordinary);
}
