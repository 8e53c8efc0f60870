//! The same writer in ordinary Rust, over records as numbers.

use crate::ordinary::{is_miscounted, is_wrong, load, Refused, SIZE};

/// One number for a record, low byte first.
#[derive(Clone)]
pub struct Records {
    pub tasks: Vec<u16>,
    pub locks: Vec<u32>,
    pub uses: Vec<u16>,
    pub events: Vec<u32>,
}

impl Records {
    /// Those of a book that is laid out right.
    pub fn of(book: &[u8]) -> Records {
        let number = |at: usize, size: usize| {
            let bytes = book[at..at + size].iter().rev();
            bytes.fold(0, |number, byte| number << 8 | u32::from(*byte))
        };
        let entry = |entry: usize| {
            let count = number(8 * entry + 2, 2) as usize;
            let start = number(8 * entry + 4, 4) as usize;
            (0..count).map(move |place| number(start + place * SIZE[entry], SIZE[entry]))
        };
        Records {
            tasks: entry(0).map(|number| number as u16).collect(),
            locks: entry(1).collect(),
            uses: entry(2).map(|number| number as u16).collect(),
            events: entry(3).collect(),
        }
    }
}

/// 2, 4 to 7, 24, 8 and 23, each over all records before the next; then the book,
/// and its length.
pub fn write(records: &Records, buffer: &mut [u8]) -> Result<usize, Refused> {
    let Records {
        tasks,
        locks,
        uses,
        events,
    } = records;
    let counts = [tasks.len(), locks.len(), uses.len(), events.len()];
    if let Some(entry) = (0..4).find(|&entry| is_miscounted(entry, counts[entry])) {
        return Err(Refused(2, entry + 1));
    }
    load(
        tasks.iter().map(|number| number.to_le_bytes()),
        locks.iter().map(|number| number.to_le_bytes()),
        uses.iter().map(|number| number.to_le_bytes()),
    )?;
    let wrong = |number: &u32| is_wrong(&number.to_le_bytes());
    if let Some(place) = events.iter().position(wrong) {
        return Err(Refused(8, place));
    }
    let mut starts = [32; 5];
    for entry in 0..4 {
        starts[entry + 1] = starts[entry] + counts[entry] * SIZE[entry];
    }
    let Some(book) = buffer.get_mut(..starts[4]) else {
        return Err(Refused(23, 0));
    };
    for entry in 0..4 {
        let at = 8 * entry;
        book[at..at + 2].copy_from_slice(&(entry as u16 + 1).to_le_bytes());
        book[at + 2..at + 4].copy_from_slice(&(counts[entry] as u16).to_le_bytes());
        book[at + 4..at + 8].copy_from_slice(&(starts[entry] as u32).to_le_bytes());
    }
    put_words(&mut book[starts[0]..starts[1]], tasks);
    put_longs(&mut book[starts[1]..starts[2]], locks);
    put_words(&mut book[starts[2]..starts[3]], uses);
    put_longs(&mut book[starts[3]..], events);
    Ok(starts[4])
}

fn put_words(body: &mut [u8], words: &[u16]) {
    for (record, word) in body.chunks_exact_mut(2).zip(words) {
        record.copy_from_slice(&word.to_le_bytes());
    }
}

fn put_longs(body: &mut [u8], longs: &[u32]) {
    for (record, long) in body.chunks_exact_mut(4).zip(longs) {
        record.copy_from_slice(&long.to_le_bytes());
    }
}
