//! The reading of a job in ordinary Rust: a reader of bodies and one of items that call
//! each other, over the text twice, first to count the events and then to lay them.

use crate::ordinary::Refused;

const MOST_UNITS: u32 = 65_535;
const MOST_LOCK: u32 = 31;
const MOST_LEVELS: u32 = 8;

/// How many events were laid, or the number and the place of the refusal.
pub fn read(text: &[u8], space: &mut [u8]) -> Result<usize, Refused> {
    let count = whole(text, &mut |_, _| {}).map_err(|place| Refused(25, place))?;
    if space.len() / 4 < count {
        return Err(Refused(26, 0));
    }
    let laid = whole(text, &mut |at, record: [u8; 4]| {
        space[4 * at..4 * at + 4].copy_from_slice(&record)
    });
    Ok(laid.unwrap_or(0))
}

/// A text, where the reader stands in it, and how many events there were.
struct Reader<'a, Lay: FnMut(usize, [u8; 4])> {
    text: &'a [u8],
    place: usize,
    count: usize,
    lay: &'a mut Lay,
}

fn whole<Lay: FnMut(usize, [u8; 4])>(text: &[u8], lay: &mut Lay) -> Result<usize, usize> {
    let mut reader = Reader {
        text,
        place: 0,
        count: 0,
        lay,
    };
    if !text.is_empty() {
        reader.item(MOST_LEVELS)?;
        reader.body(MOST_LEVELS)?;
        if reader.place < text.len() {
            return Err(reader.place);
        }
    }
    reader.put([5, 0, 0, 0]);
    Ok(reader.count)
}

impl<Lay: FnMut(usize, [u8; 4])> Reader<'_, Lay> {
    fn next(&self) -> Option<u8> {
        self.text.get(self.place).copied()
    }

    fn put(&mut self, record: [u8; 4]) {
        (self.lay)(self.count, record);
        self.count += 1;
    }

    /// The items after one, each behind a space.
    fn body(&mut self, levels: u32) -> Result<(), usize> {
        while self.next() == Some(b' ') {
            self.place += 1;
            self.item(levels)?;
        }
        Ok(())
    }

    fn item(&mut self, levels: u32) -> Result<(), usize> {
        match self.next() {
            Some(b'w') => {
                self.place += 1;
                let units = self.number(1, MOST_UNITS)?;
                let [low, high] = (units as u16).to_le_bytes();
                self.put([4, 0, low, high]);
            }
            Some(b'[') if levels > 0 => {
                self.place += 1;
                let lock = self.number(0, MOST_LOCK)? as u8;
                self.put([2, lock, 0, 0]);
                self.body(levels - 1)?;
                if self.next() != Some(b']') {
                    return Err(self.place);
                }
                self.place += 1;
                self.put([3, lock, 0, 0]);
            }
            _ => return Err(self.place),
        }
        Ok(())
    }

    /// A number in decimal without a zero in front, from `least`, 0 or 1, on.
    fn number(&mut self, least: u32, most: u32) -> Result<u32, usize> {
        let mut value = None;
        while let Some(byte @ b'0'..=b'9') = self.next() {
            let digit = u32::from(byte - b'0');
            let more = match value {
                None if digit < least => return Err(self.place),
                None => digit,
                Some(0) => return Err(self.place),
                Some(value) => value * 10 + digit,
            };
            if more > most {
                return Err(self.place);
            }
            value = Some(more);
            self.place += 1;
        }
        value.ok_or(self.place)
    }
}
