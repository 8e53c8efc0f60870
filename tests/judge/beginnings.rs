//! RULES 20.4: the place of 25. It is found by what it says and not by a reader: the bytes
//! before it can be made a job by others behind them, and with the byte at it they cannot.

use crate::job::is_job;
use crate::wrong::Wrong;

/// What is tried behind a beginning, before the brackets of its open sections. A beginning
/// ends with the last letter or digit of an item, and needs nothing; or with the letter of
/// one that has no number yet; or with a space, and needs an item.
const TRIED: [&[u8]; 3] = [b"", b"1", b"w1"];

/// Whether some job starts with these bytes.
pub fn is_beginning(text: &[u8], wrong: Wrong) -> bool {
    let count = |bracket: u8| text.iter().filter(|byte| **byte == bracket).count();
    // As many sections are closed as are begun.
    let open = count(b'[').saturating_sub(count(b']'));
    TRIED.iter().any(|tried| {
        let brackets = vec![b']'; open];
        is_job(&[text, tried, &brackets].concat(), wrong)
    })
}

/// The place of 25 in a text that is no job: the length of its longest beginning that is one
/// of a job. Whatever is shorter is one too, so that half of what is left can be ruled out at
/// a time.
pub fn place(text: &[u8], wrong: Wrong) -> usize {
    let (mut longest, mut too_long) = (0, text.len() + 1);
    while longest + 1 < too_long {
        let middle = (longest + too_long) / 2;
        if is_beginning(&text[..middle], wrong) {
            longest = middle;
        } else {
            too_long = middle;
        }
    }
    match wrong {
        Wrong::PlaceOneLate => longest + 1,
        Wrong::PlaceOfLastByte if longest == text.len() => longest.saturating_sub(1),
        _ => longest,
    }
}

/// The same for a short text, looked for from the front, and that nowhere after it a
/// beginning is one again. In words what does not hold.
pub fn broken(text: &[u8], place: usize) -> Option<String> {
    let is_right = |length: &usize| {
        let is_one = is_beginning(&text[..*length], Wrong::Nothing);
        is_one == (*length <= place)
    };
    let lengths = 0..=text.len();
    let first = lengths.clone().find(|length| !is_right(length))?;
    Some(format!(
        "the place is {place}, and the first {first} bytes say otherwise"
    ))
}
