//! Ways to go wrong in the reading of a job that let pass what is none: such a text is made
//! the right one that it is taken for.

use crate::wrong::Wrong;
use std::borrow::Cow;

pub fn made_right(text: &[u8], wrong: Wrong) -> Cow<'_, [u8]> {
    match wrong {
        Wrong::SpaceTwice => {
            let mut once = text.to_vec();
            once.dedup_by(|byte, before| (*byte, *before) == (b' ', b' '));
            Cow::from(once)
        }
        Wrong::SpaceAtEnd => Cow::from(text.strip_suffix(b" ").unwrap_or(text)),
        Wrong::SpaceInEmpty => Cow::from(without_space_in_empty(text)),
        Wrong::NoSpaceAfterSection => Cow::from(with_space_after_sections(text)),
        Wrong::OpenAtEnd => Cow::from(closed(text)),
        _ => Cow::from(text),
    }
}

/// `[0 ]` becomes `[0]`.
fn without_space_in_empty(text: &[u8]) -> Vec<u8> {
    let is_left_out = |at: usize| {
        let is_lock = |before: &[u8]| {
            let digits = before.iter().rev().take_while(|byte| byte.is_ascii_digit());
            let digits = digits.count();
            digits > 0 && before[..before.len() - digits].ends_with(b"[")
        };
        text[at..].starts_with(b" ]") && is_lock(&text[..at])
    };
    let kept = (0..text.len()).filter(|at| !is_left_out(*at));
    kept.map(|at| text[at]).collect()
}

/// `[0]w1` becomes `[0] w1`.
fn with_space_after_sections(text: &[u8]) -> Vec<u8> {
    let mut with_spaces = Vec::new();
    for byte in text {
        if with_spaces.last() == Some(&b']') && b"w[".contains(byte) {
            with_spaces.push(b' ');
        }
        with_spaces.push(*byte);
    }
    with_spaces
}

/// `[0 w1` becomes `[0 w1]`.
fn closed(text: &[u8]) -> Vec<u8> {
    let count = |bracket: u8| text.iter().filter(|byte| **byte == bracket).count();
    let open = count(b'[').saturating_sub(count(b']'));
    [text, &vec![b']'; open]].concat()
}
