//! The notation that the files of hand-made cases have in common: lines, numbers
//! and events. A line that starts with `#` says something to the reader only;
//! columns are parted by `|`. A number may be a sum of products in which the
//! sizes of the rules stand by their names, such as `MOST_TASKS-1`.

use crate::event::Event;
use crate::plan::{
    MOST_ACCEPTED, MOST_EVENTS, MOST_LOCKS, MOST_TAKES, MOST_TASKS, MOST_UNITS, MOST_USES, NOBODY,
};

/// Reads each line that says something; an error names its line.
pub fn read_lines(
    text: &'static str,
    mut read: impl FnMut(&'static str) -> Result<(), String>,
) -> Result<(), String> {
    for (at, line) in text.lines().enumerate() {
        let line = line.trim();
        if line.is_empty() || line.starts_with('#') {
            continue;
        }
        read(line).map_err(|error| format!("line {}, {line}: {error}", at + 1))?;
    }
    Ok(())
}

pub fn columns(line: &str) -> Vec<&str> {
    line.split('|').map(str::trim).collect()
}

fn named(word: &str) -> Option<u64> {
    Some(match word {
        "MOST_TASKS" => MOST_TASKS as u64,
        "MOST_LOCKS" => MOST_LOCKS as u64,
        "MOST_USES" => MOST_USES as u64,
        "MOST_EVENTS" => MOST_EVENTS as u64,
        "MOST_TAKES" => MOST_TAKES as u64,
        "MOST_ACCEPTED" => u64::from(MOST_ACCEPTED),
        "MOST_UNITS" => u64::from(MOST_UNITS),
        "nobody" => u64::from(NOBODY),
        _ => return None,
    })
}

/// A number: terms parted by `+` or `-`, each a product parted by `*`.
pub fn number(text: &str) -> Result<u64, String> {
    let mut sum = 0;
    let mut rest = text;
    let mut is_added = true;
    loop {
        let end = rest.find(['+', '-']).unwrap_or(rest.len());
        let term = product(&rest[..end])?;
        let after = if is_added {
            u64::checked_add(sum, term)
        } else {
            u64::checked_sub(sum, term)
        };
        sum = after.ok_or_else(|| format!("{text} is out of range"))?;
        if end == rest.len() {
            return Ok(sum);
        }
        is_added = rest[end..].starts_with('+');
        rest = &rest[end + 1..];
    }
}

fn product(text: &str) -> Result<u64, String> {
    let mut product: u64 = 1;
    for word in text.split('*').map(str::trim) {
        let factor = named(word).or_else(|| word.parse().ok());
        let factor = factor.ok_or_else(|| format!("{word} is no number"))?;
        product = product
            .checked_mul(factor)
            .ok_or_else(|| format!("{text} is out of range"))?;
    }
    Ok(product)
}

/// A number that fits the type.
pub fn narrow<T: TryFrom<u64>>(text: &str) -> Result<T, String> {
    T::try_from(number(text)?).map_err(|_| format!("{text} is too great"))
}

/// Numbers parted by spaces.
pub fn numbers(text: &str) -> Result<Vec<u64>, String> {
    text.split_whitespace().map(number).collect()
}

/// Numbers parted by dots; none for `-`.
pub fn dotted(text: &str) -> Result<Vec<u64>, String> {
    if text == "-" {
        return Ok(Vec::new());
    }
    text.split('.').map(number).collect()
}

/// A word and what follows it.
pub fn split_word(text: &str) -> (&str, &str) {
    match text.split_once(' ') {
        Some((word, rest)) => (word, rest.trim()),
        None => (text, ""),
    }
}

pub fn event(text: &str) -> Result<Event, String> {
    let (kind, rest) = split_word(text);
    Ok(match kind {
        "release" => Event::Release(narrow(rest)?),
        "acquire" => Event::Acquire(narrow(rest)?),
        "unlock" => Event::Unlock(narrow(rest)?),
        "work" => Event::Work(narrow(rest)?),
        "finish" if rest.is_empty() => Event::Finish,
        "tick" if rest.is_empty() => Event::Tick,
        _ => return Err(format!("{text} is no event")),
    })
}
