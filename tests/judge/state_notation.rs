//! A plan and a state in the notation of the hand-made steps: `FIELD VALUE`,
//! `FIELD PLACE VALUE`, or `FIELD TASK V.V..` for a row, newest first. The uses
//! of a task are its locks, parted by dots. The second word can be called by the
//! name that a protocol has for it. Any state can be written so, and is read back
//! as the same state.

use crate::notation::{dotted, narrow, number, split_word};
use crate::plan::{MOST_LOCKS, MOST_TAKES, MOST_TASKS};
use crate::whole::{slot, Field, Per, Whole, FIELDS, SECOND, USES};

/// Changes one figure, or one row.
pub fn change(whole: &mut Whole, item: &str) -> Result<(), String> {
    let (name, rest) = split_word(item);
    let name = match name {
        "next" | "kernel" => SECOND.name,
        _ => name,
    };
    let field = FIELDS.into_iter().find(|field| field.name == name);
    let field = field.ok_or_else(|| format!("{name} is no field"))?;
    if field.per == Per::One {
        return set(whole, field, 0, number(rest)?);
    }
    let (place, value) = split_word(rest);
    let place = narrow(place)?;
    if name == USES.name {
        let locks = dotted(value)?;
        let bits = locks
            .iter()
            .try_fold(0, |bits, lock| Some(bits | bit(*lock)?));
        return set(whole, field, place, bits.ok_or("no such lock")?);
    }
    if field.per == Per::Slot {
        return set_row(whole, field, place, &dotted(value)?);
    }
    set(whole, field, place, number(value)?)
}

fn bit(lock: u64) -> Option<u64> {
    1u64.checked_shl(u32::try_from(lock).ok()?)
}

/// The places that are not given become 0.
fn set_row(whole: &mut Whole, field: Field, task: usize, row: &[u64]) -> Result<(), String> {
    if row.len() > MOST_TAKES {
        return Err("more than a row has places".to_string());
    }
    for at in 0..MOST_TAKES {
        let value = row.get(at).copied().unwrap_or(0);
        set(whole, field, slot(task, at), value)?;
    }
    Ok(())
}

fn set(whole: &mut Whole, field: Field, place: usize, value: u64) -> Result<(), String> {
    if place >= field.count() || value > field.greatest() {
        return Err(format!("{} has no place for this", field.name));
    }
    whole.set(field, place, value);
    Ok(())
}

/// The single figures, and all others that aren't 0.
pub fn written(whole: &Whole) -> Vec<String> {
    let of_field = |field| written_field(whole, field);
    FIELDS.into_iter().flat_map(of_field).collect()
}

fn written_field(whole: &Whole, field: Field) -> Vec<String> {
    let name = field.name;
    let places = match field.per {
        Per::One => return vec![format!("{name} {}", whole.get(field, 0))],
        Per::Task | Per::Slot => MOST_TASKS,
        Per::Lock => MOST_LOCKS,
    };
    let at_place = |place| {
        let value = written_value(whole, field, place)?;
        Some(format!("{name} {place} {value}"))
    };
    (0..places).filter_map(at_place).collect()
}

/// Nothing where it is 0.
fn written_value(whole: &Whole, field: Field, place: usize) -> Option<String> {
    let value = match field.per {
        Per::Slot => {
            let row = (0..MOST_TAKES).map(|at| whole.get(field, slot(place, at)));
            let row: Vec<u64> = row.collect();
            let last = row.iter().rposition(|value| *value != 0)?;
            return Some(with_dots(&row[..=last]));
        }
        _ => whole.get(field, place),
    };
    if value == 0 {
        return None;
    }
    if field.name == USES.name {
        let locks = (0..u64::from(u64::BITS)).filter(|lock| value >> lock & 1 == 1);
        return Some(with_dots(&locks.collect::<Vec<u64>>()));
    }
    Some(value.to_string())
}

fn with_dots(values: &[u64]) -> String {
    let words: Vec<String> = values.iter().map(u64::to_string).collect();
    words.join(".")
}

/// Whether the state is read back from what is written of it.
pub fn reads_back(whole: &Whole) -> bool {
    let mut again = Whole::blank();
    let items = written(whole);
    items.iter().all(|item| change(&mut again, item).is_ok()) && again == *whole
}
