//! A single step from any state by either protocol: 10 where the state isn't sound,
//! and else one step of the lazy scheduler that the figures stand for.

use crate::aims::Scene;
use crate::event::Event;
use crate::protocol::Protocol;
use crate::resume::{figures, resume};
use crate::sound;
use crate::taken_again;
use crate::whole::{Whole, EAGER, SECOND, UNITS, USER};
use crate::wrong::Wrong;

/// All that a program under judgement has to answer for a step.
#[derive(Clone, PartialEq, Eq)]
pub struct Stepped {
    /// 0 if the event is accepted.
    pub number: u8,
    /// 1 for a lazy call.
    pub call: u8,
    /// The plan, and the state after the event; the given one where refused.
    pub after: Whole,
}

pub struct Outcome {
    pub stepped: Stepped,
    /// The conditions of soundness that the given state breaks, by place.
    pub broken: Vec<usize>,
    /// What the judge demands of itself and did not hold, in words.
    pub violation: Option<String>,
}

pub fn step(given: &Whole, event: Event, protocol: Protocol, wrong: Wrong) -> Outcome {
    let broken = sound::broken_by(given, protocol, wrong);
    if !broken.is_empty() {
        return Outcome {
            stepped: refused(given, 10),
            broken,
            violation: None,
        };
    }
    let plan = given.plan();
    let mut lazy = resume(&plan, given, protocol, wrong);
    let answer = lazy.step(event);
    let after = figures(&lazy);
    let violation = match answer {
        _ if wrong != Wrong::Nothing => None,
        Ok(_) if lazy.cuts > 0 => Some("the user word of a sound state was cut".to_string()),
        Ok(call) => unsound(&after, protocol)
            .or_else(|| miscounted(given, event, &after))
            .or_else(|| misplaced(given, event, protocol, call, &after))
            .or_else(|| mischarged(given, event, &after))
            .or_else(|| taken_again::after_step(given, event, protocol, call, &after)),
        Err(_) if after == *given => None,
        Err(_) => Some("a refused step changed the judge's own scheduler".to_string()),
    };
    let stepped = match answer {
        Ok(call) => Stepped {
            number: 0,
            call: u8::from(call),
            after,
        },
        Err(number) => refused(given, number),
    };
    Outcome {
        stepped,
        broken,
        violation,
    }
}

fn refused(given: &Whole, number: u8) -> Stepped {
    Stepped {
        number,
        call: 0,
        after: given.clone(),
    }
}

/// From a sound state an accepted event leads to a sound one. The test of
/// soundness works out all priorities from the takes, which the lazy
/// scheduler never does.
fn unsound(after: &Whole, protocol: Protocol) -> Option<String> {
    let names = sound::names(&sound::broken(after, protocol));
    if names.is_empty() {
        return None;
    }
    Some(format!("the state after it is not sound: {names:?}"))
}

/// An accepted acquire or unlock is one eager call where the priority of the
/// task that does it is another one afterwards, as its takes give it; no
/// other event is one.
fn miscounted(given: &Whole, event: Event, after: &Whole) -> Option<String> {
    let calls = match (event, given.running()) {
        (Event::Acquire(_) | Event::Unlock(_), Some(task)) => {
            u64::from(sound::priority(given, task) != sound::priority(after, task))
        }
        _ => 0,
    };
    let counted = after.get(EAGER, 0) - given.get(EAGER, 0);
    if counted == calls {
        return None;
    }
    Some(format!("{counted} eager calls are counted, not {calls}"))
}

/// A work counts for every lock that the running task has open, once for each, and for no
/// other.
fn mischarged(given: &Whole, event: Event, after: &Whole) -> Option<String> {
    let Event::Work(amount) = event else {
        return None;
    };
    let takes = given.takes(given.running()?);
    let is_wrong = |lock: &usize| {
        let more = match takes.contains(lock) {
            true => u64::from(amount),
            false => 0,
        };
        after.get(UNITS, *lock) != given.get(UNITS, *lock) + more
    };
    let lock = (0..UNITS.count()).find(is_wrong)?;
    Some(format!("the work is not what lock {lock} counts"))
}

/// A release, a finish, a tick and a call enter the kernel: the kernel word is the
/// user word then. No other event changes it. A call is an eager one too, since the
/// kernel word was at most the user word. (That the next word is right is a matter
/// of soundness.)
fn misplaced(
    given: &Whole,
    event: Event,
    protocol: Protocol,
    call: bool,
    after: &Whole,
) -> Option<String> {
    if protocol == Protocol::Second {
        return None;
    }
    let left = match event.is_entry(call) {
        true => after.get(USER, 0),
        false => given.get(SECOND, 0),
    };
    if call && after.get(EAGER, 0) == given.get(EAGER, 0) {
        return Some("a call that is no eager one".to_string());
    }
    let word = after.get(SECOND, 0);
    if word == left {
        return None;
    }
    Some(format!("the kernel word is {word}, not {left}"))
}
