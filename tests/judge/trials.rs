//! The generated steps: which sort of state and event the n-th one of a seed
//! has. Half start from sound states, a quarter from a state with one figure
//! changed, every figure in its turn, and a quarter from other changed states.

use crate::aims::{self, Scene};
use crate::broken;
use crate::event::Event;
use crate::plan::{Plan, MOST_ACCEPTED};
use crate::protocol::{Protocol, PROTOCOLS};
use crate::random::Random;
use crate::states;
use crate::step::{step, Outcome};
use crate::whole::{figure, number_of, Whole, ACCEPTED, FIGURES};
use crate::wrong::Wrong;

/// A state and the event that is tried on it by a protocol.
pub struct Trial {
    pub name: String,
    pub protocol: Protocol,
    pub given: Whole,
    pub event: Event,
    /// The number of the figure that was changed.
    pub changed: Option<usize>,
    /// The answer that the event was made for.
    pub aimed: Option<u8>,
}

impl Trial {
    pub fn step(&self, wrong: Wrong) -> Outcome {
        let mut outcome = step(&self.given, self.event, self.protocol, wrong);
        let number = outcome.stepped.number;
        let missed = self.aimed.filter(|aimed| *aimed != number);
        if let (Some(aimed), Wrong::Nothing) = (missed, wrong) {
            let words = format!("the event was made for {aimed} and is answered {number}");
            outcome.violation = Some(words);
        }
        outcome
    }
}

/// The step of this number.
pub fn trial(seed: u64, number: u64) -> Trial {
    let random = &mut Random::for_case(seed, 3, number);
    let (turn, sort) = ((number / 4) as usize, number % 4);
    // Both protocols in turn; the next time that a figure comes it is with the
    // other one.
    let protocol = PROTOCOLS[(turn + turn / FIGURES) % PROTOCOLS.len()];
    let (plan, mut given) = states::any(random, protocol);
    if sort < 2 {
        let (event, aimed) = aimed_event(random, &plan, &given);
        return Trial {
            name: format!("step {number} (sound state)"),
            protocol,
            given,
            event,
            changed: None,
            aimed,
        };
    }
    let event = any_event(random, &plan, &given);
    let turn = Some(turn % FIGURES).filter(|_| sort == 2);
    let several = match random.below(8) {
        _ if turn.is_some() => None,
        0..=3 => broken::change_several(random, &mut given, protocol),
        4 | 5 => Some(broken::change_second_word(random, &mut given)),
        _ => None,
    };
    let (sort, changed) = match several {
        Some(name) => (name.to_string(), None),
        None => change_one(random, &mut given, turn),
    };
    Trial {
        name: format!("step {number} ({sort})"),
        protocol,
        given,
        event,
        changed,
        aimed: None,
    }
}

/// Changes the figure whose turn it is, or else some figure; what was changed,
/// in words and by its number.
fn change_one(
    random: &mut Random,
    given: &mut Whole,
    turn: Option<usize>,
) -> (String, Option<usize>) {
    let (field, place) = match turn {
        Some(turn) => figure(turn),
        None => broken::some_figure(random, given),
    };
    let before = given.get(field, place);
    broken::change(random, given, field, place);
    let after = given.get(field, place);
    let name = field.figure_name(place);
    let changed = Some(number_of(field, place));
    (format!("{name}, {after} for {before}"), changed)
}

/// An event for a sound state: accepted, refused with a wanted number, or any.
fn aimed_event(random: &mut Random, plan: &Plan, given: &Whole) -> (Event, Option<u8>) {
    let is_exhausted = given.get(ACCEPTED, 0) == u64::from(MOST_ACCEPTED);
    let answer = |number: u8| Some(if is_exhausted { 11 } else { number });
    match random.below(10) {
        0..=3 => (accepted_event(random, plan, given), answer(0)),
        4..=8 => {
            let (event, number) = refused_event(random, plan, given);
            (event, answer(number))
        }
        _ if is_exhausted => (aims::arbitrary(random, plan), Some(11)),
        _ => (aims::arbitrary(random, plan), None),
    }
}

/// An event that a sound state accepts. An unlock, at which the protocols part, is
/// more likely than another.
fn accepted_event(random: &mut Random, plan: &Plan, given: &Whole) -> Event {
    let newest = given.running().and_then(|task| given.takes(task).pop());
    match newest {
        Some(lock) if random.one_in(4) => Event::Unlock(lock as u8),
        _ => aims::accepted(random, plan, given),
    }
}

/// An event that a sound state refuses. What few states can refuse is tried
/// first half of the time; an unknown task can always be named.
fn refused_event(random: &mut Random, plan: &Plan, given: &Whole) -> (Event, u8) {
    let mut numbers = vec![12, 13, 14, 15, 17, 18, 19, 20, 21, 22];
    random.shuffle(&mut numbers);
    if random.one_in(2) {
        numbers.splice(0..0, [12, 18, 17]);
    }
    for number in numbers {
        if let Some(event) = aims::refused(random, plan, given, number) {
            return (event, number);
        }
    }
    unreachable!("13 and 20 can always be aimed at")
}

/// An event for a state that is about to be changed.
fn any_event(random: &mut Random, plan: &Plan, given: &Whole) -> Event {
    match random.below(4) {
        0 => aims::arbitrary(random, plan),
        1 => refused_event(random, plan, given).0,
        _ => aims::accepted(random, plan, given),
    }
}
