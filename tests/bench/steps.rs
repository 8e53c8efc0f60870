//! The proved single step against the same one in ordinary Rust, over scenes of
//! either protocol: each step of a scene, and many more from its timed states,
//! must give the same answer and the same state; then the timed steps are timed.
//!
//! What is compared: both test the whole plan and state for soundness before the
//! event, and both give a new state. The library takes the plan and the state by
//! value, so they are copied into its arguments; ordinary Rust is lent both.

use crate::ordinary::{
    Plan, Protocol, Record, State, MOST_ACCEPTED, MOST_LOCKS, MOST_TAKES, MOST_TASKS,
};
use crate::scenes::{Scene, ACQUIRE, FINISH, RELEASE, TICK, UNLOCK, WORK};
use crate::{device, done, ordinary_step, report, time, Figure};
use std::hint::black_box;

/// Of so many timed states one is stepped by all sorts of events, and of so many
/// one has each of its figures changed in turn.
const SORTS_ONE_IN: usize = 4;
const DAMAGED_ONE_IN: usize = 48;

/// The numbers that a step can answer.
const ANSWERS: [u8; 14] = [0, 8, 10, 11, 12, 13, 14, 15, 17, 18, 19, 20, 21, 22];

/// A timed step: what is handed in, in both forms.
struct Moment {
    proved: device::State,
    ordinary: State,
    record: Record,
}

/// What was compared, by one protocol.
pub struct Tally {
    pub protocol: Protocol,
    /// Steps by the number that they answered.
    answers: [u32; 23],
    /// Timed steps by the kind of event: those accepted, and those refused.
    timed: [(u32, u32); 7],
}

impl Tally {
    pub fn new(protocol: Protocol) -> Tally {
        Tally {
            protocol,
            answers: [0; 23],
            timed: [(0, 0); 7],
        }
    }

    pub fn compared(&self) -> u32 {
        self.answers.iter().sum()
    }

    /// What was never compared, in words. A tick is never refused from a state
    /// that is timed.
    pub fn lacks(&self) -> Vec<String> {
        let mut lacks = Vec::new();
        for number in ANSWERS {
            if self.answers[usize::from(number)] == 0 {
                lacks.push(format!("a step with the answer {number}"));
            }
        }
        for kind in RELEASE..=TICK {
            let (accepted, refused) = self.timed[usize::from(kind)];
            if accepted == 0 || (refused == 0 && kind != TICK) {
                lacks.push(format!(
                    "a timed event of kind {kind}, accepted and refused"
                ));
            }
        }
        lacks
    }

    /// One step by both: its answer and the state after it, or what they differ in.
    fn step(&mut self, plan: &Plan, state: &State, record: Record) -> Result<(u8, State), String> {
        let (proved_plan, proved_state) = (device::Plan::of(plan), device::State::of(state));
        let proved = device::step(self.protocol, &proved_plan, &proved_state, record);
        let ordinary = ordinary_step::step(self.protocol, plan, state, record);
        let answer = (proved.number, proved.calls);
        if answer != (ordinary.number, ordinary.calls) {
            let other = (ordinary.number, ordinary.calls);
            return Err(format!("the answer to {record:?}: {answer:?}, {other:?}"));
        }
        if let Some(what) = proved.state.differs(&ordinary.state) {
            return Err(format!("{what} after {record:?}"));
        }
        self.answers[usize::from(ordinary.number)] += 1;
        Ok((ordinary.number, ordinary.state))
    }
}

/// Steps through a scene from a fresh start, in both; and from its timed states
/// steps all sorts of events, and states that are hardly reached or not sound.
pub fn compare(scene: &Scene, tally: &mut Tally) -> Result<(), String> {
    let plan = &scene.plan;
    let mut state = State::fresh();
    if let Some(what) = device::fresh().differs(&state) {
        return Err(format!("{what} of a fresh state"));
    }
    let mut timed = 0;
    for turn in &scene.turns {
        if turn.timed && timed % SORTS_ONE_IN == 0 {
            let other = with_other_runner(scene.protocol, plan, &state, timed);
            for state in [&state].into_iter().chain(&other) {
                for record in all_sorts(plan) {
                    tally.step(plan, state, record)?;
                }
            }
            let mut last = state.clone();
            last.accepted = MOST_ACCEPTED;
            tally.step(plan, &last, turn.record)?;
        }
        if turn.timed && timed % DAMAGED_ONE_IN == 0 {
            damage(plan, &state, &mut |plan, state| {
                tally.step(plan, state, turn.record).map(|_| ())
            })?;
        }
        let (number, after) = tally.step(plan, &state, turn.record)?;
        state = after;
        if turn.timed {
            timed += 1;
            let (accepted, refused) = &mut tally.timed[usize::from(turn.record[0])];
            *if number == 0 { accepted } else { refused } += 1;
        }
    }
    Ok(())
}

/// Events of every kind, and some that are none.
fn all_sorts(plan: &Plan) -> Vec<Record> {
    let mut records = vec![
        [FINISH, 0, 0, 0],
        [TICK, 0, 0, 0],
        [0, 0, 0, 0],
        [7, 0, 0, 0],
        [RELEASE, 0, 1, 0],
        [ACQUIRE, 0, 0, 1],
        [UNLOCK, 0, 255, 255],
        [WORK, 1, 1, 0],
        [FINISH, 1, 0, 0],
        [TICK, 0, 1, 0],
    ];
    records.extend([0u16, 1, 7, 300, 1900, u16::MAX].map(|amount| {
        let [low, high] = amount.to_le_bytes();
        [WORK, 0, low, high]
    }));
    records.extend((0..=plan.tasks as u8).map(|task| [RELEASE, task, 0, 0]));
    for lock in 0..=plan.locks as u8 {
        records.extend([[ACQUIRE, lock, 0, 0], [UNLOCK, lock, 0, 0]]);
    }
    records
}

/// The same state but that another released task runs, if there is one. It is
/// sound, and mostly no fresh start reaches it: there alone the running task can
/// find a lock open for another.
fn with_other_runner(protocol: Protocol, plan: &Plan, state: &State, turn: usize) -> Option<State> {
    let runner = usize::from(state.running);
    let waiting: Vec<usize> = (0..plan.tasks)
        .filter(|&task| task != runner && state.released[task] != 0)
        .collect();
    let task = *waiting.get(turn % waiting.len().max(1))?;
    let mut other = state.clone();
    other.running = task as u8;
    other.kept[runner] = state.user;
    other.user = state.kept[task];
    other.kept[task] = 0;
    other.next = match protocol {
        Protocol::Second => other.kept.iter().copied().fold(0, u8::max),
        Protocol::First => other.user,
    };
    Some(other)
}

/// The plan and the state with one figure changed by one, up or down, for each
/// figure that they have. Nearly all are not sound.
fn damage(
    plan: &Plan,
    state: &State,
    visit: &mut dyn FnMut(&Plan, &State) -> Result<(), String>,
) -> Result<(), String> {
    macro_rules! change {
        ($whole:ident . $field:ident $([ $place:expr ])*) => {{
            let (mut up, mut down) = ((plan.clone(), state.clone()), (plan.clone(), state.clone()));
            change!(up, $whole . $field $([ $place ])*, wrapping_add);
            change!(down, $whole . $field $([ $place ])*, wrapping_sub);
            visit(&up.0, &up.1)?;
            visit(&down.0, &down.1)?;
        }};
        ($pair:ident, plan . $field:ident $([ $place:expr ])*, $by:ident) => {
            $pair.0.$field $([ $place ])* = $pair.0.$field $([ $place ])*.$by(1)
        };
        ($pair:ident, state . $field:ident $([ $place:expr ])*, $by:ident) => {
            $pair.1.$field $([ $place ])* = $pair.1.$field $([ $place ])*.$by(1)
        };
    }
    change!(plan.tasks);
    change!(plan.locks);
    change!(state.accepted);
    change!(state.running);
    change!(state.user);
    change!(state.next);
    change!(state.lazy);
    change!(state.eager);
    for task in 0..MOST_TASKS {
        change!(plan.base[task]);
        change!(plan.maximum[task]);
        change!(plan.uses[task]);
        change!(state.released[task]);
        change!(state.kept[task]);
        change!(state.delay[task]);
        change!(state.held[task]);
        for at in 0..MOST_TAKES {
            change!(state.takes[task][at]);
            change!(state.saved[task][at]);
        }
    }
    for lock in 0..MOST_LOCKS {
        change!(plan.ceiling[lock]);
        change!(plan.limit[lock]);
        change!(state.units[lock]);
        change!(state.owner[lock]);
    }
    Ok(())
}

/// The timed steps of a scene, by the ordinary scheduler.
fn moments(scene: &Scene) -> Vec<Moment> {
    let mut state = State::fresh();
    let mut moments = Vec::new();
    for turn in &scene.turns {
        if turn.timed {
            moments.push(Moment {
                proved: device::State::of(&state),
                ordinary: state.clone(),
                record: turn.record,
            });
        }
        // A refused event leaves the state as it was.
        let _ = state.act(scene.protocol, &scene.plan, &turn.record);
    }
    moments
}

/// Times both, round by round in turn: the whole step; and one that is refused
/// before the test of soundness, which does nothing but hand the state over.
pub fn measure(scene: &Scene, rounds: usize) {
    let moments = moments(scene);
    let count = moments.len() as u32;
    let protocol = black_box(scene.protocol);
    let ordinary_plan = &scene.plan;
    let proved_plan = &device::Plan::of(ordinary_plan);
    let none: Record = [0; 4];
    let mut times = [const { Vec::new() }; 4];
    for _ in 0..rounds {
        let moments = black_box(&moments);
        let mut add = |place: usize, step: &dyn Fn(&Moment)| {
            times[place].push(time(count, 1, || moments.iter().for_each(step)))
        };
        let proved = |m: &Moment, record| device::step(protocol, proved_plan, &m.proved, record);
        let ordinary =
            |m: &Moment, record| ordinary_step::step(protocol, ordinary_plan, &m.ordinary, record);
        add(0, &|m| done(proved(m, m.record)));
        add(1, &|m| done(ordinary(m, m.record)));
        add(2, &|m| done(proved(m, none)));
        add(3, &|m| done(ordinary(m, none)));
    }
    let [proved, ordinary, proved_copy, ordinary_copy] = times.map(Figure::of);
    let name = scene.protocol.name();
    report(&scene.name, name, "step", proved, ordinary);
    report("", "", "copy", proved_copy, ordinary_copy);
}
