//! A single step in ordinary Rust: the test of soundness, and then one event.
//!
//! The plan and the state are lent, and the state after the event is a new one,
//! as the library gives a new one back. So there is one copy of the state here.

use crate::ordinary::{
    is_wrong, Plan, Protocol, Record, State, MOST_ACCEPTED, MOST_LOCKS, MOST_TAKES, MOST_TASKS,
    NOBODY,
};

/// What a step answers.
pub struct Stepped {
    /// The refusal; 0 where the event is accepted.
    pub number: u8,
    /// 1 for a lazy call.
    pub calls: u8,
    /// After the event; the given one where it is refused.
    pub state: State,
}

/// 8 where the record is no event's, 10 where the state is not sound, and else
/// the event. It is a function by itself, as the library's is, so that it is
/// not fitted to the loop that times it.
#[inline(never)]
pub fn step(protocol: Protocol, plan: &Plan, state: &State, record: Record) -> Stepped {
    let mut after = state.clone();
    let answer = if is_no_event(record) {
        Err(8)
    } else if !is_sound(protocol, plan, state) {
        Err(10)
    } else {
        after.act(protocol, plan, &record)
    };
    Stepped {
        number: answer.err().unwrap_or(0),
        calls: u8::from(answer == Ok(true)),
        state: after,
    }
}

/// As 8 of a book; but work of 0 is an event, and is refused by 20.
fn is_no_event(record: Record) -> bool {
    match record {
        [4, id, _, _] => id != 0,
        _ => is_wrong(&record),
    }
}

pub fn is_sound(protocol: Protocol, plan: &Plan, state: &State) -> bool {
    plan_is_right(plan)
        && counts_are_sound(state)
        && runner_is_sound(plan, state)
        && tasks_and_locks_are_sound(protocol, plan, state)
        && rest_is_0(plan, state)
}

/// 2, 4 to 7 and 24, and nothing past the last task and the last lock.
fn plan_is_right(plan: &Plan) -> bool {
    let (tasks, locks) = (plan.tasks, plan.locks);
    if tasks == 0 || tasks > MOST_TASKS || locks > MOST_LOCKS {
        return false;
    }
    let base = &plan.base[..tasks];
    let maximum = &plan.maximum[..tasks];
    let uses = &plan.uses[..tasks];
    // How many users each lock has, and the greatest base among them; 0 without any.
    let mut users = [0u8; MOST_LOCKS];
    let mut greatest = [0; MOST_LOCKS];
    for ((&base, &maximum), &uses) in base.iter().zip(maximum).zip(uses) {
        if maximum < base {
            return false;
        }
        let mut left = uses;
        while left != 0 {
            let lock = left.trailing_zeros() as usize;
            if plan.ceiling[lock] > maximum {
                return false;
            }
            users[lock] += 1;
            greatest[lock] = base.max(greatest[lock]);
            left &= left - 1;
        }
    }
    // So a lock that the plan has not has no users.
    !base.contains(&0)
        && !plan.ceiling[..locks].contains(&0)
        && !plan.limit[..locks].contains(&0)
        && users[..locks].iter().all(|&count| count >= 2)
        && plan.ceiling == greatest
        && all_0(&plan.base[tasks..])
        && all_0(&plan.maximum[tasks..])
        && all_0(&plan.uses[tasks..])
        && all_0(&plan.ceiling[locks..])
        && all_0(&plan.limit[locks..])
}

fn counts_are_sound(state: &State) -> bool {
    state.accepted <= MOST_ACCEPTED && state.lazy <= state.accepted && state.eager <= state.accepted
}

/// A released task runs; or nobody, and none is released.
fn runner_is_sound(plan: &Plan, state: &State) -> bool {
    let released = &state.released[..plan.tasks];
    match state.running {
        NOBODY => state.user == 0 && all_0(released),
        running => released
            .get(usize::from(running))
            .is_some_and(|&number| number != 0),
    }
}

/// The figures of each task, with its row of takes; and then those of each lock,
/// by whether it is open.
fn tasks_and_locks_are_sound(protocol: Protocol, plan: &Plan, state: &State) -> bool {
    // The locks that are open for the tasks so far, and the greatest kept priority.
    let mut open = 0u32;
    let mut greatest = 0;
    for task in 0..plan.tasks {
        let number = state.released[task];
        let held = usize::from(state.held[task]);
        if held > MOST_TAKES || number > state.accepted {
            return false;
        }
        if number == 0 && held != 0 {
            return false;
        }
        // Release numbers differ. So this compares each with all before it.
        if number != 0 && state.released[..task].contains(&number) {
            return false;
        }
        // Each take of the row, from the oldest; it saved the priority that was. A lock
        // may be there again, but in no other row: it has one owner.
        let mut row = [0; MOST_TAKES];
        let mut saved = [0; MOST_TAKES];
        let mut priority = if number != 0 { plan.base[task] } else { 0 };
        for at in 0..held {
            let lock = usize::from(state.takes[task][at]);
            let is_sound = lock < plan.locks
                && plan.uses[task] >> lock & 1 != 0
                && usize::from(state.owner[lock]) == task + 1;
            if !is_sound {
                return false;
            }
            open |= 1 << lock;
            row[at] = lock as u8;
            saved[at] = priority;
            priority = priority.max(plan.ceiling[lock]);
        }
        if state.takes[task] != row || state.saved[task] != saved {
            return false;
        }
        let runs = task == usize::from(state.running);
        let (user, kept) = if runs {
            (priority, 0)
        } else {
            (state.user, priority)
        };
        if state.user != user || state.kept[task] != kept {
            return false;
        }
        greatest = kept.max(greatest);
    }
    let lock_is_sound = |lock: usize| match open >> lock & 1 {
        0 => state.owner[lock] == 0 && state.units[lock] == 0,
        _ => state.units[lock] <= plan.limit[lock],
    };
    let second_is_sound = match protocol {
        Protocol::Second => state.next == greatest,
        Protocol::First => state.next <= state.user,
    };
    second_is_sound && (0..plan.locks).all(lock_is_sound)
}

/// Nothing past the last task and the last lock.
fn rest_is_0(plan: &Plan, state: &State) -> bool {
    let (tasks, locks) = (plan.tasks, plan.locks);
    all_0(&state.released[tasks..])
        && all_0(&state.kept[tasks..])
        && all_0(&state.delay[tasks..])
        && all_0(&state.held[tasks..])
        && all_0(&state.takes[tasks..])
        && all_0(&state.saved[tasks..])
        && all_0(&state.units[locks..])
        && all_0(&state.owner[locks..])
}

fn all_0<T: Default + PartialEq>(figures: &[T]) -> bool {
    figures.iter().all(|figure| *figure == T::default())
}
