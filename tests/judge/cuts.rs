//! What a kernel entry cuts: a user word above the maximum of the running task. No
//! program can show it, since such a state is not sound and a step from it is refused
//! by 10. So the judge's own scheduler is tried here on states that are made up, past
//! the test of soundness, with answers that were worked out by hand.
//!
//! The plan is the crane plan: tasks 0 to 3 have bases 1, 3, 5, 7 and maxima 5, 5, 5,
//! 7; locks 0 and 1 have ceilings 5 and 3.

use crate::crane;
use crate::event::Event::{self, Acquire, Finish, Release, Tick, Unlock, Work};
use crate::plan::NOBODY;
use crate::protocol::{Protocol, PROTOCOLS};
use crate::resume::{figures, resume};
use crate::state_notation::change;
use crate::whole::{Whole, KEPT, RUNNING, SECOND, USER};
use crate::wrong::Wrong;

/// An event on a made-up state, and what it leaves.
struct Cut {
    name: &'static str,
    /// Figures beside those of the fresh start, as hand-made steps have them.
    given: &'static [&'static str],
    event: Event,
    /// How often the word is cut, or the number that the event is refused with.
    cuts: Result<u32, u8>,
    /// Who runs then, and the user word.
    runs: (u8, u8),
    /// The second word by the second protocol and by the first.
    words: [u8; 2],
    /// What is kept for task 0 then.
    kept: u8,
}

/// Task 0 runs.
const ZERO: &str = "accepted 3, released 0 1, running 0";
/// Tasks 1 and 3 wait.
const ONE: &str = "released 1 2, kept 1 3";
const THREE: &str = "released 3 3, kept 3 7";
/// Task 0 has lock 0 open, and its unlock puts 1 back, as it should, or 6.
const OPEN: &str = "depth 0 1, row 0 0, saved 0 1, owner 0 1";
const OPEN_OVER_6: &str = "depth 0 1, row 0 0, saved 0 6, owner 0 1";
/// The plan breaks 24: lock 0 raises task 0 above its maximum.
const LOW: &str = "maximum 0 3";

#[rustfmt::skip] // a line each
const CUTS: [Cut; 24] = [
    // A tick cuts, and the kernel word is what is left. At the maximum there is nothing to cut.
    cut("a tick", &[ZERO, "user 9"], Tick, Ok(1), (0, 5), [0, 5], 0),
    cut("a tick, one above the maximum", &[ZERO, "user 6"], Tick, Ok(1), (0, 5), [0, 5], 0),
    cut("a tick at the maximum", &[ZERO, "user 5"], Tick, Ok(0), (0, 5), [0, 5], 0),
    cut("a tick, the greatest word", &[ZERO, "user 255"], Tick, Ok(1), (0, 5), [0, 5], 0),
    cut("a tick beside another", &[ZERO, "user 9", ONE], Tick, Ok(1), (0, 5), [3, 5], 0),
    cut("a tick with a low maximum", &[LOW, ZERO, OPEN, "user 5"], Tick, Ok(1), (0, 3), [0, 3], 0),
    // The maximum is that of who runs: 7 for task 3.
    cut("a tick of task 3 at 7", &["accepted 1, released 3 1, running 3, user 7"], Tick, Ok(0), (3, 7), [0, 7], 0),
    cut("a tick of task 3 at 8", &["accepted 1, released 3 1, running 3, user 8"], Tick, Ok(1), (3, 7), [0, 7], 0),
    cut("a tick with nobody", &[], Tick, Ok(0), (NOBODY, 0), [0, 0], 0),
    // A release cuts before it asks whether the base is above the word: 7 is above 5 and not above 9. What is kept
    // for who leaves is what is left.
    cut("a release that switches", &[ZERO, "user 9"], Release(3), Ok(1), (3, 7), [5, 7], 5),
    cut("a release that does not", &[ZERO, "user 9"], Release(1), Ok(1), (0, 5), [3, 5], 0),
    cut("a release at the maximum", &[ZERO, "user 9"], Release(2), Ok(1), (0, 5), [5, 5], 0),
    cut("a release with a low maximum", &[LOW, ZERO, OPEN, "user 5"], Release(2), Ok(1), (2, 5), [3, 5], 3),
    cut("a release that is refused", &[ZERO, "user 9"], Release(0), Err(14), (0, 9), [0, 0], 0),
    // A finish cuts too, though nothing of the word stays.
    cut("a finish", &[ZERO, "user 9"], Finish, Ok(1), (NOBODY, 0), [0, 0], 0),
    cut("a finish beside another", &[ZERO, "user 9", ONE], Finish, Ok(1), (1, 3), [0, 3], 0),
    cut("a finish that is refused", &[LOW, ZERO, OPEN, "user 5"], Finish, Err(22), (0, 5), [0, 0], 0),
    // A call cuts what the unlock has put back, and that is kept. Whether there is a call is asked before: 6 is below
    // 7. What the word was before the unlock is nothing to the kernel.
    cut("a call", &[ZERO, OPEN_OVER_6, "user 9, second 7", THREE], Unlock(0), Ok(1), (3, 7), [5, 7], 5),
    cut("a call that elects the same task", &[ZERO, OPEN_OVER_6, "user 9, second 7"], Unlock(0), Ok(1), (0, 5), [0, 5], 0),
    cut("a call from above the maximum", &[ZERO, OPEN, "user 9, second 7", THREE], Unlock(0), Ok(0), (3, 7), [1, 7], 1),
    // No entry, no cut.
    cut("an unlock without a call", &[ZERO, OPEN_OVER_6, "user 9, second 6", THREE], Unlock(0), Ok(0), (0, 6), [6, 6], 0),
    cut("an acquire", &[ZERO, "user 9"], Acquire(0), Ok(0), (0, 9), [0, 0], 0),
    cut("an acquire above the maximum", &[LOW, ZERO, "user 1"], Acquire(0), Ok(0), (0, 5), [0, 0], 0),
    cut("a work", &[ZERO, "user 9"], Work(1), Ok(0), (0, 9), [0, 0], 0),
];

const fn cut(
    name: &'static str,
    given: &'static [&'static str],
    event: Event,
    cuts: Result<u32, u8>,
    runs: (u8, u8),
    words: [u8; 2],
    kept: u8,
) -> Cut {
    Cut {
        name,
        given,
        event,
        cuts,
        runs,
        words,
        kept,
    }
}

/// Each by both protocols; how many were tried, and those that differ.
pub fn test() -> (usize, Vec<String>) {
    let mut failed = Vec::new();
    for case in &CUTS {
        for (protocol, second) in PROTOCOLS.into_iter().zip(case.words) {
            if let Err(words) = case.test(protocol, second) {
                let (name, by) = (case.name, protocol.name());
                failed.push(format!("{name} by the {by} protocol: {words}"));
            }
        }
    }
    (CUTS.len() * PROTOCOLS.len(), failed)
}

impl Cut {
    fn test(&self, protocol: Protocol, second: u8) -> Result<(), String> {
        let given = self.given()?;
        let plan = given.plan();
        let mut lazy = resume(&plan, &given, protocol, Wrong::Nothing);
        let answer = lazy.step(self.event);
        let after = figures(&lazy);
        if answer.is_err() && (lazy.cuts > 0 || after != given) {
            return Err("a refused event changes the state".to_string());
        }
        let cuts = answer.map(|_| lazy.cuts);
        let got = [RUNNING, USER, SECOND, KEPT].map(|field| after.get(field, 0));
        let (running, user) = self.runs;
        let wanted = [running, user, second, self.kept].map(u64::from);
        if (cuts, got) == (self.cuts, wanted) {
            return Ok(());
        }
        let by_hand = self.cuts;
        Err(format!(
            "{cuts:?} and {got:?}, by hand {by_hand:?} and {wanted:?}"
        ))
    }

    fn given(&self) -> Result<Whole, String> {
        let mut given = Whole::fresh(&crane::plan());
        let items = self.given.iter().flat_map(|items| items.split(','));
        for item in items {
            change(&mut given, item.trim())?;
        }
        Ok(given)
    }
}
