//! A run against a program, and how it ends.

use crate::by_hand;
use crate::program::Program;
use crate::requests;
use crate::verdict::Verdict;
use crate::wrong::Wrong;
use crate::Options;

/// How a run ends.
#[derive(Clone, Copy, PartialEq, Eq)]
pub enum Ending {
    /// The program agrees with the judge.
    Agrees,
    /// The program differs from the judge, and nothing else is amiss.
    Differs,
    /// The run could not do what it had to: the judge's own demands don't hold,
    /// the program died or stopped replying, or too little was reached.
    Failed,
}

/// Judges the program. An error is a program that could not be started.
pub fn judge(options: &Options) -> Result<Ending, String> {
    if options.wrong == Wrong::Nothing {
        judge_program(options)
    } else {
        go_wrong(options)
    }
}

fn judge_program(options: &Options) -> Result<Ending, String> {
    let Some(by_hand) = by_hand::read() else {
        return Ok(Ending::Failed);
    };
    let is_sure = by_hand.test();
    let all = requests::by_hand(by_hand).chain(requests::generated(options.amounts));
    let mut program = Program::start(&options.commands[0], all)?;
    let mut verdict = Verdict::new(options);
    let has_replied = program.hear(|request, replies| {
        verdict.hear(request, replies)?;
        Ok(true)
    });
    let has_ended = program.end();
    let is_covered = has_replied && verdict.close();
    let is_valid = is_sure && has_replied && has_ended && verdict.violations == 0;
    let (ending, words) = match (is_valid, verdict.differing, is_covered) {
        (true, 0, true) => (Ending::Agrees, "the program agrees"),
        (true, 1.., _) => (Ending::Differs, "the program DIFFERS"),
        _ => (Ending::Failed, "FAILED"),
    };
    println!("{words}");
    Ok(ending)
}

/// The judge goes wrong on purpose. Only generated requests are sent, so that
/// the difference has to be found among them, and the first one ends the run.
fn go_wrong(options: &Options) -> Result<Ending, String> {
    let generated = requests::generated(options.amounts);
    let mut program = Program::start(&options.commands[0], generated)?;
    let mut verdict = Verdict::new(options);
    let is_whole = program.hear(|request, replies| {
        verdict.hear(request, replies)?;
        Ok(verdict.differing == 0)
    });
    program.kill();
    let heard = verdict.heard;
    println!("gone wrong as {:?}, after {heard} replies", options.wrong);
    Ok(match (is_whole, verdict.differing) {
        (false, _) => Ending::Failed,
        (true, 0) => Ending::Agrees,
        (true, _) => Ending::Differs,
    })
}
