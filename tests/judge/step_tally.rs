//! Counting what the generated steps by one protocol reached: how often each
//! number was the answer, which conditions of soundness were broken, alone too,
//! which figures were changed, and whether the rules that are easy to miss were
//! met.

use crate::protocol::Protocol;
use crate::refusals::{FROM_STEPS, WORDS};
use crate::sound::CONDITIONS;
use crate::step::Outcome;
use crate::step_rules::RULES;
use crate::taken::{Taken, SITUATIONS};
use crate::trials::Trial;
use crate::whole::{figure, FIGURES};

/// Each answer is given at least so often.
const LEAST_ANSWERS: usize = 100;
/// Each condition is broken at least so often, and so often alone.
const LEAST_BROKEN: usize = 50;
/// Each of the rules that are easy to miss is met at least so often.
const LEAST_MET: usize = 20;

pub struct StepTally {
    protocol: Protocol,
    steps: usize,
    answers: [usize; WORDS.len()],
    broken: [usize; CONDITIONS.len()],
    alone: [usize; CONDITIONS.len()],
    changed: Vec<usize>,
    met: [usize; RULES.len()],
    taken: [usize; SITUATIONS.len()],
}

impl StepTally {
    pub fn new(protocol: Protocol) -> StepTally {
        StepTally {
            protocol,
            steps: 0,
            answers: [0; WORDS.len()],
            broken: [0; CONDITIONS.len()],
            alone: [0; CONDITIONS.len()],
            changed: vec![0; FIGURES],
            met: [0; RULES.len()],
            taken: [0; SITUATIONS.len()],
        }
    }

    /// The rules that this protocol can meet, and how often they were met.
    fn rules(&self) -> impl Iterator<Item = (&'static str, usize)> + '_ {
        let all = RULES.into_iter().zip(self.met);
        let own = all.filter(|((_, of, _), _)| of.contains(&self.protocol));
        own.map(|((name, _, _), times)| (name, times))
    }

    /// The same of those about a lock that is taken again, which both can meet.
    fn taken(&self) -> impl Iterator<Item = (&'static str, usize)> + '_ {
        let all = SITUATIONS.iter().zip(self.taken);
        all.map(|(situation, times)| (situation.name, times))
    }

    /// The conditions that this protocol asks, by place.
    fn conditions(&self) -> impl Iterator<Item = usize> + '_ {
        (0..CONDITIONS.len()).filter(|place| CONDITIONS[*place].is_asked(self.protocol))
    }

    pub fn count(&mut self, trial: &Trial, outcome: &Outcome) {
        self.steps += 1;
        self.answers[usize::from(outcome.stepped.number)] += 1;
        for condition in &outcome.broken {
            self.broken[*condition] += 1;
        }
        if let [only] = outcome.broken[..] {
            self.alone[only] += 1;
        }
        if let Some(number) = trial.changed {
            self.changed[number] += 1;
        }
        for (times, (_, of, is_met)) in self.met.iter_mut().zip(RULES) {
            let is_own = of.contains(&self.protocol);
            *times += usize::from(is_own && is_met(trial, outcome));
        }
        if outcome.broken.is_empty() {
            self.count_taken(trial, outcome.stepped.number);
        }
    }

    fn count_taken(&mut self, trial: &Trial, number: u8) {
        let plan = trial.given.plan();
        let Some(taken) = Taken::at(&plan, &trial.given, trial.event) else {
            return;
        };
        for (times, is_met) in self.taken.iter_mut().zip(taken.is(number)) {
            *times += usize::from(is_met);
        }
    }

    /// What was met too seldom for the comparison to mean much.
    pub fn missing(&self) -> Vec<String> {
        let protocol = self.protocol.name();
        let mut missing = Vec::new();
        let mut ask = |what: String, times: usize, least: usize| {
            if times < least {
                let words =
                    format!("{what}: {times} times by the {protocol} protocol, not {least}");
                missing.push(words);
            }
        };
        for number in FROM_STEPS {
            let times = self.answers[usize::from(number)];
            ask(format!("answer {number} to a step"), times, LEAST_ANSWERS);
        }
        for place in self.conditions() {
            let name = CONDITIONS[place].name;
            ask(format!("broken: {name}"), self.broken[place], LEAST_BROKEN);
            ask(format!("alone: {name}"), self.alone[place], LEAST_BROKEN);
        }
        for (name, times) in self.rules().chain(self.taken()) {
            ask(name.to_string(), times, LEAST_MET);
        }
        let is_changed = |number: &usize| self.changed[*number] > 0;
        if let Some(number) = (0..FIGURES).find(|number| !is_changed(number)) {
            let (field, place) = figure(number);
            let times = (0..FIGURES).filter(is_changed).count();
            let what = format!("changed figures, not {}", field.figure_name(place));
            ask(what, times, FIGURES);
        }
        missing
    }

    pub fn print_table(&self) {
        let protocol = self.protocol.name();
        println!("answers of the generated steps by the {protocol} protocol:");
        println!("  no.   times  given when");
        for number in FROM_STEPS.map(usize::from) {
            println!(
                "  {number:>3} {:>7}  {}",
                self.answers[number], WORDS[number]
            );
        }
        println!("conditions of soundness:");
        println!("  broken   alone");
        for place in self.conditions() {
            let (broken, alone) = (self.broken[place], self.alone[place]);
            println!("  {broken:>6} {alone:>7}  {}", CONDITIONS[place].name);
        }
        println!("rules that are easy to miss:");
        for (name, times) in self.rules().chain(self.taken()) {
            println!("  {times:>6}  {name}");
        }
    }

    pub fn summary(&self) -> String {
        let least = self.changed.iter().min().unwrap_or(&0);
        format!(
            "{} generated steps by the {} protocol, {} accepted; each of {FIGURES} figures changed \
             at least {least} times",
            self.steps,
            self.protocol.name(),
            self.answers[0],
        )
    }
}
