//! The hand-made steps: named plans, named states and cases from a file, each
//! case with the answer that was worked out from the rules by hand. How they
//! are written is told at the file's head.

use crate::compare;
use crate::event::Event;
use crate::notation::{columns, event, narrow, number, numbers, read_lines, split_word};
use crate::plan::{Lock, Plan};
use crate::protocol::{Protocol, PROTOCOLS};
use crate::state_notation::change;
use crate::step::{step, Outcome, Stepped};
use crate::trials::Trial;
use crate::whole::{Whole, ACCEPTED, DELAY, EAGER, LAZY, RUNNING, SECOND, USER};
use crate::wrong::Wrong;
use std::collections::HashMap;

const TEXT: &str = include_str!("../cases/steps.txt");

pub struct StepCase {
    pub trial: Trial,
    expected: Expected,
}

/// What the file says of the answer.
struct Expected {
    /// The number, and for an accepted event the call, who runs and the words.
    answer: Vec<u64>,
    /// The delays of the first tasks.
    delays: Option<Vec<u64>>,
    /// Accepted events, lazy and eager calls.
    counts: Option<Vec<u64>>,
    /// The whole state after the event.
    becomes: Option<Whole>,
}

pub fn cases() -> Result<Vec<StepCase>, String> {
    let mut reader = Reader::new();
    read_lines(TEXT, |line| reader.read(line)).map_err(|error| format!("steps.txt, {error}"))?;
    Ok(reader.cases)
}

struct Reader {
    plans: HashMap<&'static str, Plan>,
    states: HashMap<&'static str, Whole>,
    /// By which protocols the lines step that follow.
    protocols: &'static [Protocol],
    cases: Vec<StepCase>,
}

/// What a line `protocol ..` can say.
const SAID: [(&str, &[Protocol]); 3] = [
    ("second", &[Protocol::Second]),
    ("first", &[Protocol::First]),
    ("both", &PROTOCOLS),
];

impl Reader {
    fn new() -> Reader {
        Reader {
            plans: HashMap::new(),
            states: HashMap::new(),
            protocols: &[Protocol::Second],
            cases: Vec::new(),
        }
    }

    fn read(&mut self, line: &'static str) -> Result<(), String> {
        if line.contains('|') {
            let columns = columns(line);
            let is_same = |other: &StepCase| other.trial.name == columns[0];
            if self.cases.iter().any(is_same) {
                return Err("another case has this name".to_string());
            }
            for protocol in self.protocols {
                let case = self.case(&columns, *protocol)?;
                self.cases.push(case);
            }
            return Ok(());
        }
        let (kind, rest) = split_word(line);
        if kind == "protocol" {
            let said = SAID.iter().find(|(name, _)| *name == rest);
            self.protocols = said.ok_or(format!("{rest} is no protocol"))?.1;
            return Ok(());
        }
        let (name, text) = rest.split_once('=').ok_or("no `=` and no columns")?;
        let is_new = match kind {
            "plan" => self.plans.insert(name.trim(), plan(text)?).is_none(),
            "state" => {
                let state = self.state(text, self.protocols[0])?;
                self.states.insert(name.trim(), state).is_none()
            }
            _ => return Err(format!("{kind} is neither a plan nor a state")),
        };
        is_new.then_some(()).ok_or("the name is taken".to_string())
    }

    /// NAME | state | event | answer, and further columns for the state after.
    fn case(&self, columns: &[&str], protocol: Protocol) -> Result<StepCase, String> {
        let [name, given, happens, answer, further @ ..] = columns else {
            return Err("too few columns".to_string());
        };
        let mut expected = Expected {
            answer: self::answer(answer, protocol)?,
            delays: None,
            counts: None,
            becomes: None,
        };
        for column in further {
            let (kind, rest) = split_word(column);
            match kind {
                "delays" => expected.delays = Some(numbers(rest)?),
                "counts" => expected.counts = Some(numbers(rest)?),
                "becomes" => expected.becomes = Some(self.state(rest, protocol)?),
                _ => return Err(format!("{column} says nothing of a state")),
            }
        }
        let trial = Trial {
            name: name.to_string(),
            protocol,
            given: self.state(given, self.protocols[0])?,
            event: event(happens)?,
            changed: None,
            aimed: None,
        };
        Ok(StepCase { trial, expected })
    }

    /// A known state or the fresh start of a plan, then changes.
    fn state(&self, text: &str, protocol: Protocol) -> Result<Whole, String> {
        let mut items = text.split(',').map(str::trim);
        let first = items.next().unwrap_or_default();
        let known = match first.strip_prefix("fresh of ") {
            Some(name) => self.plans.get(name).map(Whole::fresh),
            None => self.states.get(first).cloned(),
        };
        let mut whole = known.ok_or_else(|| format!("{first} is unknown"))?;
        for item in items {
            match item.strip_prefix("then ") {
                Some(happens) => whole = after(&whole, event(happens)?, protocol)?,
                None => change(&mut whole, item)?,
            }
        }
        Ok(whole)
    }
}

/// `0 call running user second`, or `number same`. Where the protocols answer
/// differently, `/` parts the second's number from the first's.
fn answer(text: &str, protocol: Protocol) -> Result<Vec<u64>, String> {
    if let Some(refusal) = text.strip_suffix(" same") {
        return Ok(vec![number(refusal)?]);
    }
    let of_protocol = |word| match (split_slash(word), protocol) {
        ((second, _), Protocol::Second) => second,
        ((_, first), Protocol::First) => first,
    };
    let words: Vec<&str> = text.split_whitespace().map(of_protocol).collect();
    let answer = numbers(&words.join(" "))?;
    if answer.len() == 5 && answer[0] == 0 {
        return Ok(answer);
    }
    Err(format!("{text} is no answer"))
}

/// What stands for the second protocol, and what for the first.
fn split_slash(word: &str) -> (&str, &str) {
    word.split_once('/').unwrap_or((word, word))
}

/// The state after an event, which has to be accepted.
fn after(whole: &Whole, event: Event, protocol: Protocol) -> Result<Whole, String> {
    let stepped = step(whole, event, protocol, Wrong::Nothing).stepped;
    match stepped.number {
        0 => Ok(stepped.after),
        number => Err(format!("{event:?} is refused with {number}")),
    }
}

/// `bases B ..`, `maxima M ..` and `lock CEILING LIMIT of TASK ..`, parted by
/// commas; each may end with `times N`. Without maxima all are the greatest.
pub fn plan(text: &str) -> Result<Plan, String> {
    let mut plan = Plan {
        bases: Vec::new(),
        maxima: Vec::new(),
        locks: Vec::new(),
        uses: Vec::new(),
    };
    for item in text
        .split(',')
        .map(str::trim)
        .filter(|item| !item.is_empty())
    {
        let (item, times) = item.split_once(" times ").unwrap_or((item, "1"));
        for _ in 0..number(times)? {
            add_to_plan(&mut plan, item)?;
        }
    }
    if plan.maxima.is_empty() {
        plan.maxima = vec![u8::MAX; plan.bases.len()];
    }
    if plan.maxima.len() != plan.bases.len() {
        return Err("not as many maxima as bases".to_string());
    }
    plan.uses.sort_unstable();
    Ok(plan)
}

fn add_to_plan(plan: &mut Plan, item: &str) -> Result<(), String> {
    let (kind, rest) = split_word(item);
    let of_tasks = match kind {
        "bases" => Some(&mut plan.bases),
        "maxima" => Some(&mut plan.maxima),
        _ => None,
    };
    if let Some(figures) = of_tasks {
        for figure in rest.split_whitespace() {
            figures.push(narrow(figure)?);
        }
        return Ok(());
    }
    let (lock, users) = rest
        .split_once(" of ")
        .ok_or_else(|| format!("{item} has no users"))?;
    let (ceiling, limit) = split_word(lock);
    let place = plan.locks.len() as u8;
    plan.locks.push(Lock {
        ceiling: narrow(ceiling)?,
        limit: narrow(limit)?,
    });
    for user in users.split_whitespace() {
        plan.uses.push((narrow(user)?, place));
    }
    Ok(())
}

impl Expected {
    /// Where an answer is another than the expected one, in words.
    fn against(&self, stepped: &Stepped) -> Vec<String> {
        let after = &stepped.after;
        let mut answer = vec![u64::from(stepped.number)];
        if stepped.number == 0 {
            answer.push(u64::from(stepped.call));
            answer.extend([RUNNING, USER, SECOND].map(|field| after.get(field, 0)));
        }
        let mut wrong = Vec::new();
        let mut hold = |what: &str, wanted: &[u64], got: Vec<u64>| {
            if wanted != got {
                wrong.push(format!("{what} {got:?}, by hand {wanted:?}"));
            }
        };
        hold("answer", &self.answer, answer);
        if let Some(delays) = &self.delays {
            let got = (0..delays.len()).map(|task| after.get(DELAY, task));
            hold("delays", delays, got.collect());
        }
        if let Some(counts) = &self.counts {
            let got = [ACCEPTED, LAZY, EAGER].map(|field| after.get(field, 0));
            hold("counts", counts, got.to_vec());
        }
        if let Some(becomes) = &self.becomes {
            wrong.extend(compare::figures(after, becomes, "the hand"));
        }
        wrong
    }
}

impl StepCase {
    /// Where the judge's own answer is another than that by hand.
    fn against(&self, outcome: &Outcome) -> Vec<String> {
        let mut wrong = self.expected.against(&outcome.stepped);
        wrong.extend(outcome.violation.clone());
        wrong
            .iter()
            .map(|words| {
                let (name, protocol) = (&self.trial.name, self.trial.protocol.name());
                format!("{name} by the {protocol} protocol: {words}")
            })
            .collect()
    }
}

/// The judge's own answers against those by hand; those that differ.
pub fn test(cases: &[StepCase]) -> Vec<String> {
    let own = |case: &StepCase| case.against(&case.trial.step(Wrong::Nothing));
    cases.iter().flat_map(own).collect()
}
