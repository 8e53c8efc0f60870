//! The hand-made runs, of the crane plan where nothing else is said: lists of events
//! from a file, with every row by both protocols, the calls and the delays, worked out
//! from the rules by hand. How they are written is told at the file's head.

use crate::crane;
use crate::draft::Draft;
use crate::event::Event;
use crate::generate::Case;
use crate::notation::{columns, event, narrow, numbers, read_lines, split_word};
use crate::plan::Plan;
use crate::protocol::{ByProtocol, Protocol, PROTOCOLS};
use crate::replay::{Answer, FILL};
use crate::step_cases::plan;
use crate::wrong::Wrong;
use std::collections::HashMap;

const TEXT: &str = include_str!("../cases/runs.txt");

pub struct RunCase {
    pub case: Case,
    /// By hand; the bounds are only there where they are said.
    expected: ByProtocol<Answer>,
}

pub fn cases() -> Result<Vec<RunCase>, String> {
    let mut reader = Reader {
        plans: HashMap::from([("crane", crane::plan())]),
        run: None,
        cases: Vec::new(),
    };
    read_lines(TEXT, |line| reader.read(line)).map_err(|error| format!("runs.txt, {error}"))?;
    if let Some(run) = reader.run {
        return Err(format!("runs.txt: {} has no end", run.name));
    }
    Ok(reader.cases)
}

/// A run whose end was not read yet.
struct Run {
    name: &'static str,
    plan: Plan,
    events: Vec<Event>,
    rows: ByProtocol<Vec<u8>>,
    /// The number of the last event's refusal.
    refused: Option<u8>,
}

struct Reader {
    plans: HashMap<&'static str, Plan>,
    run: Option<Run>,
    cases: Vec<RunCase>,
}

impl Reader {
    fn read(&mut self, line: &'static str) -> Result<(), String> {
        if let Some(rest) = line.strip_prefix("plan ") {
            let (name, text) = rest.split_once('=').ok_or("a plan has no `=`")?;
            let is_new = self.plans.insert(name.trim(), plan(text)?).is_none();
            return is_new.then_some(()).ok_or("the name is taken".to_string());
        }
        if let Some(rest) = line.strip_prefix("run ") {
            let (name, of) = rest.split_once('|').unwrap_or((rest, "crane"));
            return self.begin(name.trim(), of.trim());
        }
        let columns = columns(line);
        if columns[0] == "ends" {
            let run = self.run.take().ok_or("no run to end")?;
            self.cases.push(run.end(&columns[1..])?);
            return Ok(());
        }
        self.run.as_mut().ok_or("no run")?.event(&columns)
    }

    fn begin(&mut self, name: &'static str, of: &str) -> Result<(), String> {
        if self.run.is_some() {
            return Err("the run before it has no end".to_string());
        }
        if self.cases.iter().any(|other| other.case.name == told(name)) {
            return Err("another run has this name".to_string());
        }
        let plan = self.plans.get(of).ok_or(format!("{of} is no plan"))?;
        self.run = Some(Run {
            name,
            plan: plan.clone(),
            events: Vec::new(),
            rows: ByProtocol::default(),
            refused: None,
        });
        Ok(())
    }
}

fn told(name: &str) -> String {
    format!("run \"{name}\"")
}

impl Run {
    /// An event, and its row or its refusal.
    fn event(&mut self, columns: &[&str]) -> Result<(), String> {
        if self.refused.is_some() {
            return Err("nothing comes after a refusal".to_string());
        }
        self.events.push(event(columns[0])?);
        match columns[1..] {
            [refused] => {
                let number = refused.strip_prefix("refused ");
                self.refused = Some(narrow(number.ok_or("no row")?)?);
            }
            [both, second, first] => {
                for (protocol, own) in PROTOCOLS.into_iter().zip([second, first]) {
                    let row = [bytes(both)?, bytes(own)?].concat();
                    self.rows.of_mut(protocol).extend(row);
                }
            }
            _ => return Err("an event has four columns, a refused one two".to_string()),
        }
        Ok(())
    }

    /// `calls SECOND FIRST EAGER`, `delays D ..` and perhaps `bounds B ..`.
    fn end(self, columns: &[&str]) -> Result<RunCase, String> {
        let (mut calls, mut delays, mut bounds) = (Vec::new(), Vec::new(), Vec::new());
        for column in columns {
            let (kind, rest) = split_word(column);
            let list = match kind {
                "calls" => &mut calls,
                "delays" => &mut delays,
                "bounds" => &mut bounds,
                _ => return Err(format!("{column} says nothing of a run")),
            };
            *list = numbers(rest)?;
        }
        let [second, first, eager] = calls[..] else {
            return Err("a run has three numbers of calls".to_string());
        };
        let narrow = |list: &[u64]| list.iter().map(|number| *number as u16).collect();
        let row_space = 4 * self.events.len();
        let place = self.refused.map_or(0, |_| self.events.len() - 1);
        let expected = ByProtocol::each(|protocol| {
            let mut rows = self.rows.of(protocol).clone();
            rows.resize(row_space, FILL);
            let lazy = match protocol {
                Protocol::First => first,
                Protocol::Second => second,
            };
            Answer {
                number: self.refused.unwrap_or(0),
                place: place as u32,
                lazy_calls: lazy as u32,
                eager_calls: eager as u32,
                delays: narrow(&delays),
                bounds: narrow(&bounds),
                rows,
            }
        });
        let case = Case {
            name: told(self.name),
            book: Draft::of(&self.plan, &self.events).bytes(),
            row_space,
        };
        Ok(RunCase { case, expected })
    }
}

/// Two bytes of a row.
fn bytes(text: &str) -> Result<Vec<u8>, String> {
    let two: Vec<&str> = text.split_whitespace().collect();
    if two.len() != 2 {
        return Err(format!("{text} is no half of a row"));
    }
    two.into_iter().map(narrow).collect()
}

impl RunCase {
    /// Where an answer is another than the one by hand, in words.
    fn against(&self, protocol: Protocol, answer: &Answer) -> Option<String> {
        let mut expected = self.expected.of(protocol).clone();
        if expected.bounds.is_empty() {
            expected.bounds.clone_from(&answer.bounds);
        }
        if expected == *answer {
            return None;
        }
        let (name, by) = (&self.case.name, protocol.name());
        let words = format!("{name} by the {by} protocol: {answer:?}, by hand {expected:?}");
        Some(words)
    }

    /// Whether a judge gone wrong answers otherwise than by hand.
    pub fn tells(&self, wrong: Wrong) -> bool {
        let answers = self.case.replay(wrong).answers;
        let is_other = |protocol| self.against(protocol, answers.of(protocol)).is_some();
        PROTOCOLS.into_iter().any(is_other)
    }
}

/// The judge's own answers against those by hand; those that differ. P1 to P12, T1 to T7
/// and the paper's run have the events of the tables in `crane.rs`.
pub fn test(cases: &[RunCase]) -> Vec<String> {
    let mut failed = Vec::new();
    for case in cases {
        let outcome = case.case.replay(Wrong::Nothing);
        failed.extend(outcome.violation);
        let against = |protocol| case.against(protocol, outcome.answers.of(protocol));
        failed.extend(PROTOCOLS.into_iter().filter_map(against));
    }
    let of_crane = crane::RUNS.into_iter().chain(crane::TAKEN_AGAIN);
    let of_crane = of_crane.map(|(name, events)| (name, crane::book(events)));
    let of_paper = Draft::of(&crane::plan_of_paper(), &crane::RUN_OF_PAPER).bytes();
    for (name, book) in of_crane.chain([("the paper's run", of_paper)]) {
        let is_this = |case: &RunCase| case.case.name == told(name) && case.case.book == book;
        if !cases.iter().any(is_this) {
            failed.push(format!("{name} is not among the runs, or has other events"));
        }
    }
    failed
}
