//! RULES 19.5: `compose`, from a text to its book, or to the one line that says why there
//! is none.

use crate::book::Refusal;
use crate::forms::FORMS;
use crate::meanings::meaning;
use crate::text::{self, Fault, Mistake, Records, Unread};
use crate::wire::MOST_BYTES;
use crate::writer;
use crate::wrong::Wrong;

/// The bytes of the longest text.
pub const MOST_TEXT: usize = 1_048_576;

/// All that a program under judgement has to answer for a text. One of the two is empty.
#[derive(Clone, Default, PartialEq, Eq)]
pub struct Composed {
    pub book: Vec<u8>,
    pub line: Vec<u8>,
}

/// What came of a text.
#[derive(Clone, Copy, Debug, PartialEq, Eq)]
pub enum Ending {
    Book,
    TooLong,
    Mistake(Mistake),
    /// A refusal of the records, or of the items of a job, and the line that can be named.
    Refused(Refusal, Option<usize>),
}

pub struct Outcome {
    pub composed: Composed,
    pub ending: Ending,
}

pub fn compose(text: &[u8], wrong: Wrong) -> Outcome {
    let (book, ending) = match write(text, wrong) {
        Ok(book) => (book, Ending::Book),
        Err(ending) => (Vec::new(), ending),
    };
    let line = match ending {
        Ending::Book => Vec::new(),
        _ => format!("{}\n", in_words(ending)).into_bytes(),
    };
    Outcome {
        composed: Composed { book, line },
        ending,
    }
}

/// The book, or how it ended without one.
fn write(text: &[u8], wrong: Wrong) -> Result<Vec<u8>, Ending> {
    let most = match wrong {
        Wrong::OneByteFewer => MOST_TEXT - 1,
        _ => MOST_TEXT,
    };
    if text.len() > most {
        return Err(Ending::TooLong);
    }
    let records = text::read(text, wrong).map_err(|unread| match unread {
        Unread::Mistake(mistake) => Ending::Mistake(mistake),
        Unread::Items(refusal, line) => Ending::Refused(refusal, Some(line)),
    })?;
    let mut written = writer::write(&records.draft, MOST_BYTES, wrong);
    if written.number != 0 {
        let refusal = Refusal {
            number: written.number,
            place: written.place,
        };
        return Err(Ending::Refused(refusal, line_of(refusal, &records, wrong)));
    }
    written.buffer.truncate(written.length as usize);
    Ok(written.buffer)
}

/// The line of the record that a refusal names, or of the first that is too many.
fn line_of(refusal: Refusal, records: &Records, wrong: Wrong) -> Option<usize> {
    let place = refusal.place as usize;
    let (part, mut at) = match refusal.number {
        2 => (place - 1, wrong.most()[place - 1]),
        4 => (0, place),
        5 | 7 => (1, place),
        6 | 24 => (2, place),
        _ => (3, place),
    };
    let lines = &records.lines[part];
    if wrong == Wrong::LineOfNext && at + 1 < lines.len() {
        at += 1;
    }
    lines.get(at).copied()
}

fn in_words(ending: Ending) -> String {
    match ending {
        Ending::Book => String::new(),
        Ending::TooLong => format!("the text has more than {MOST_TEXT} bytes"),
        Ending::Mistake(mistake) => mistake_in_words(mistake),
        Ending::Refused(Refusal { number, place }, line) => {
            let line = line.map(|line| format!(", line {line}"));
            let (line, meaning) = (line.unwrap_or_default(), meaning(number));
            format!("refused {number} {place}{line}: {meaning}")
        }
    }
}

fn mistake_in_words(mistake: Mistake) -> String {
    let (line, word) = (mistake.line, mistake.word);
    let Some(form) = mistake.form.map(|at| &FORMS[at]) else {
        return format!(
            "line {line}: no record has this name; the names are {}",
            names()
        );
    };
    let what = match mistake.fault {
        Fault::NoName | Fault::Missing => "missing".to_string(),
        Fault::NoNumber => "no decimal number".to_string(),
        Fault::More => format!("more than {}", form.most[word - 2]),
        Fault::TooMany => "one too many".to_string(),
    };
    format!("line {line}: word {word} is {what}; write {}", form.line)
}

/// All names, as a sentence has them.
fn names() -> String {
    let names: Vec<&str> = FORMS.iter().map(|form| form.name()).collect();
    let (last, others) = names.split_last().expect("there are forms");
    format!("{} and {last}", others.join(", "))
}
