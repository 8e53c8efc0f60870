//! A composing: a text, right or wrong, that is to become a book.

use crate::compose::{compose, Composed, Ending, MOST_TEXT};
use crate::draft::Draft;
use crate::generate::Case;
use crate::show::{show, tested};
use crate::wrong::Wrong;
use std::sync::Arc;

pub struct Composing {
    pub name: String,
    pub text: Vec<u8>,
    /// The accepted book that the text shows: it has to come back.
    pub shown: Option<Arc<Case>>,
    /// What was worked out beside the reader: how it has to end.
    pub made_for: Option<Foretold>,
}

pub struct Foretold {
    pub ending: Ending,
    /// The records that the text was made of: where there is a book, it has these.
    pub records: Option<Draft>,
}

pub struct Outcome {
    pub composed: Composed,
    pub ending: Ending,
    /// What the judge demands of itself and did not hold, in words.
    pub violation: Option<String>,
}

impl Composing {
    /// The shown book is to be composed again. The text is the judge's: a program that
    /// shows the book as it should has written the same, and is found out otherwise.
    pub fn of_book(case: &Arc<Case>) -> Composing {
        let is_accepted = tested(&case.book, Wrong::Nothing).is_ok();
        Composing {
            name: format!("what shows {}", case.name),
            text: show(&case.book, Wrong::Nothing).into_bytes(),
            shown: is_accepted.then(|| Arc::clone(case)),
            made_for: None,
        }
    }

    pub fn compose(&self, wrong: Wrong) -> Outcome {
        let outcome = compose(&self.text, wrong);
        let (composed, ending) = (outcome.composed, outcome.ending);
        let violation = match wrong {
            Wrong::Nothing => self.violation(&composed, ending),
            _ => None,
        };
        Outcome {
            composed,
            ending,
            violation,
        }
    }

    fn violation(&self, composed: &Composed, ending: Ending) -> Option<String> {
        if let Some(foretold) = &self.made_for {
            let wanted = foretold.ending;
            if wanted != ending {
                let words = format!("it ends with {ending:?}, and was made for {wanted:?}");
                return Some(words);
            }
            let book = foretold.records.as_ref().map(Draft::bytes);
            if ending == Ending::Book && book.is_some_and(|book| book != composed.book) {
                return Some("the book has other records than the text was made of".to_string());
            }
        }
        if self.shown.is_some() && self.text.len() > MOST_TEXT {
            return Some(format!("a shown book has {} bytes", self.text.len()));
        }
        self.broken(composed).into_iter().next()
    }

    /// What does not hold of any right answer, in words: there is a book or a line, and a
    /// book that was shown comes back.
    pub fn broken(&self, composed: &Composed) -> Vec<String> {
        let mut broken = Vec::new();
        if composed.book.is_empty() == composed.line.is_empty() {
            let (book, line) = (composed.book.len(), composed.line.len());
            broken.push(format!("a book of {book} bytes and a line of {line}"));
        }
        if let Some(case) = &self.shown {
            if composed.book != case.book {
                broken.push("the shown book does not come back".to_string());
            }
        }
        broken
    }

    pub fn told(&self) -> String {
        format!("{}, {} bytes", self.name, self.text.len())
    }
}
