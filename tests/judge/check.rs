//! The check of a book without its replay: the reader's tests 1 to 9 and 24, where
//! the event body starts, and the plan figure by figure.

use crate::book;
use crate::whole::Whole;

/// All that a program under judgement has to answer for the check of a book.
#[derive(Clone, PartialEq, Eq)]
pub struct Checked {
    /// 0 if the book passed.
    pub number: u8,
    pub place: u32,
    /// 0 where the book is refused.
    pub events_at: u32,
    /// The plan beside a blank state; all figures 0 where the book is refused.
    pub plan: Whole,
}

pub fn check(bytes: &[u8], row_space: usize) -> Checked {
    match book::read(bytes, row_space) {
        Ok(book) => Checked {
            number: 0,
            place: 0,
            events_at: book.events_at as u32,
            plan: Whole::of_plan(&book.plan),
        },
        Err(refusal) => Checked {
            number: refusal.number,
            place: refusal.place,
            events_at: 0,
            plan: Whole::blank(),
        },
    }
}
