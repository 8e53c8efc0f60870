//! What was made by hand: the cases of the seven files and the set pieces, each
//! with its expected answer. The judge's own answers are held against these
//! before any program's are held against the judge's.

use crate::book_cases::{self, BookCase};
use crate::boundaries::{self, SetPiece};
use crate::job_cases::{self, JobCase};
use crate::run_cases::{self, RunCase};
use crate::show_cases::{self, ShowCase};
use crate::step_cases::{self, StepCase};
use crate::text_cases::{self, TextCase};
use crate::write_cases::{self, WriteCase};

pub struct ByHand {
    pub steps: Vec<StepCase>,
    pub runs: Vec<RunCase>,
    pub books: Vec<BookCase>,
    pub pieces: Vec<SetPiece>,
    pub writings: Vec<WriteCase>,
    pub texts: Vec<TextCase>,
    pub shows: Vec<ShowCase>,
    pub jobs: Vec<JobCase>,
}

/// Nothing if a case cannot be read, which is told.
pub fn read() -> Option<ByHand> {
    let told = |error: String| println!("{error}");
    Some(ByHand {
        steps: step_cases::cases().map_err(told).ok()?,
        runs: run_cases::cases().map_err(told).ok()?,
        books: book_cases::cases().map_err(told).ok()?,
        pieces: boundaries::set_pieces(),
        writings: write_cases::cases().map_err(told).ok()?,
        texts: text_cases::cases().map_err(told).ok()?,
        shows: show_cases::cases().map_err(told).ok()?,
        jobs: job_cases::cases().map_err(told).ok()?,
    })
}

impl ByHand {
    /// Tests the judge itself and tells the outcome; false if anything differs.
    pub fn test(&self) -> bool {
        let steps = (self.steps.len(), step_cases::test(&self.steps));
        let runs = (self.runs.len(), run_cases::test(&self.runs));
        let books = (self.books.len(), book_cases::test(&self.books));
        let pieces = (self.pieces.len(), boundaries::test(&self.pieces));
        let writings = (self.writings.len(), write_cases::test(&self.writings));
        let texts = (self.texts.len(), text_cases::test(&self.texts));
        let shows = (self.shows.len(), show_cases::test(&self.shows));
        let jobs = (self.jobs.len(), job_cases::test(&self.jobs));
        let mut right = tell("hand-made steps", steps);
        right &= tell("hand-made runs", runs);
        right &= tell("hand-made books", books);
        right &= tell("hand-made writings", writings);
        right &= tell("hand-made texts", texts);
        right &= tell("hand-made shows and explanations", shows);
        right &= tell("hand-made jobs", jobs);
        right & tell("set pieces at the edges of the rules", pieces)
    }
}

/// How many tests were done and which failed; false if any did.
pub fn tell(what: &str, (done, failed): (usize, Vec<String>)) -> bool {
    println!("the judge on {done} {what}: {} failed", failed.len());
    for words in &failed {
        println!("  {words}");
    }
    failed.is_empty()
}
