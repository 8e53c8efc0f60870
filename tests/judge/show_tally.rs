//! Counting what the generated books reached that were shown and explained: each sort of
//! line that there is.

use crate::protocol::{ByProtocol, Protocol};

/// Each sort of line is met so often.
const LEAST_MET: usize = 5;

/// The refusals of books, and those of events that a book can meet.
const OF_BOOKS: [u8; 9] = [1, 2, 3, 4, 5, 6, 7, 24, 8];
const OF_EVENTS: [u8; 8] = [12, 13, 14, 15, 18, 19, 21, 22];

/// A sort of line: its name, what a line of it has, and what it ends with.
type Sort = (String, String, &'static str);

#[rustfmt::skip] // a line each
const SHOWN: [(&str, &str, &str); 14] = [
    ("the tasks are counted", "# ", " tasks: base, maximum"),
    ("a task", "task ", ""),
    ("the locks are counted", "# ", " locks: ceiling, limit"),
    ("a lock", "lock ", ""),
    ("a lock with a second byte", "# lock ", " in its second byte"),
    ("the uses are counted", "# ", " uses: task, lock"),
    ("a use", "use ", ""),
    ("the events are counted", "# ", " events"),
    ("an event after which a task runs", " runs at ", ""),
    ("an event after which nobody runs", ": nobody", " runs"),
    ("an event that was not reached", ": not", " reached"),
    ("an event without words", "# kind ", ""),
    ("the bytes are counted", "# the book has ", " bytes"),
    ("an entry", "# entry ", ""),
];

#[rustfmt::skip] // a line each
const EXPLAINED: [(&str, &str, &str); 19] = [
    ("a call for which a task had waited", " and runs at ", ""),
    (NOBODY_WAITED, "; nobody had waited for task ", ""),
    ("no call", "no call of the kernel", ""),
    ("12 explained", "every task that was released has finished", ""),
    ("13 explained", "the plan has ", " locks, counted from 0"),
    ("14 explained", "task ", " has not finished since its release"),
    ("15 explained", "the plan gives task ", ""),
    ("18 explained", "task ", " may have no more"),
    ("19 explained by the newest take", "the newest take of task ", " was to be given back"),
    ("19 explained where no lock is open", " has no lock open, and lock ", " was to be given back"),
    ("21 explained", " units of the ", " more would pass them"),
    ("22 explained", " has lock ", " open"),
    ("the bytes of a refused book", "# the book has ", ""),
    ("an entry of a refused book", "# entry ", ""),
    ("a task of a refused book", "task ", " # "),
    ("a lock of a refused book", "lock ", " # "),
    ("a lock of a refused book, with a second byte", "# lock ", ""),
    ("a use of a refused book", "use ", " # "),
    ("an event of a refused book", "# kind ", ""),
];

/// Two lines of a shown book, one after the other: the sort, what the first and the second
/// start with, and what the second has. Where both start alike they name the same lock.
#[rustfmt::skip] // a line each
const PAIRS: [(&str, &str, &str, &str); 6] = [
    ("a lock taken twice, one after the other", "acquire ", "acquire ", " runs at "),
    ("a lock given back twice, one after the other", "unlock ", "unlock ", " runs at "),
    ("work after a return", "unlock ", "work ", " runs at "),
    ("18 for a lock taken just before", "acquire ", "acquire ", ": refused 18: "),
    ("21 after a return", "unlock ", "work ", ": refused 21: "),
    ("22 after a return", "unlock ", "finish ", ": refused 22: "),
];

/// Whether two lines are of such a sort.
fn is_pair(first: &str, second: &str, (_, one, other, has): (&str, &str, &str, &str)) -> bool {
    let starts_so = first.starts_with(one) && second.starts_with(other);
    let named = |line: &str| line.split(' ').nth(1).map(str::to_string);
    let is_same = one != other || named(first) == named(second);
    starts_so && is_same && second.contains(has)
}

/// The sort of line that the second protocol never has: at a call somebody has waited.
const NOBODY_WAITED: &str = "a call for which nobody had waited";

/// The sorts, and after them the refusals.
fn sorts(named: &[(&str, &str, &'static str)]) -> Vec<Sort> {
    let named = named.iter();
    let named = named.map(|(name, has, ends)| (name.to_string(), has.to_string(), *ends));
    let of_books = OF_BOOKS.map(|number| {
        let name = format!("a book refused by {number}");
        (name, format!("refused {number} "), "")
    });
    let of_events = OF_EVENTS.map(|number| {
        let name = format!("an event refused by {number}");
        (name, format!(": refused {number}: "), "")
    });
    named.chain(of_books).chain(of_events).collect()
}

/// Whether a line is of a sort. What it has stands at its start, unless that starts with a
/// space or a mark; a record's comment is a number.
fn is_of(line: &str, (_, has, ends): &Sort) -> bool {
    let is_inner = has.starts_with([' ', ':', ';']) || has.starts_with("refused");
    let has_it = match is_inner {
        true => line.contains(has.as_str()),
        false => line.starts_with(has.as_str()),
    };
    let ends_so = match *ends {
        " # " => line
            .trim_end_matches(|digit: char| digit.is_ascii_digit())
            .ends_with(" # "),
        ends => line.ends_with(ends),
    };
    has_it && ends_so
}

/// How often each sort of line was met.
struct Lines {
    sorts: Vec<Sort>,
    times: Vec<usize>,
    texts: usize,
    bytes: usize,
}

impl Lines {
    fn of(named: &[(&str, &str, &'static str)]) -> Lines {
        let sorts = sorts(named);
        Lines {
            times: vec![0; sorts.len()],
            sorts,
            texts: 0,
            bytes: 0,
        }
    }

    fn count(&mut self, text: &str) {
        self.texts += 1;
        self.bytes += text.len();
        for line in text.lines() {
            for (times, sort) in self.times.iter_mut().zip(&self.sorts) {
                *times += usize::from(is_of(line, sort));
            }
        }
    }

    /// How often the sorts were met whose names start so.
    fn sum(&self, start: &str) -> usize {
        let all = self.sorts.iter().zip(&self.times);
        let named = all.filter(|((name, ..), _)| name.starts_with(start));
        named.map(|(_, times)| times).sum()
    }

    /// The names of those that were met too seldom.
    fn seldom(&self, what: &str) -> Vec<String> {
        let all = self.sorts.iter().zip(&self.times);
        let seldom = all.filter(|(_, times)| **times < LEAST_MET);
        seldom
            .map(|((name, ..), times)| format!("{what}, {name}: {times} times, not {LEAST_MET}"))
            .collect()
    }
}

pub struct ShowTally {
    shown: Lines,
    pairs: [usize; PAIRS.len()],
    explained: ByProtocol<Lines>,
}

impl ShowTally {
    pub fn new() -> ShowTally {
        ShowTally {
            shown: Lines::of(&SHOWN),
            pairs: [0; PAIRS.len()],
            explained: ByProtocol::each(|_| Lines::of(&EXPLAINED)),
        }
    }

    pub fn count_shown(&mut self, text: &str) {
        self.shown.count(text);
        let lines: Vec<&str> = text.lines().collect();
        for two in lines.windows(2) {
            for (times, pair) in self.pairs.iter_mut().zip(PAIRS) {
                *times += usize::from(is_pair(two[0], two[1], pair));
            }
        }
    }

    pub fn count_explained(&mut self, words: &str, protocol: Protocol) {
        self.explained.of_mut(protocol).count(words);
    }

    /// What was met too seldom for the comparison to mean much.
    pub fn missing(&self) -> Vec<String> {
        let mut second = self
            .explained
            .second
            .seldom("explained by the second protocol");
        second.retain(|words| !words.contains(NOBODY_WAITED));
        let first = self
            .explained
            .first
            .seldom("explained by the first protocol");
        let pairs = PAIRS.iter().zip(self.pairs);
        let pairs = pairs.filter(|(_, times)| *times < LEAST_MET);
        let pairs = pairs.map(|((name, ..), times)| format!("shown, {name}: {times} times"));
        [self.shown.seldom("shown"), pairs.collect(), second, first].concat()
    }

    pub fn print_table(&self) {
        println!("lines of the generated books that were shown:");
        for ((name, ..), times) in self.shown.sorts.iter().zip(&self.shown.times) {
            println!("  {times:>6}  {name}");
        }
        for ((name, ..), times) in PAIRS.iter().zip(self.pairs) {
            println!("  {times:>6}  {name}");
        }
        println!("lines of the words that explain them, by the second and by the first protocol:");
        let (second, first) = (&self.explained.second, &self.explained.first);
        let times = second.times.iter().zip(&first.times);
        for ((name, ..), (second, first)) in second.sorts.iter().zip(times) {
            println!("  {second:>6} {first:>6}  {name}");
        }
    }

    pub fn summary(&self) -> String {
        let (shown, second, first) = (&self.shown, &self.explained.second, &self.explained.first);
        format!(
            "{} generated books shown in {} bytes, {} of them refused and {} with a refused event; \
             {} calls explained by the second and {} by the first protocol, for {} of which nobody \
             had waited",
            shown.texts,
            shown.bytes,
            shown.sum("a book refused by"),
            shown.sum("an event refused by"),
            second.sum("a call"),
            first.sum("a call"),
            first.sum(NOBODY_WAITED),
        )
    }
}
