//! The hand-made shows: books from a file, each with the text that shows it and the words
//! that explain it by both protocols, worked out from the rules by hand. How they are
//! written is told at the file's head.

use crate::book::cut;
use crate::book_cases::book;
use crate::compare;
use crate::event::Event;
use crate::explain::explain;
use crate::generate::Case;
use crate::notation::{columns, event, read_lines};
use crate::protocol::{ByProtocol, Protocol, PROTOCOLS};
use crate::show::show;
use crate::wrong::Wrong;
use std::sync::Arc;

const TEXT: &str = include_str!("../cases/shows.txt");

pub struct ShowCase {
    pub case: Arc<Case>,
    text: String,
    words: ByProtocol<String>,
}

pub fn cases() -> Result<Vec<ShowCase>, String> {
    let mut reader = Reader::default();
    read_lines(TEXT, |line| reader.read(line)).map_err(|error| format!("shows.txt, {error}"))?;
    for case in &reader.cases {
        if [&case.text, &case.words.second, &case.words.first].contains(&&String::new()) {
            return Err(format!("shows.txt: {} is not whole", case.case.name));
        }
    }
    Ok(reader.cases)
}

/// Where the lines that are read go to.
#[derive(Clone, Copy, Default)]
enum Block {
    #[default]
    None,
    /// Lines that get a name.
    Named,
    Text,
    Words(&'static [Protocol]),
}

#[derive(Default)]
struct Reader {
    block: Block,
    named: Vec<(&'static str, String)>,
    cases: Vec<ShowCase>,
}

impl Reader {
    fn read(&mut self, line: &'static str) -> Result<(), String> {
        if let Some(line) = line.strip_prefix('>') {
            let line = line.strip_prefix(' ').unwrap_or(line);
            return self.add(&format!("{line}\n"));
        }
        if let Some(name) = line.strip_prefix("= ") {
            let named = self.named.iter().find(|(known, _)| *known == name);
            let lines = named.ok_or("no lines have this name")?.1.clone();
            return self.add(&lines);
        }
        if let Some(name) = line.strip_prefix("lines ") {
            self.named.push((name, String::new()));
            self.block = Block::Named;
            return Ok(());
        }
        if let Some(rest) = line.strip_prefix("book ") {
            self.block = Block::None;
            self.cases.push(case(&columns(rest))?);
            return Ok(());
        }
        self.block = match line {
            "text" => Block::Text,
            "second" => Block::Words(&PROTOCOLS[..1]),
            "first" => Block::Words(&PROTOCOLS[1..]),
            "both" => Block::Words(&PROTOCOLS),
            _ => return Err("it starts nothing".to_string()),
        };
        Ok(())
    }

    fn add(&mut self, lines: &str) -> Result<(), String> {
        let case = self.cases.last_mut();
        match self.block {
            Block::None => return Err("nothing was started".to_string()),
            Block::Named => self.named.last_mut().ok_or("no name")?.1 += lines,
            Block::Text => case.ok_or("no book")?.text += lines,
            Block::Words(protocols) => {
                let words = &mut case.ok_or("no book")?.words;
                for protocol in protocols {
                    *words.of_mut(*protocol) += lines;
                }
            }
        }
        Ok(())
    }
}

/// NAME | BOOK, and the events that stand in it instead.
fn case(columns: &[&str]) -> Result<ShowCase, String> {
    let (name, mut book) = match columns {
        [name, book] | [name, book, _] => (name, self::book(book)?),
        _ => return Err("neither two nor three columns".to_string()),
    };
    if let [_, _, events] = columns {
        let mut records = cut(&book).ok_or("no right contents")?;
        let words = events.split(',').map(str::trim);
        let read: Result<Vec<Event>, String> =
            words.filter(|word| *word != "-").map(event).collect();
        records.events = read?.into_iter().map(Event::record).collect();
        book = records.bytes();
    }
    let case = Case {
        name: format!("shown book \"{name}\""),
        // Four bytes for each event, and some more.
        row_space: book.len(),
        book,
    };
    Ok(ShowCase {
        case: Arc::new(case),
        text: String::new(),
        words: ByProtocol::default(),
    })
}

impl ShowCase {
    /// Where a judge that may have gone wrong shows or explains otherwise than by hand.
    pub fn wrong(&self, wrong: Wrong) -> Vec<String> {
        let book = &self.case.book;
        let mut found = compare::texts(show(book, wrong).as_bytes(), self.text.as_bytes());
        for protocol in PROTOCOLS {
            let (words, by_hand) = (explain(book, protocol, wrong), self.words.of(protocol));
            let differing = compare::texts(words.as_bytes(), by_hand.as_bytes());
            let name = protocol.name();
            found.extend(
                differing
                    .iter()
                    .map(|words| format!("by the {name}, {words}")),
            );
        }
        found
    }
}

/// The judge's own answers against those by hand; those that differ.
pub fn test(cases: &[ShowCase]) -> Vec<String> {
    let mut failed = Vec::new();
    for case in cases {
        let wrong = case.wrong(Wrong::Nothing);
        let wrong = wrong
            .iter()
            .map(|words| words.replace("the program", "by hand"));
        failed.extend(wrong.map(|words| format!("{}: {words}", case.case.name)));
    }
    failed
}
