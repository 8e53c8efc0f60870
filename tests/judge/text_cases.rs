//! The hand-made texts: cases from a file, each with the answer of `compose` that was
//! worked out from the rules by hand. How they are written is told at the file's head.

use crate::compare;
use crate::compose::Composed;
use crate::composing::Composing;
use crate::notation::{columns, narrow, read_lines};
use crate::write_cases::records;
use crate::wrong::Wrong;

const TEXT: &str = include_str!("../cases/texts.txt");

pub struct TextCase {
    pub composing: Composing,
    expected: Composed,
}

/// Pieces of text that have names.
pub type Pieces = Vec<(&'static str, Vec<u8>)>;

pub fn cases() -> Result<Vec<TextCase>, String> {
    let mut cases: Vec<TextCase> = Vec::new();
    let mut pieces = Pieces::new();
    let read = |line: &'static str| {
        if let Some(named) = line.strip_prefix("let ") {
            return piece(named, &mut pieces);
        }
        let case = case(&columns(line), &pieces)?;
        let is_same = |other: &TextCase| other.composing.name == case.composing.name;
        if cases.iter().any(is_same) {
            return Err("another case has this name".to_string());
        }
        cases.push(case);
        Ok(())
    };
    read_lines(TEXT, read).map_err(|error| format!("texts.txt, {error}"))?;
    Ok(cases)
}

/// NAME | text | answer.
fn case(columns: &[&str], pieces: &Pieces) -> Result<TextCase, String> {
    let [name, text, answer] = columns else {
        return Err("not three columns".to_string());
    };
    let mut expected = Composed::default();
    if let Some(book) = answer.strip_prefix("book ") {
        expected.book = records(book)?.bytes();
    } else if let Some(line) = answer.strip_prefix("says ") {
        expected.line = expand(line, pieces)?;
        expected.line.push(b'\n');
    } else {
        return Err(format!("{answer} is no answer"));
    }
    let composing = Composing {
        name: format!("text \"{name}\""),
        text: expand(text, pieces)?,
        shown: None,
        made_for: None,
    };
    Ok(TextCase {
        composing,
        expected,
    })
}

/// `NAME = TEXT`: one piece more.
pub fn piece(line: &'static str, pieces: &mut Pieces) -> Result<(), String> {
    let (name, text) = line.split_once(" = ").ok_or("no ` = ` in a piece")?;
    let text = expand(text, pieces)?;
    pieces.push((name, text));
    Ok(())
}

/// The bytes that a notation stands for.
pub fn expand(text: &str, pieces: &Pieces) -> Result<Vec<u8>, String> {
    let mut bytes = Vec::new();
    let mut rest = text;
    while let Some(at) = rest.find(['\\', '{']) {
        bytes.extend_from_slice(rest[..at].as_bytes());
        let (piece, after) = if rest[at..].starts_with('{') {
            braced(&rest[at + 1..], pieces)?
        } else {
            escaped(&rest[at + 1..])?
        };
        bytes.extend(piece);
        rest = after;
    }
    bytes.extend_from_slice(rest.as_bytes());
    Ok(bytes)
}

/// `NAME}` or `NUMBER*TEXT}`, and what follows it.
fn braced<'t>(text: &'t str, pieces: &Pieces) -> Result<(Vec<u8>, &'t str), String> {
    let (inner, after) = text.split_once('}').ok_or("no `}` after a `{`")?;
    if let Some((count, repeated)) = inner.split_once('*') {
        let repeated = expand(repeated, pieces)?;
        return Ok((repeated.repeat(narrow(count)?), after));
    }
    let piece = pieces.iter().find(|(name, _)| *name == inner);
    let (_, piece) = piece.ok_or_else(|| format!("no piece is called {inner}"))?;
    Ok((piece.clone(), after))
}

/// What a backslash stands in front of, and what follows it.
fn escaped(text: &str) -> Result<(Vec<u8>, &str), String> {
    let unknown = || format!("\\{text} stands for nothing");
    let mut letters = text.chars();
    let byte = match letters.next().ok_or_else(unknown)? {
        'n' => b'\n',
        'r' => b'\r',
        't' => b'\t',
        's' => b' ',
        'x' => {
            let digits = text.get(1..3).ok_or_else(unknown)?;
            let byte = u8::from_str_radix(digits, 16).map_err(|_| unknown())?;
            return Ok((vec![byte], &text[3..]));
        }
        _ => return Err(unknown()),
    };
    Ok((vec![byte], letters.as_str()))
}

/// The judge's own answers against those by hand; those that differ.
pub fn test(cases: &[TextCase]) -> Vec<String> {
    let mut failed = Vec::new();
    for case in cases {
        let outcome = case.composing.compose(Wrong::Nothing);
        let wrong = compare::composed(&outcome.composed, &case.expected);
        let wrong = wrong
            .iter()
            .map(|words| words.replace("the program", "by hand"));
        let all = wrong.chain(outcome.violation);
        failed.extend(all.map(|words| format!("{}: {words}", case.composing.name)));
    }
    failed
}
