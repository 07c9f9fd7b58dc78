//! The numbers of the rows, and where they are referred to.
use crate::pages::{Page, Unit};
use crate::repository::Repository;
use crate::spans::plain;
use std::collections::BTreeSet;

/// The lines of a row, in their order; a line may be left out.
const KEYS: [&str; 4] = ["says", "does", "shown by", "rejects"];

/// The number of a row, such as P1 or Q13a, in its parts.
#[derive(Clone, PartialEq, Eq, PartialOrd, Ord)]
pub struct Number {
    pub letters: String,
    pub number: u32,
    pub clause: Option<char>,
}

impl Number {
    pub fn parse(text: &str) -> Option<Number> {
        let digits = text.find(|c: char| c.is_ascii_digit())?;
        let rest = text[digits..].trim_end_matches(|c: char| c.is_ascii_lowercase());
        let (letters, clause) = (&text[..digits], &text[digits + rest.len()..]);
        let shape = (1..=2).contains(&letters.len()) && letters.chars().all(|c| c.is_ascii_uppercase()) && clause.len() <= 1;
        let number = rest.parse().ok().filter(|_| shape)?;
        Some(Number { letters: letters.to_string(), number, clause: clause.chars().next() })
    }

    pub fn written(&self) -> String {
        format!("{}{}{}", self.letters, self.number, self.clause.map(String::from).unwrap_or_default())
    }
}

/// The numbers of all rows.
pub fn numbers(pages: &[Page]) -> BTreeSet<Number> {
    pages.iter().flat_map(Page::rows).filter_map(|row| Number::parse(&row.at)).collect()
}

/// The words outside the spans of a text that look like numbers of rows or of decisions.
fn referred(text: &str) -> Vec<String> {
    let text = plain(text);
    let words = text.split(|c: char| !c.is_alphanumeric());
    words.filter(|word| Number::parse(word).is_some()).map(str::to_string).collect()
}

/// Decisions and rows that a unit refers to and that are not there. `W12` is there where rows W12a, W12b are.
pub fn stale(unit: &Unit, rows: &BTreeSet<Number>, repository: &Repository) -> Vec<String> {
    let mut stale = Vec::new();
    for word in unit.parts.iter().flat_map(|part| referred(&part.text)) {
        let Some(asked) = Number::parse(&word) else { continue };
        if asked.letters == "D" {
            if !repository.decisions.contains(&word) {
                stale.push(format!("{word} is no heading of docs/DECISIONS.md"));
            }
            continue;
        }
        let is_whole = |row: &Number| asked.clause.is_none() && row.letters == asked.letters && row.number == asked.number;
        let is_sort = rows.iter().any(|row| row.letters == asked.letters);
        if is_sort && !rows.contains(&asked) && !rows.iter().any(is_whole) {
            stale.push(format!("there is no row {word}"));
        }
    }
    stale
}

/// What is wrong with the form of a row that has a number: a quote, then lines of `KEYS` in their order.
pub fn misformed(unit: &Unit) -> Vec<String> {
    let mut wrong = Vec::new();
    if !unit.is_quoting {
        wrong.push("it quotes no sentence".to_string());
    }
    let mut left = KEYS.iter();
    for part in &unit.parts {
        if !left.any(|key| *key == part.key) {
            wrong.push(format!("a line {:?} has no place here: {}", part.key, part.text));
        }
    }
    wrong
}

/// Headings of rows that stand more than once, on any page.
pub fn repeated(pages: &[Page]) -> Vec<String> {
    let mut seen = BTreeSet::new();
    let mut twice = Vec::new();
    for page in pages {
        for row in page.rows() {
            if !seen.insert(&row.at) {
                twice.push(format!("{}: {}: this row stands a second time", page.name, row.at));
            }
        }
    }
    twice
}
