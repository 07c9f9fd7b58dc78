//! One name, one meaning: each word of docs/GLOSSARY.md stands there once, and no two crates define the same name.
use crate::pages::Page;
use crate::repository::Repository;
use std::collections::{BTreeMap, BTreeSet};

pub const GLOSSARY: &str = "docs/GLOSSARY.md";

/// The words that the glossary has on more than one line. A word is the first cell of a line.
pub fn repeated(page: &Page) -> Vec<String> {
    let mut seen = BTreeSet::new();
    let words = page.units.iter().filter(|unit| unit.parts.len() > 1).map(|unit| unit.parts[0].text.as_str());
    let again = words.filter(|word| !is_ruling(word) && !is_title(word) && !seen.insert(word.to_string()));
    again.map(|word| format!("{GLOSSARY}: {word} stands twice")).collect()
}

/// The line between the titles of a table and its lines.
fn is_ruling(cell: &str) -> bool {
    cell.chars().all(|c| c == '-')
}

/// Every table has the same titles.
fn is_title(cell: &str) -> bool {
    cell == "word"
}

/// The names that the definitions of more than one crate declare.
pub fn shared(repository: &Repository) -> Vec<String> {
    let mut crates_of: BTreeMap<&str, BTreeSet<&str>> = BTreeMap::new();
    for (member, name) in &repository.definitions {
        crates_of.entry(name).or_default().insert(member);
    }
    let more = crates_of.into_iter().filter(|(_, members)| members.len() > 1);
    more.map(|(name, members)| format!("{name} is defined in {}", Vec::from_iter(members).join(" and "))).collect()
}
