//! The text format with names in place of numbers. The format itself, and how it becomes bytes, is the second search's
//! (`tests/second-search/src/text.rs`), which knows numbers alone: names are put in and taken out here, line by line.
use crate::ending::{unasked, Run};
use crate::input::What;
use crate::labels;
use crate::names::{Names, Sort};
use second_search::goal::Goal;
use second_search::policy::Policy;

/// What a word of a line may be in place of a number.
#[derive(Clone, Copy)]
enum Slot {
    Type,
    Role,
    User,
    Class,
    /// permissions of the class that stands in the same line
    Mask,
}

/// The places of a line that have names, by the words that it begins with.
fn slots(words: &[&str]) -> &'static [(usize, Slot)] {
    use Slot::*;
    match words {
        ["domain", ..] => &[(1, Type)],
        ["class" | "flow", ..] => &[(1, Class), (3, Mask)],
        ["allow", ..] => &[(1, Type), (2, Type), (3, Class), (4, Mask)],
        ["role", ..] => &[(1, Role), (3, Type)],
        ["user", ..] => &[(1, User), (3, Role)],
        ["trans", ..] => &[(1, Role), (2, Role)],
        ["constrain", ..] => &[(1, Class), (2, Mask)],
        ["node", "t1" | "t2", ..] => &[(2, Type)],
        ["node", "r1" | "r2", ..] => &[(2, Role)],
        ["node", "u1" | "u2", ..] => &[(2, User)],
        ["sigma", ..] => &[(2, Type), (3, Role), (4, User)],
        ["gamma", ..] => &[(2, Class), (3, Mask)],
        _ => &[],
    }
}

/// The words of a line before its comment, its label too; `{ read write }` is one of them.
fn words(line: &str) -> Vec<String> {
    let spaced = line.split('#').next().unwrap_or("").replace('{', " { ").replace('}', " } ");
    let mut words: Vec<String> = Vec::new();
    let mut open = false;
    for word in spaced.split_whitespace() {
        match words.last_mut().filter(|_| open) {
            Some(set) => set.extend([" ", word]),
            None => words.push(word.to_string()),
        }
        open = if open { word != "}" } else { word == "{" };
    }
    words
}

/// The class of a line, where it is said as a number.
fn class_of(words: &[String], slots: &[(usize, Slot)], at: usize) -> u32 {
    let place = slots.iter().find(|(_, slot)| matches!(slot, Slot::Class)).map(|(place, _)| at + place);
    place.and_then(|place| words.get(place)).and_then(|word| word.parse().ok()).unwrap_or(0)
}

/// A word as a number. What is no name is left to the assembler.
fn to_number(names: &Names, word: &str, slot: Slot, class: u32) -> Result<String, String> {
    if word.starts_with(|c: char| c.is_ascii_digit()) || word == "*" || word == "self" {
        return Ok(word.to_string());
    }
    let number = match slot {
        Slot::Type => names.number(Sort::Type, word)?,
        Slot::Role => names.number(Sort::Role, word)?,
        Slot::User => names.number(Sort::User, word)?,
        Slot::Class => names.number(Sort::Class, word)?,
        Slot::Mask => mask(names, word, class)?,
    };
    Ok(number.to_string())
}

/// The mask of a permission, or of several in braces, each by its name or its number.
fn mask(names: &Names, word: &str, class: u32) -> Result<u32, String> {
    let inside = match word.strip_prefix('{') {
        Some(rest) => rest.strip_suffix('}').ok_or(format!("{word:?} does not end with }}"))?,
        None => word,
    };
    let mut mask = 0;
    for permission in inside.split_whitespace() {
        if class == 0 && permission.parse::<u32>().is_err() {
            return Err(format!("{permission:?}: permissions are named within a class, and any class is meant here"));
        }
        let p = names.number(Sort::PermissionOf(class), permission)?;
        mask |= 1u32.checked_shl(p).ok_or(format!("{permission:?} is no number of a permission: those are 0 to 31"))?;
    }
    Ok(mask)
}

/// A word by its name, where it has one. In a goal 0 is any.
fn to_name(names: &Names, word: &str, slot: Slot, class: u32) -> String {
    let Ok(number) = word.parse() else { return word.to_string() };
    match slot {
        Slot::Mask => names.mask(class, number),
        _ if number == 0 => "*".to_string(),
        Slot::Type => names.short(Sort::Type, number),
        Slot::Role => names.short(Sort::Role, number),
        Slot::User => names.short(Sort::User, number),
        Slot::Class => names.short(Sort::Class, number),
    }
}

/// The line with each word in a place that may have a name as `change` makes it.
fn changed<E>(line: &str, mut change: impl FnMut(&str, Slot, u32) -> Result<String, E>) -> Result<String, E> {
    let mut words = words(line);
    let at = words.first().is_some_and(|word| word.ends_with(':')) as usize;
    let plain: Vec<String> = words.iter().skip(at).cloned().collect();
    let slots = slots(&plain.iter().map(String::as_str).collect::<Vec<_>>());
    // a class that is turned into a number serves the mask after it; one that is turned into a name has served before
    let mut class = class_of(&words, slots, at);
    for &(place, slot) in slots {
        let Some(word) = words.get_mut(at + place) else { break };
        *word = change(word, slot, class)?;
        if class == 0 {
            class = class_of(&words, slots, at);
        }
    }
    Ok(words.join(" "))
}

/// The image that a text says, and of what it is one.
pub fn assemble(file: &str, text: &str, names: &Names) -> Run<(Vec<u8>, What)> {
    let said = |why: String| unasked(format!("{file}: {why}"));
    labels::check(text).map_err(said)?;
    let mut numbered = String::new();
    for (i, line) in text.lines().enumerate() {
        let line = changed(line, |word, slot, class| to_number(names, word, slot, class));
        numbered += &line.map_err(|why| said(format!("line {}: {why}", i + 1)))?;
        numbered += "\n";
    }
    let image = second_search::text::assemble(&numbered).map_err(|why| said(labels::placed(text, why)))?;
    Ok((image, if labels::is_goal(text) { What::Goal } else { What::Policy }))
}

/// A line of a text with names.
fn named(names: &Names, line: &str) -> String {
    let changed: Result<String, ()> = changed(line, |word, slot, class| Ok(to_name(names, word, slot, class)));
    changed.unwrap_or_default()
}

/// The least and the largest column that the numbers of the records stand in.
const COLUMN: (usize, usize) = (28, 72);

/// A text of the second search with names, the number of each record behind it.
fn with_names(names: &Names, text: &str) -> String {
    if names.file.is_none() {
        return text.to_string();
    }
    let lines: Vec<(String, Option<&str>)> =
        text.lines().map(|line| (named(names, line), line.split_once(" # ").map(|(_, number)| number))).collect();
    let widest = lines.iter().map(|(line, _)| line.chars().count()).max().unwrap_or(0);
    let column = widest.clamp(COLUMN.0, COLUMN.1);
    let line = |(line, number): &(String, Option<&str>)| match number {
        Some(number) => format!("{line:<column$} # {number}\n"),
        None => format!("{line}\n"),
    };
    lines.iter().map(line).collect()
}

pub fn policy_text(policy: &Policy, names: &Names) -> String {
    with_names(names, &second_search::text::policy_text(policy))
}

pub fn goal_text(goal: &Goal, names: &Names) -> String {
    with_names(names, &second_search::text::goal_text(goal))
}

/// Each record of a policy as its line, without its number: record k is line k - 1.
pub fn record_lines(policy: &Policy, names: &Names) -> Vec<String> {
    let text = second_search::text::policy_text(policy);
    let line = |line: &str| match names.file {
        Some(_) => named(names, line),
        None => words(line).join(" "),
    };
    text.lines().skip(1).map(line).collect()
}
