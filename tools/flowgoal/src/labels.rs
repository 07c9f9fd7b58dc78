//! What the assembler does not say by line: names that are given twice or name nothing, more records than an image can number,
//! and bytes poked outside the image.
use std::collections::HashMap;

/// Words that start a line which is no record.
const NO_RECORD: [&str; 5] = ["policy", "goal", "repeat", "poke", "length"];

/// The words of a line before its comment, and the name in front of them.
fn words(line: &str) -> (Option<&str>, Vec<&str>) {
    let mut words: Vec<&str> = line.split('#').next().unwrap_or("").split_whitespace().collect();
    let name = words.first().and_then(|word| word.strip_suffix(':'));
    if name.is_some() {
        words.remove(0);
    }
    (name, words)
}

pub fn check(text: &str) -> Result<(), String> {
    let mut named: HashMap<&str, usize> = HashMap::new();
    for (i, line) in text.lines().enumerate() {
        let (name, words) = words(line);
        let Some(name) = name else { continue };
        let at = i + 1;
        if words.first().is_none_or(|word| NO_RECORD.contains(word)) {
            return Err(format!("line {at}: the name {name:?} stands before no record"));
        }
        if name.is_empty() || name.parse::<u64>().is_ok() {
            return Err(format!("line {at}: {name:?} is no name"));
        }
        if let Some(before) = named.insert(name, at) {
            return Err(format!("line {at}: the name {name:?} is given to line {before} already"));
        }
    }
    Ok(())
}

pub fn is_goal(text: &str) -> bool {
    text.lines().map(|line| words(line).1).find(|words| !words.is_empty()).is_some_and(|words| words[0] == "goal")
}

fn number(word: &str) -> Option<usize> {
    match word.strip_prefix("0x") {
        Some(hex) => usize::from_str_radix(hex, 16).ok(),
        None => word.parse().ok(),
    }
}

/// Does the line poke the byte at the offset?
fn pokes(line: &str, offset: usize) -> bool {
    match words(line).1[..] {
        ["poke", from, ref bytes @ ..] => number(from).is_some_and(|from| (from..from + bytes.len()).contains(&offset)),
        _ => false,
    }
}

/// An error of the assembler with the line that it is about: it names none for a byte poked outside the image.
pub fn placed(text: &str, why: String) -> String {
    let offset = why.strip_prefix("poke ").and_then(|rest| rest.split(' ').next()).and_then(number);
    match offset.and_then(|offset| text.lines().position(|line| pokes(line, offset))) {
        Some(i) => format!("line {}: {why}", i + 1),
        None => why,
    }
}
