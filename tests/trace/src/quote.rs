//! The errors of the prover's log, made readable: the file, the theorem, and the sentence that says what no longer holds.
use crate::spans::is_closed;
use std::collections::BTreeMap;

/// The longest quote and the longest term in it, in characters.
const LENGTH: usize = 300;
const TERM: usize = 90;

/// An error, or a note where there is none, as the log prints it: its place and its words, which may go on in lines set in by two.
struct Said {
    place: String,
    first: String,
    more: Vec<String>,
}

/// `FILE:LINE:COLUMN: error: WORDS`, or the same with `note: ` before it. That something else was not admitted says nothing of
/// its own.
fn error_in(line: &str) -> Option<(&str, &str)> {
    line.split_once(": error: ").filter(|(place, words)| !place.contains(' ') && !words.contains("was not admitted"))
}

fn note_in(line: &str) -> Option<(&str, &str)> {
    line.strip_prefix("note: ")?.split_once(": ").filter(|(place, _)| place.contains('/') && !place.contains(' '))
}

/// All that the log says by such lines, in its order.
fn said_in(log: &str, line_of: impl Fn(&str) -> Option<(&str, &str)>) -> Vec<Said> {
    let mut said: Vec<Said> = Vec::new();
    let mut goes_on = false;
    for line in log.lines() {
        if let Some((place, first)) = line_of(line) {
            said.push(Said { place: place.to_string(), first: first.to_string(), more: Vec::new() });
            goes_on = true;
        } else if let (true, true, Some(last)) = (goes_on, line.starts_with("  "), said.last_mut()) {
            last.more.push(line.trim().to_string());
        } else {
            goes_on = false;
        }
    }
    said
}

/// A file within its crate, without line and column, so that a proof can be moved; never a place of the machine.
fn file(place: &str) -> &str {
    let path = place.trim_end_matches(|c: char| c.is_ascii_digit() || c == ':');
    let is_here = !path.starts_with('/');
    if is_here {
        path.trim_start_matches("./")
    } else {
        path.rsplit('/').next().unwrap_or(path)
    }
}

/// The words of an error, with a file in place of each path of the machine.
fn homely(text: &str) -> String {
    let word = |word: &str| {
        let start = word.find(|c| !"`(".contains(c)).unwrap_or(0);
        let (before, path) = word.split_at(start);
        let is_path = path.starts_with('/') && path.matches('/').count() > 1;
        format!("{before}{}", if is_path { file(path) } else { path })
    };
    text.split(' ').map(word).collect::<Vec<_>>().join(" ")
}

/// The sentence that tells most of two types: what they come to. The one that has them as they are written, and the one that says that what
/// they come to cannot be told.
const COMPUTED: &str = "computed as far as they go";
const EXPECTED: &str = "expected type";
const UNTOLD: &str = "what the two types compute to is not shown";

/// Where a sentence stands among those of its error.
fn place_of(sentence: &str) -> usize {
    let later = [EXPECTED, UNTOLD].iter().position(|start| sentence.starts_with(start));
    later.map_or(if sentence.starts_with(COMPUTED) { 0 } else { 1 }, |at| at + 2)
}

/// The sentences of an error, one behind the other with semicolons. Which of them the prover puts into the line of the place hangs on the
/// length of that place, so on the folder that the repository stands in: here they come in one order, what the types come to first.
fn joined(said: &Said) -> String {
    let (name, first) = theorem(&said.first);
    let mut sentences = vec![first.to_string()];
    for line in &said.more {
        let begins = [COMPUTED, "as printed", EXPECTED, UNTOLD].iter().any(|start| line.starts_with(start));
        match sentences.last_mut() {
            Some(last) if !begins => *last += &format!(" {line}"),
            _ => sentences.push(line.clone()),
        }
    }
    sentences.sort_by_key(|sentence| place_of(sentence));
    format!("{name}{}", sentences.join("; "))
}

/// The part of an error that says most: what two types come to, the numbers at which a goal fails, what a rewriting left; and
/// what the error goes on to say of the types.
fn telling(text: &str) -> (&str, &str) {
    let from = if let Some(at) = text.find(COMPUTED) {
        at
    } else if let Some(at) = text.find("does not follow from what it read") {
        text[..at].rfind("`omega`: the").unwrap_or(0)
    } else if let Some(at) = text.find("` has no last argument") {
        text[..at].rfind('`').unwrap_or(0)
    } else {
        0
    };
    let text = &text[from..];
    // what `omega` counts up after that says how it went about it
    let text = text.split(". It read ").next().unwrap_or(text);
    text.find("; expected type ").map_or((text, ""), |at| text.split_at(at))
}

/// The characters at which a name in a term ends.
fn ends_name(c: char) -> bool {
    c.is_whitespace() || "()[]{},;".contains(c)
}

/// A term without what the prover itself left out of it, `…[168 bytes]…` with the pieces of names on both sides.
fn elided(term: &str) -> String {
    let mut text = term.to_string();
    while let Some(at) = text.find("…[") {
        let Some(end) = text[at..].find("]…").map(|end| at + end + "]…".len()) else { break };
        let before = text[..at].trim_end_matches(|c| !ends_name(c)).len();
        let after = text.len() - text[end..].trim_start_matches(|c| !ends_name(c)).len();
        text.replace_range(before..after, "\u{2026}");
    }
    text
}

/// A term with the modules cut off its names: `Prim.Native.Nat.max` is `max`. Fields stay, as in `l.next`: modules have capital letters.
fn unqualified(term: &str) -> String {
    let mut text = String::new();
    for piece in term.split_inclusive(ends_name) {
        let name = piece.trim_end_matches(ends_name);
        let dots = name.match_indices('.').map(|(dot, _)| dot).filter(|dot| dot + 1 < name.len());
        let is_module = |dot: &usize| name[..*dot].rsplit('.').next().is_some_and(|part| part.starts_with(char::is_uppercase));
        text += &piece[dots.filter(is_module).last().map_or(0, |dot| dot + 1)..];
    }
    text
}

/// Cut at a word, where it is longer than that.
fn cut(text: &str, length: usize) -> String {
    if text.chars().count() <= length {
        return text.to_string();
    }
    let kept: String = text.chars().take(length).collect();
    let kept = kept.rfind(' ').map_or(kept.as_str(), |at| &kept[..at]).trim_end_matches([' ', '…', ',', ';']);
    format!("{kept} …")
}

/// The text with each of its terms (what stands in backquotes) made readable. Where two terms would then look the same they
/// stay as they are, since their modules are what tells them apart.
fn readable(text: &str, longest: usize) -> String {
    let terms: Vec<&str> = text.split('`').skip(1).step_by(2).collect();
    let mut short: BTreeMap<String, Vec<&str>> = BTreeMap::new();
    for term in &terms {
        let sharing = short.entry(unqualified(&elided(term))).or_default();
        if !sharing.contains(term) {
            sharing.push(term);
        }
    }
    let written = |term: &str| {
        let brief = unqualified(&elided(term));
        let is_own = short.get(&brief).is_some_and(|sharing| sharing.len() == 1);
        cut(&if is_own { brief } else { elided(term).replace("Rattle.", "") }, longest)
    };
    let pieces = text.split('`').enumerate();
    pieces.map(|(k, piece)| if k % 2 == 0 { piece.to_string() } else { format!("`{}`", written(piece)) }).collect()
}

/// The quote cut to its length, with no span left open.
fn bounded(text: &str) -> String {
    let text = cut(text, LENGTH);
    if is_closed(&text) {
        text
    } else {
        text + "`"
    }
}

/// The name of the theorem, with which an error begins, and the rest.
fn theorem(text: &str) -> (&str, &str) {
    let end = text.strip_prefix('`').and_then(|rest| rest.find("`: ")).map_or(0, |at| at + "``: ".len());
    text.split_at(end)
}

/// The errors of the log of an edit, or its notes where there is no error, each as a quote.
pub fn errors(log: &str) -> Vec<String> {
    let errors = said_in(log, error_in);
    let said = if errors.is_empty() { said_in(log, note_in) } else { errors };
    said.iter().map(quote).collect()
}

/// A quote without the numbers at which a goal fails: the prover finds some, and may find others.
pub fn without_numbers(quote: &str) -> &str {
    quote.split("All of that holds, and the goal fails, at").next().unwrap_or(quote)
}

fn quote(said: &Said) -> String {
    let text = homely(&joined(said));
    let (name, rest) = theorem(&text);
    let (part, types) = telling(rest);
    let left_out = if rest.starts_with(part) { "" } else { "… " };
    let head = format!("{}: {name}{left_out}", file(&said.place));
    // the types themselves only where they are short enough to be read
    let expected = types.find(" but this has type").map_or(types, |at| types[..at].trim_end_matches(','));
    let whole = |types: &str| format!("{head}{}", readable(&format!("{part}{types}"), usize::MAX));
    if let Some(whole) = [types, expected].map(whole).into_iter().find(|whole| whole.chars().count() <= LENGTH) {
        return whole;
    }
    bounded(&format!("{head}{}", readable(part, TERM)))
}
