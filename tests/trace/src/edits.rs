//! The must-fail edits, and the page that is made of them and of the logs of their refusal.
use crate::quote::{errors, without_numbers};
use crate::repository::Repository;
use crate::spans::is_closed;
use crate::wrap::wrapped;
use std::collections::BTreeMap;
use std::fs;
use std::path::Path;

pub const PAGE: &str = "docs/trace/edits.md";
/// The lines that `rt must-fail`, or `rt ci`, prints of the edits: one for each, with the start of its first error.
const LOG: &str = "target/must-fail.log";
/// What stands before and after the label of an edit in its line, and before its error where the prover refused it.
const BEFORE: &str = "rt: must-fail ";
const AFTER: &str = ".edit: ";
const REFUSED: &str = "refused, as it must be";
/// How much of an error stands in the line, in characters.
const SHOWN: usize = 160;

const OPENING: &str = "# The must-fail edits

Each edit is applied to a copy of its crate, and the prover must refuse it: `rt must-fail` tries them. An edit stands for a
misreading, which its first line says in words; one whose name ends in def is an edit of a definition. The quote is the first
error, or its start: it shows that a fact no longer holds. Names are shortened in it, and … marks what is left out.

This page is made by `tests/trace/run`, from the edits and the log of their refusal: `docs/TOOLS.md` says how. Nothing in it is
written by hand.
";

/// A reason of fewer words says nothing.
const WORDS: usize = 3;

#[derive(Clone, Default)]
pub struct Edit {
    /// the misreading in words: the first line, after `why: `
    pub why: Option<String>,
    /// the files of its crate that it changes
    pub files: Vec<String>,
}

impl Edit {
    pub fn read(file: &Path) -> Edit {
        Edit::parse(&fs::read_to_string(file).unwrap_or_default())
    }

    pub fn parse(text: &str) -> Edit {
        let why = text.lines().next().and_then(|line| line.strip_prefix("why: ")).map(str::to_string);
        let why = why.filter(|why| why.split_whitespace().count() >= WORDS);
        let mut files: Vec<String> = text.lines().filter_map(|line| line.strip_prefix("file: ")).map(str::to_string).collect();
        files.dedup();
        Edit { why, files }
    }
}

/// The page, and the edits of which the log says nothing or shows no error.
pub struct Made {
    pub text: String,
    pub unlogged: Vec<String>,
}

/// The row of one edit. Without a log the page says so, so that it cannot be taken for a whole one.
fn row(label: &str, edit: &Edit, error: Option<&str>) -> String {
    let crate_of = label.split('/').next().unwrap_or(label);
    let files: Vec<String> = edit.files.iter().map(|file| format!("`{crate_of}/{file}`")).collect();
    let mut row = format!("\n### {label}\n");
    row += &wrapped(edit.why.as_deref().unwrap_or("nothing says why"), "- why: ", "  ");
    row += &wrapped(&files.join(", "), "- edits: ", "  ");
    match error {
        Some(error) => row + "\n" + &wrapped(error, "> ", "> "),
        None => row + "- refused: nothing in the log yet\n",
    }
}

/// What a line of the log says of an edit: its label, and the first error of its refusal, whole or up to where the line has it.
fn refusal(line: &str) -> Option<(String, String)> {
    let (label, said) = line.strip_prefix(BEFORE)?.split_once(AFTER)?;
    let said = said.strip_prefix(REFUSED)?;
    // in brackets stands what the refusal says little of
    let said = if said.starts_with(" (") { said.split_once("): ")?.1 } else { said.strip_prefix(": ")? };
    let shown = if said.chars().count() < SHOWN { said.to_string() } else { cut_short(said) };
    Some((label.to_string(), shown))
}

/// A text that ends anywhere, without its last word, which may be half of one.
fn cut_short(text: &str) -> String {
    let whole = text.rsplit_once(' ').map_or(text, |(whole, _)| whole).trim_end_matches([' ', ',', ';']);
    if is_closed(whole) {
        format!("{whole} …")
    } else {
        format!("{whole} …`")
    }
}

/// The first errors by the labels of the edits.
fn refusals(repository: &Repository) -> BTreeMap<String, String> {
    let log = fs::read(repository.root.join(LOG)).unwrap_or_default();
    String::from_utf8_lossy(&log).lines().filter_map(refusal).collect()
}

/// The first error of an edit's refusal, as it is quoted.
fn error_of(logged: &BTreeMap<String, String>, label: &str) -> Option<String> {
    errors(logged.get(label)?).into_iter().next()
}

pub fn make(repository: &Repository) -> Made {
    let logged = refusals(repository);
    let (mut text, mut unlogged) = (OPENING.to_string(), Vec::new());
    let mut last = "";
    for (label, edit) in &repository.edits {
        let crate_of = label.split('/').next().unwrap_or(label);
        if crate_of != last {
            text += &format!("\n## {crate_of}\n");
            last = crate_of;
        }
        let error = error_of(&logged, label);
        if error.is_none() {
            unlogged.push(label.clone());
        }
        text += &row(label, edit, error.as_deref());
    }
    Made { text, unlogged }
}

/// What is to be done about edits that the log has nothing of.
pub fn advice(unlogged: &[String]) -> Vec<String> {
    if unlogged.is_empty() {
        return Vec::new();
    }
    let advice = format!("of {} edits {LOG} shows no error: `rt must-fail >{LOG}` makes it", unlogged.len());
    unlogged.iter().map(|label| format!("{label}: no error in the log")).chain([advice]).collect()
}

/// The lines of a row that are no quote, and the quote.
fn split(row: &str) -> (Vec<&str>, String) {
    let (quote, rest): (Vec<&str>, Vec<&str>) = row.lines().partition(|line| line.starts_with("> "));
    (rest, quote.iter().map(|line| &line[2..]).collect::<Vec<_>>().join(" "))
}

/// Whether two rows of an edit differ at most in the numbers at which the goal of its error fails.
fn has_other_numbers(old: &str, new: &str) -> bool {
    let ((old, quote), (new, said)) = (split(old), split(new));
    old == new && without_numbers(&said).trim() == without_numbers(&quote).trim()
}

/// The rows of a page by their labels, what stands before them under no label.
fn rows(page: &str) -> BTreeMap<&str, &str> {
    page.split("\n### ").enumerate().map(|(k, row)| (if k == 0 { "" } else { row.lines().next().unwrap_or("") }, row)).collect()
}

/// What is wrong with a page of the edits.
pub fn stale(repository: &Repository, page: &str) -> Vec<String> {
    let made = make(repository);
    if !made.unlogged.is_empty() {
        return advice(&made.unlogged);
    }
    let (old, new) = (rows(page), rows(&made.text));
    let is_right = |label: &str| match (old.get(label), new.get(label)) {
        (Some(old), Some(new)) => old == new || has_other_numbers(old, new),
        _ => false,
    };
    let mut titles: Vec<&str> = old.keys().chain(new.keys()).copied().filter(|label| !is_right(label)).collect();
    titles.sort();
    titles.dedup();
    let mut wrong: Vec<String> =
        titles.iter().map(|label| format!("{PAGE}: {label}: not what the edit and the log say")).collect();
    if !wrong.is_empty() {
        wrong.push(format!("{PAGE} is not what is made of the edits and the log: `tests/trace/run --write-edits` makes it anew"));
    }
    wrong
}
