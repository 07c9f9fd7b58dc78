//! What `docs/BELIEVE.md` and README must say. Each rule gives what is wrong, a line each.
use crate::closure::Closure;
use crate::page;
use crate::rules::shared;
use crate::theorems;
use crate::tree::Tree;
use std::collections::BTreeSet;

pub fn files(tree: &Tree, closure: &Closure) -> Vec<String> {
    let believed = page::believed(tree, closure);
    let listed = page::listed(&tree.page);
    let mut wrong = Vec::new();
    for (file, spec) in &believed {
        let lines = spec.lines.to_string();
        match listed.iter().filter(|(listed, _)| listed == file).map(|(_, lines)| lines).collect::<Vec<_>>()[..] {
            [] => wrong.push(format!("docs/BELIEVE.md does not list {file}")),
            [said] if *said == lines => (),
            [said] => wrong.push(format!("docs/BELIEVE.md says that {file} has {said} lines; it has {lines}")),
            _ => wrong.push(format!("docs/BELIEVE.md lists {file} more than once")),
        }
    }
    let more = listed.iter().filter(|(file, _)| !believed.contains_key(file));
    wrong.extend(more.map(|(file, _)| format!("docs/BELIEVE.md lists {file}, which no promise rests on")));
    let total = page::total(tree, closure);
    if !tree.page.contains(&total) {
        wrong.push(format!("docs/BELIEVE.md does not say that these are {total}"));
    }
    wrong
}

pub fn calls(tree: &Tree) -> Vec<String> {
    let calls = page::outward(tree);
    let missing = calls.iter().filter(|f| !tree.page.contains(&f.quoted()));
    let mut wrong: Vec<String> = missing.map(|f| format!("docs/BELIEVE.md does not quote {} as it stands", f.name)).collect();
    let quoted = tree.page.lines().filter(|line| line.starts_with("pub ") && line.contains("fn ")).count();
    if wrong.is_empty() && quoted != calls.len() {
        wrong.push(format!("docs/BELIEVE.md quotes {quoted} calls; there are {}", calls.len()));
    }
    wrong
}

/// The rows of a table that must be there, and those of its kind that must not.
fn rows(tree: &Tree, wanted: Vec<Vec<String>>, of_kind: impl Fn(&[String]) -> bool) -> Vec<String> {
    let rows = page::rows(&tree.page);
    let has = |row: &[String], cells: &[String]| row.len() > cells.len() && row[..cells.len()] == *cells;
    let missing = wanted.iter().filter(|cells| !rows.iter().any(|row| has(row, cells)));
    let more = rows.iter().filter(|row| of_kind(row) && !wanted.iter().any(|cells| has(row, cells)));
    let missing = missing.map(|cells| format!("docs/BELIEVE.md has no row | {} | ..", cells.join(" | ")));
    missing.chain(more.map(|row| format!("docs/BELIEVE.md has a row | {} |, which is not so", row.join(" | ")))).collect()
}

pub fn theorems(tree: &Tree) -> Vec<String> {
    let wanted = theorems::all(tree).iter().map(page::theorem_cells).map(Vec::from).collect();
    let mut wrong = rows(tree, wanted, |row| row.get(1).is_some_and(|cell| cell.contains("/proofs/")));
    let unquoted = page::statements(tree).into_iter().filter(|text| !tree.page.contains(&format!("\n{text}\n")));
    let name = |text: String| text.lines().next().unwrap_or_default().to_string();
    wrong.extend(unquoted.map(|text| format!("docs/BELIEVE.md does not quote {} as it stands", name(text))));
    wrong
}

pub fn cases(tree: &Tree, stated: &Closure) -> Vec<String> {
    let wanted = theorems::cases(tree, stated).iter().map(page::case_cells).map(Vec::from).collect();
    rows(tree, wanted, |row| row.first().is_some_and(|cell| cell.starts_with('[') && cell.contains("/specs/")))
}

pub fn types(tree: &Tree, closure: &Closure, stated: &Closure) -> Vec<String> {
    let wanted = page::types(closure, stated).iter().filter_map(|ty| page::type_cells(tree, ty)).map(Vec::from).collect();
    rows(tree, wanted, |row| row.get(1).is_some_and(|cell| cell.ends_with(".rt)")))
}

pub fn library(tree: &Tree, closure: &Closure, stated: &Closure) -> Vec<String> {
    let wanted = page::library(closure, stated).iter().map(page::library_cells).map(Vec::from).collect();
    rows(tree, wanted, |row| row.len() == 3 && row[0].starts_with('`') && row[0].contains('.'))
}

pub fn both(tree: &Tree, closure: &Closure) -> Vec<String> {
    let shared = shared(tree, closure);
    let line = tree.page.lines().find_map(|line| line.strip_prefix(page::BOTH)).unwrap_or_default();
    let listed: BTreeSet<&str> = line.split('`').skip(1).step_by(2).collect();
    let new = shared.iter().filter(|(name, _)| !listed.contains(name.as_str()));
    let old = listed.iter().filter(|listed| !shared.iter().any(|(name, _)| name == *listed));
    let new = new.map(|(name, of)| format!("{name} is {of} and a definition, and docs/BELIEVE.md does not say so"));
    new.chain(
        old.map(|name| format!("docs/BELIEVE.md says that {name} is both a definition and something else, which is not so")),
    )
    .collect()
}

/// README says under this heading what is believed.
const SECTION: &str = "## What is proved";

pub fn readme(tree: &Tree) -> Vec<String> {
    let Some(at) = tree.readme.find(SECTION) else { return vec![format!("README.md has no section \"{SECTION} ..\"")] };
    let section = &tree.readme[at..];
    let section = section[3..].split_once("\n## ").map_or(section, |(section, _)| section);
    let mut wrong = Vec::new();
    if !section.contains("docs/BELIEVE.md") {
        wrong.push("README.md does not point to docs/BELIEVE.md where it says what is believed".to_string());
    }
    if section.contains("crates/*/specs") {
        wrong.push("README.md points to crates/*/specs, which is wider than what is believed".to_string());
    }
    wrong
}
