//! Holds the pages of the trace, docs/TRACE.md and docs/trace/, the glossary, docs/ARCHITECTURE.md and docs/DECISIONS.md to the repository: what
//! they name is there, no row is lost, and no name has two meanings. With --write-edits it makes docs/trace/edits.md. Its last line is
//! 'N passed, M failed'.
mod edits;
mod index;
mod names;
mod pages;
mod prose;
mod quote;
mod repository;
mod rows;
mod spans;
mod trials;
mod words;
mod wrap;

use edits::Edit;
use names::Looked;
use pages::Page;
use repository::{listed, name_of, Repository};
use std::collections::BTreeSet;
use std::fs;
use std::path::Path;
use std::process::exit;
use trials::{Trial, EDIT_TRIALS, PROSE_TRIALS, TRIALS, WORD_TRIALS};
use words::GLOSSARY;

const USAGE: &str = "usage: trace-test [--write-edits] ROOT";
/// The page that is damaged to see that the test can fail.
const DAMAGED: &str = "docs/trace/policy-image.md";

/// One thing that is checked, and what is wrong with it.
struct Checked {
    what: String,
    wrong: Vec<String>,
}

/// The names of the pages and their texts.
fn texts(root: &Path) -> Vec<(String, String)> {
    let pages = listed(&root.join("docs/trace")).into_iter().map(|path| format!("docs/trace/{}", name_of(&path)));
    let others = [index::INDEX, GLOSSARY].into_iter().chain(prose::PAGES).map(str::to_string);
    let names = others.chain(pages.filter(|name| name.ends_with(".md")));
    names.map(|name| (name.clone(), fs::read_to_string(root.join(&name)).unwrap_or_default())).collect()
}

/// Everything that one page names, unit by unit.
fn check_page(page: &Page, rows: &BTreeSet<rows::Number>, repository: &Repository) -> (Checked, Vec<String>) {
    let (mut all, mut wrong) = (Looked::default(), Vec::new());
    for unit in &page.units {
        let looked = names::look(page, unit, repository);
        let mut stale = looked.stale;
        stale.extend(rows::stale(unit, rows, repository));
        stale.extend(index::dead(page, unit, &repository.root));
        if unit.is_row && rows::Number::parse(&unit.at).is_some() {
            stale.extend(rows::misformed(unit));
        }
        wrong.extend(stale.iter().map(|what| format!("{}: {}: {what}", page.name, unit.at)));
        all.paths += looked.paths;
        all.names += looked.names;
        all.labels.extend(looked.labels);
    }
    let counts = format!("{} rows, {} paths, {} names, {} labels", page.rows().count(), all.paths, all.names, all.labels.len());
    (Checked { what: format!("{}: {counts}", page.name), wrong }, all.labels)
}

/// Everything that one page of prose names.
fn check_prose(page: &Page, rows: &BTreeSet<rows::Number>, repository: &Repository) -> Checked {
    let (all, mut wrong) = prose::check(page, repository);
    for unit in &page.units {
        let stale = rows::stale(unit, rows, repository).into_iter().chain(index::dead(page, unit, &repository.root));
        wrong.extend(stale.map(|what| format!("{}: {}: {what}", page.name, unit.at)));
    }
    Checked { what: format!("{}: {} paths, {} names, {} labels", page.name, all.paths, all.names, all.labels.len()), wrong }
}

/// Edits that do not say why, and edits that no row speaks of.
fn check_edits(pages: &[Page], named: &BTreeSet<String>, repository: &Repository) -> Vec<String> {
    let mut wrong = Vec::new();
    for (label, edit) in &repository.edits {
        if edit.why.is_none() {
            wrong.push(format!("{label}: the edit's first line is no `why: ` with a reason in words"));
        }
        let has_row = pages.iter().flat_map(Page::rows).any(|row| row.at == *label);
        if !has_row && !named.contains(label) {
            wrong.push(format!("{label}: no row names this edit"));
        }
    }
    wrong
}

/// All checks but that of the log.
fn check(texts: &[(String, String)], repository: &Repository) -> Vec<Checked> {
    let pages = texts.iter().map(|(name, text)| Page::read(name, text));
    let (prose, pages): (Vec<Page>, Vec<Page>) = pages.partition(|page| prose::PAGES.contains(&page.name.as_str()));
    let (glossaries, pages): (Vec<Page>, Vec<Page>) = pages.into_iter().partition(|page| page.name == GLOSSARY);
    let rows = rows::numbers(&pages);
    let (mut checked, mut named) = (Vec::new(), BTreeSet::new());
    checked.extend(prose.iter().map(|page| check_prose(page, &rows, repository)));
    for page in pages.iter().chain(&glossaries) {
        let (result, labels) = check_page(page, &rows, repository);
        checked.push(result);
        named.extend(labels);
    }
    let mut add = |what: String, wrong| checked.push(Checked { what, wrong });
    add(format!("{} numbered rows, each number once", rows.len()), rows::repeated(&pages));
    add("the index has every page and its rows".to_string(), index::stale(&pages));
    add(format!("{} edits say why and are named", repository.edits.len()), check_edits(&pages, &named, repository));
    add("each word of the glossary stands there once".to_string(), glossaries.iter().flat_map(words::repeated).collect());
    add(format!("{} definitions, each name in one crate", repository.definitions.len()), words::shared(repository));
    checked
}

/// Whether each damage of a page, of an edit and of the definitions is noticed.
fn try_damage(texts: &[(String, String)], repository: &Repository) -> Vec<Checked> {
    let count = |texts: &[(String, String)], repository: &Repository| -> usize {
        check(texts, repository).iter().map(|checked| checked.wrong.len()).sum()
    };
    let before = count(texts, repository);
    let tried = |what: &str, place: &str, after: usize| {
        let wrong = if after > before { Vec::new() } else { vec![format!("{what} in {place} is not noticed")] };
        Checked { what: format!("noticed: {what}"), wrong }
    };
    let page = |place: &'static str| {
        move |Trial { what, damage }: Trial| {
            let harmed = texts.iter().map(|(name, text)| {
                let text = if name == place { damage(text) } else { text.clone() };
                (name.clone(), text)
            });
            tried(what, place, count(&harmed.collect::<Vec<_>>(), repository))
        }
    };
    let edit = |Trial { what, damage }| {
        let Some(label) = repository.edits.keys().next() else { return tried(what, "crates/*/must-fail", before) };
        let text = fs::read_to_string(repository.edit_file(label)).unwrap_or_default();
        let mut harmed = repository.clone();
        harmed.edits.insert(label.clone(), Edit::parse(&damage(&text)));
        tried(what, label, count(texts, &harmed))
    };
    let mut again = repository.clone();
    again.definitions.extend(repository.definitions.first().map(|(_, name)| ("another".to_string(), name.clone())));
    let twice = tried("a name that two crates define", "crates/*/specs", count(texts, &again));
    let trials = TRIALS.map(page(DAMAGED)).into_iter().chain(WORD_TRIALS.map(page(GLOSSARY)));
    let prose = prose::PAGES.into_iter().flat_map(|name| PROSE_TRIALS.map(page(name)));
    trials.chain(prose).chain(EDIT_TRIALS.map(edit)).chain([twice]).collect()
}

/// The page of the edits against their log, and whether quotes of errors that it does not have are noticed.
fn check_logs(repository: &Repository) -> Vec<Checked> {
    let page = fs::read_to_string(repository.root.join(edits::PAGE)).unwrap_or_default();
    let wrong = edits::stale(repository, &page);
    let tried = |(what, harmed): (&str, String)| {
        let is_noticed = edits::stale(repository, &harmed).len() > wrong.len();
        let unnoticed = if is_noticed { Vec::new() } else { vec![format!("{what} in {} is not noticed", edits::PAGE)] };
        Checked { what: format!("noticed: {what}"), wrong: unnoticed }
    };
    let trials = [
        ("a quote of another file", page.replacen("\n> proofs/", "\n> proofs/Stale/", 1)),
        ("a quote with a word that the log does not have", page.replacen("\n> ", "\n> stale ", 1)),
    ];
    let mut checked: Vec<Checked> = trials.map(tried).into();
    checked.insert(0, Checked { what: format!("{} is what the edits and their log say", edits::PAGE), wrong });
    checked
}

/// Whether an error is quoted alike in whichever order the prover has put its sentences.
fn check_orders() -> Checked {
    let sentences = [
        "expected type `A`, but this has type `B`",
        "computed as far as they go, the two types are `C` (expected) and `D` (found)",
    ];
    let log = |first: &str, second: &str| format!("/far/a/b/proofs/F.antt:1:2: error: `f`: {first}\n  {second}\n");
    let quotes = [[0, 1], [1, 0]].map(|[k, l]| quote::errors(&log(sentences[k], sentences[l])));
    let wrong = if quotes[0] == quotes[1] && quotes[0].len() == 1 { Vec::new() } else { vec![format!("{quotes:?}")] };
    Checked { what: "an error is quoted alike whatever the order of its sentences".to_string(), wrong }
}

fn report(checked: &[Checked]) -> (usize, usize) {
    for Checked { what, wrong } in checked {
        println!("{what}{}", if wrong.is_empty() { "" } else { ": FAILED" });
        wrong.iter().for_each(|line| println!("  {line}"));
    }
    let failed = checked.iter().filter(|checked| !checked.wrong.is_empty()).count();
    (checked.len() - failed, failed)
}

fn write_edits(repository: &Repository) -> ! {
    let made = edits::make(repository);
    if let Err(why) = fs::write(repository.root.join(edits::PAGE), &made.text) {
        eprintln!("{} cannot be written: {why}", edits::PAGE);
        exit(1);
    }
    println!(
        "{}: {} edits, {} of them with their first error",
        edits::PAGE,
        repository.edits.len(),
        repository.edits.len() - made.unlogged.len()
    );
    edits::advice(&made.unlogged).iter().for_each(|line| println!("{line}"));
    exit(!made.unlogged.is_empty() as i32);
}

fn main() {
    let arguments: Vec<String> = std::env::args().skip(1).collect();
    let (writes, root) = match arguments.iter().map(String::as_str).collect::<Vec<_>>()[..] {
        ["--write-edits", root] => (true, root),
        [root] if !root.starts_with('-') => (false, root),
        _ => {
            eprintln!("{USAGE}");
            exit(2);
        }
    };
    let repository = Repository::read(Path::new(root));
    if writes {
        write_edits(&repository);
    }
    println!("the pages of the trace against the repository ..");
    let texts = texts(&repository.root);
    let mut checked = check(&texts, &repository);
    checked.extend(try_damage(&texts, &repository));
    checked.extend(check_logs(&repository));
    checked.push(check_orders());
    let (passed, failed) = report(&checked);
    println!("{passed} passed, {failed} failed");
    exit((failed > 0) as i32);
}
