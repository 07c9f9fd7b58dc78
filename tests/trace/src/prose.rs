//! Pages of prose, which name things in backquotes with or without a file: what they name is there. A path leads to a file or a folder; a name
//! that stands before `in` or a bracket with a file stands in that file; any other name stands in some file of the repository.
use crate::names::{is_command, is_path, Looked};
use crate::pages::{Page, Unit};
use crate::repository::Repository;
use crate::spans::{is_closed, spans, Span};

pub const PAGES: [&str; 2] = ["docs/ARCHITECTURE.md", "docs/DECISIONS.md"];

/// Whether the text between two spans goes on with a list of names.
fn goes_on(between: &str) -> bool {
    matches!(between.trim(), "," | "and" | ", and" | "or" | ", or")
}

/// Whether the text before a path says that the names before it stand there.
fn leads_to(between: &str) -> bool {
    matches!(between, " in " | " (")
}

/// The path of a file as a page writes it: from crates/ or the root on, or from a crate on that the unit names. `specs/*.antt` is the folder, of
/// whichever crate.
fn found(path: &str, unit: &Unit, repository: &Repository) -> Option<String> {
    const OF_CRATES: [&str; 4] = ["src/", "specs/", "proofs/", "must-fail/"];
    let named = unit.parts.iter().flat_map(|part| spans(&part.text)).map(|span| span.code);
    let of_unit = named.filter(|code| !is_path(code) && repository.crates.contains(*code)).map(|name| format!("{name}/{path}"));
    let folder = path.split('*').next().unwrap_or(path);
    let of_any = repository.crates.iter().filter(|_| OF_CRATES.iter().any(|start| path.starts_with(start)));
    let of_any = of_any.map(|name| format!("{name}/{folder}"));
    [path.to_string()].into_iter().chain(of_unit).chain(of_any).find(|path| repository.has(path))
}

pub fn look(unit: &Unit, repository: &Repository) -> Looked {
    let mut looked = Looked::default();
    for part in &unit.parts {
        if !is_closed(&part.text) {
            looked.stale.push(format!("a backquote is not closed: {}", part.text));
        }
        let spans = spans(&part.text);
        for at in 0..spans.len() {
            span(&mut looked, &spans[at..], unit, repository);
        }
    }
    looked
}

/// The file that the names from the first span on are said to stand in.
fn file_after<'a>(spans: &[Span<'a>]) -> Option<&'a str> {
    let later = spans.iter().skip(1).find(|span| !goes_on(span.before))?;
    (leads_to(later.before) && is_path(later.code)).then_some(later.code)
}

fn span(looked: &mut Looked, spans: &[Span], unit: &Unit, repository: &Repository) {
    let code = spans[0].code;
    if is_command(code) {
        return;
    }
    if repository.edits.contains_key(code) {
        return looked.labels.push(code.to_string());
    }
    if is_path(code) {
        looked.paths += 1;
        if found(code, unit, repository).is_none() {
            looked.stale.push(format!("`{code}` is no path and no must-fail edit"));
        }
        return;
    }
    looked.names += 1;
    let file = file_after(spans).and_then(|path| found(path, unit, repository)).filter(|path| repository.has_file(path));
    match file {
        Some(file) if !repository.names(&file, code) => looked.stale.push(format!("`{code}` does not stand in {file}")),
        None if !repository.knows(code) => looked.stale.push(format!("`{code}` stands in no file")),
        _ => (),
    }
}

/// Everything that a page names, unit by unit: how much it is, and what is not there.
pub fn check(page: &Page, repository: &Repository) -> (Looked, Vec<String>) {
    let (mut all, mut wrong) = (Looked::default(), Vec::new());
    for unit in &page.units {
        let looked = look(unit, repository);
        wrong.extend(looked.stale.iter().map(|what| format!("{}: {}: {what}", page.name, unit.at)));
        all.paths += looked.paths;
        all.names += looked.names;
        all.labels.extend(looked.labels);
    }
    (all, wrong)
}
