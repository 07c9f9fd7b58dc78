//! Whether what a unit names in backquotes is there: paths, names in files, functions, labels of edits.
use crate::pages::{Page, Unit};
use crate::repository::Repository;
use crate::spans::{is_closed, segments, spans};

/// Where a name without a file stands, if not in a file that its row or section names.
pub const CASES: &str = "policy_check/proofs/Cases.antt";

/// How much was looked at, and what is stale.
#[derive(Default)]
pub struct Looked {
    pub paths: usize,
    pub names: usize,
    pub labels: Vec<String>,
    pub stale: Vec<String>,
}

/// Where a name is looked for.
#[derive(Clone, Copy)]
enum Place<'a> {
    /// no file stands before it: in a file of its row or section
    Row,
    File(&'a str),
    /// behind a path that is stale itself, or is a folder
    Nowhere,
}

/// A command of a person or of the tests, and no name of the repository's.
pub fn is_command(code: &str) -> bool {
    code.starts_with("rt ") || code.starts_with("./")
}

pub fn is_path(code: &str) -> bool {
    code.contains('/') && !code.contains(' ')
}

/// The files that a row, or the section of anything else, names.
fn files_of<'a>(page: &'a Page, unit: &'a Unit, repository: &Repository) -> Vec<&'a str> {
    let parts = page.near(unit).into_iter().flat_map(|near| &near.parts);
    let codes = parts.flat_map(|part| spans(&part.text)).map(|span| span.code);
    codes.filter(|code| is_path(code) && repository.has_file(code)).collect()
}

pub fn look(page: &Page, unit: &Unit, repository: &Repository) -> Looked {
    let mut looked = Looked::default();
    let files = files_of(page, unit, repository);
    for part in &unit.parts {
        if !is_closed(&part.text) {
            looked.stale.push(format!("a backquote is not closed: {}", part.text));
        }
        for segment in segments(&part.text) {
            looked.segment(segment, &files, repository);
        }
    }
    looked
}

impl Looked {
    /// Spans up to a semicolon. A name stands in the file before it; one with no file before it in one of the row's files.
    fn segment(&mut self, segment: &str, files: &[&str], repository: &Repository) {
        let (mut place, mut is_proved) = (Place::Row, false);
        for span in spans(segment) {
            let before = span.before.trim();
            let goes_on = is_proved && matches!(before, "," | "and" | ", and");
            is_proved = goes_on || before.ends_with("proof of") || before.ends_with("proofs of");
            if is_command(span.code) {
                continue;
            } else if repository.edits.contains_key(span.code) {
                self.labels.push(span.code.to_string());
            } else if is_path(span.code) {
                place = self.path(span.code, repository);
            } else if is_proved {
                self.function(span.code, repository);
            } else {
                self.name(span.code, place, files, repository);
            }
        }
    }

    fn path<'a>(&mut self, code: &'a str, repository: &Repository) -> Place<'a> {
        self.paths += 1;
        if !repository.has(code) {
            self.stale.push(format!("`{code}` is no path and no must-fail edit"));
        }
        if repository.has_file(code) {
            Place::File(code)
        } else {
            Place::Nowhere
        }
    }

    fn function(&mut self, code: &str, repository: &Repository) {
        self.names += 1;
        if !repository.functions.contains(code.rsplit("::").next().unwrap_or(code)) {
            self.stale.push(format!("proof of `{code}`: no src/*.rt has such a function"));
        }
    }

    fn name(&mut self, code: &str, place: Place, files: &[&str], repository: &Repository) {
        self.names += 1;
        match place {
            Place::File(file) if !repository.names(file, code) => {
                self.stale.push(format!("`{code}` does not stand in {file}"));
            }
            Place::Row if !files.iter().chain([&CASES]).any(|file| repository.names(file, code)) => {
                self.stale.push(format!("`{code}` stands neither in a file that is named here nor in {CASES}"));
            }
            _ => (),
        }
    }
}
