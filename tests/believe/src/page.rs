//! `docs/BELIEVE.md`: the tables that it must have, and those that it has.
use crate::closure::{declaration, Closure};
use crate::modules::{Place, Type};
use crate::rattle_file::Function;
use crate::rules::shared;
use crate::spec_file::SpecFile;
use crate::theorems::{self, Cases, Theorem};
use crate::tree::Tree;
use std::collections::{BTreeMap, BTreeSet};

/// What is to be written where the page does not say yet what a row is about.
const OPEN: &str = "?";

/// The line that lists the fields, cases and calls which are spelled like a definition starts so.
pub const BOTH: &str = "Names that are both a definition and something else:";

/// The cells of the page's table rows; `\|` is a bar within a cell.
pub fn rows(page: &str) -> Vec<Vec<String>> {
    let cells = |line: &str| {
        let line = line.trim().trim_start_matches('|').replace("\\|", "\u{0}");
        line.trim_end_matches('|').split('|').map(|cell| cell.trim().replace('\u{0}', "|")).collect()
    };
    page.lines().filter(|line| line.starts_with('|')).map(cells).collect()
}

/// A link to a file of `crates/`, as seen from `docs/`.
pub fn link(file: &str) -> String {
    format!("[{}](../{file})", file.trim_start_matches("crates/"))
}

/// The files that the page must list: those directly in `specs/` that the promises rest on.
pub fn believed<'a>(tree: &'a Tree, closure: &Closure) -> BTreeMap<String, &'a SpecFile> {
    let files = closure.files();
    let listed = tree.specs.values().filter(|f| f.module.place() == Place::Believed && files.contains(&f.module));
    listed.map(|f| (f.module.file(), f)).collect()
}

/// The sentence with the sums.
pub fn total(tree: &Tree, closure: &Closure) -> String {
    let files = believed(tree, closure);
    let lines: usize = files.values().map(|f| f.lines).sum();
    let definitions = closure.definitions.keys().filter(|(module, _)| module.place() == Place::Believed).count();
    let (calls, types) = (outward(tree).len(), closure.types.len());
    format!("{} files, {lines} lines, {definitions} definitions, {calls} calls and {types} declared types", files.len())
}

pub fn outward(tree: &Tree) -> Vec<&Function> {
    tree.outward().flat_map(|(_, code)| &code.functions).filter(|f| f.public).collect()
}

/// The block of code that quotes the outward calls.
pub fn calls(tree: &Tree) -> String {
    outward(tree).iter().map(|f| f.quoted()).collect::<Vec<_>>().join("\n")
}

/// The first cells of a declared type's row: what it is, its file, its fields or cases.
pub fn type_cells(tree: &Tree, ty: &Type) -> Option<[String; 3]> {
    let declared = declaration(tree, ty)?;
    let parts: Vec<String> = declared.parts.iter().map(|part| format!("`{part}`")).collect();
    Some([format!("`{} {}`", declared.kind, ty.name), link(&ty.file()), parts.join(", ")])
}

/// The declared types that the promises and the theorems speak of.
pub fn types(closure: &Closure, stated: &Closure) -> BTreeSet<Type> {
    closure.types.union(&stated.types).cloned().collect()
}

/// The first cells of a theorem's row: its name and its file, the record that it has for its type and that record's file.
pub fn theorem_cells(theorem: &Theorem) -> [String; 4] {
    let (module, statement) = &theorem.statement;
    [format!("`{}`", theorem.name), link(&theorem.file), format!("`{statement}`"), link(&module.file())]
}

/// The block of code that quotes what the theorems say.
pub fn statements(tree: &Tree) -> Vec<String> {
    let text = |theorem: &Theorem| theorems::definition(tree, &theorem.statement).map(|d| d.text.trim_end().to_string());
    theorems::all(tree).iter().filter_map(text).collect()
}

/// The first cells of a row of the cases that the theorems rest on.
pub fn case_cells(cases: &Cases) -> [String; 3] {
    [link(&cases.file), cases.lines().to_string(), cases.sum()]
}

/// The toolchain's modules that the believed definitions and the theorems speak of, with the names of each.
pub fn library(closure: &Closure, stated: &Closure) -> BTreeMap<String, BTreeSet<String>> {
    let mut modules: BTreeMap<String, BTreeSet<String>> = BTreeMap::new();
    for (module, name) in closure.library.union(&stated.library) {
        modules.entry(module.clone()).or_default().insert(name.clone());
    }
    modules
}

pub fn library_cells((module, names): (&String, &BTreeSet<String>)) -> [String; 2] {
    let names: Vec<String> = names.iter().map(|name| format!("`{name}`")).collect();
    [format!("`{module}`"), names.join(" ")]
}

fn row(cells: &[String]) -> String {
    let cell = |cell: &String| if cell.is_empty() { " |".to_string() } else { format!(" {} |", cell.replace('|', "\\|")) };
    format!("|{}", cells.iter().map(cell).collect::<String>())
}

/// The page's own words in a row, from a cell on; open ones where it has no such row.
fn words(rows: &[Vec<String>], found: impl Fn(&Vec<String>) -> bool, cells: [usize; 2]) -> [String; 2] {
    let row = rows.iter().find(|row| found(row));
    cells.map(|at| row.and_then(|row| row.get(at)).map_or(OPEN.to_string(), String::clone))
}

/// The rows of the files: in the page's order, then those that it lacks.
fn file_rows(tree: &Tree, closure: &Closure) -> Vec<String> {
    let rows = rows(&tree.page);
    let place = |file: &str| rows.iter().position(|row| row.get(1) == Some(&link(file))).unwrap_or(usize::MAX);
    let mut files: Vec<_> = believed(tree, closure).into_iter().collect();
    files.sort_by_key(|(file, _)| place(file));
    let line = |(file, spec): (String, &SpecFile)| {
        let part = words(&rows, |row| row.get(1) == Some(&link(&file)), [0, 0])[0].clone();
        let [says, paper] = words(&rows, |row| row.get(1) == Some(&link(&file)), [3, 4]);
        row(&[part, link(&file), spec.lines.to_string(), says, paper])
    };
    files.into_iter().map(line).collect()
}

fn theorem_rows(tree: &Tree) -> Vec<String> {
    let rows = rows(&tree.page);
    let line = |[name, file, statement, at]: [String; 4]| {
        let [says, paper] = words(&rows, |row| row.first() == Some(&name), [4, 5]);
        row(&[name, file, statement, at, says, paper])
    };
    theorems::all(tree).iter().map(theorem_cells).map(line).collect()
}

fn case_rows(tree: &Tree, stated: &Closure) -> Vec<String> {
    let rows = rows(&tree.page);
    let line = |[file, lines, sum]: [String; 3]| {
        let says = words(&rows, |row| row.first() == Some(&file), [3, 3])[0].clone();
        row(&[file, lines, sum, says])
    };
    theorems::cases(tree, stated).iter().map(case_cells).map(line).collect()
}

fn type_rows(tree: &Tree, closure: &Closure, stated: &Closure) -> Vec<String> {
    let rows = rows(&tree.page);
    let line = |[what, file, parts]: [String; 3]| {
        let says = words(&rows, |row| row.first() == Some(&what), [3, 3])[0].clone();
        row(&[what, file, parts, says])
    };
    types(closure, stated).iter().filter_map(|ty| type_cells(tree, ty)).map(line).collect()
}

fn library_rows(tree: &Tree, closure: &Closure, stated: &Closure) -> Vec<String> {
    let rows = rows(&tree.page);
    let line = |[module, names]: [String; 2]| {
        let says = words(&rows, |row| row.first() == Some(&module), [2, 2])[0].clone();
        row(&[module, names, says])
    };
    library(closure, stated).iter().map(library_cells).map(line).collect()
}

/// What the page must have, with its own words kept, to be copied into it.
pub fn print(tree: &Tree, closure: &Closure, stated: &Closure) {
    println!("{}\n", total(tree, closure));
    println!("| part | file | lines | what it says | paper 01 |\n|---|---|---|---|---|");
    println!("{}\n", file_rows(tree, closure).join("\n"));
    let both: BTreeSet<String> = shared(tree, closure).into_iter().map(|(name, _)| format!("`{name}`")).collect();
    println!("{BOTH} {}\n", both.into_iter().collect::<Vec<_>>().join(" "));
    println!("```\n{}\n```\n", calls(tree));
    println!("| theorem | proved in | says | stated in | in words | paper |\n|---|---|---|---|---|---|");
    println!("{}\n", theorem_rows(tree).join("\n"));
    println!("```\n{}\n```\n", statements(tree).join("\n\n"));
    println!("| file | lines | sum | what it says |\n|---|---|---|---|");
    println!("{}\n", case_rows(tree, stated).join("\n"));
    println!("| declared | file | fields or cases | what they are |\n|---|---|---|---|");
    println!("{}\n", type_rows(tree, closure, stated).join("\n"));
    println!("| module | names | what they are |\n|---|---|---|");
    println!("{}", library_rows(tree, closure, stated).join("\n"));
}

/// The files of `specs/` that rows of the page link to in their second cell, with the number beside each.
pub fn listed(page: &str) -> Vec<(String, String)> {
    let target = |cell: &String| {
        let file = cell.split_once("](../")?.1.strip_suffix(')')?.to_string();
        (file.ends_with(".antt") && file.contains("/specs/")).then_some(file)
    };
    let row = |row: Vec<String>| Some((target(row.get(1)?)?, row.get(2)?.clone()));
    rows(page).into_iter().filter_map(row).collect()
}
