//! What the pages speak of: the files of the repository and their words, the functions, the must-fail edits, the decisions.
use crate::edits::Edit;
use std::collections::{BTreeMap, BTreeSet};
use std::fs;
use std::path::{Path, PathBuf};

/// A path starts in crates/, unless it starts with one of these.
const FOLDERS: [&str; 5] = ["docs/", "examples/", "include/", "tests/", "tools/"];

#[derive(Clone)]
pub struct Repository {
    pub root: PathBuf,
    /// the functions of all src/*.rt
    pub functions: BTreeSet<String>,
    /// by their labels, `crate/name`
    pub edits: BTreeMap<String, Edit>,
    /// the numbers of the headings of docs/DECISIONS.md
    pub decisions: BTreeSet<String>,
    /// the names that the specs and the code's types of each crate declare, those of written-out cases aside
    pub definitions: Vec<(String, String)>,
    pub crates: BTreeSet<String>,
    /// all names that stand in some file, comments and imports of Rattle aside, and the names of the files and folders
    pub words: BTreeSet<String>,
}

/// What stands in a folder, in order; nothing where there is no such folder.
pub fn listed(folder: &Path) -> Vec<PathBuf> {
    let mut paths: Vec<PathBuf> = fs::read_dir(folder).into_iter().flatten().flatten().map(|entry| entry.path()).collect();
    paths.sort();
    paths
}

pub fn name_of(path: &Path) -> String {
    path.file_name().unwrap_or_default().to_string_lossy().into_owned()
}

/// The text of a file, where it is a file of Rattle without its comments and imports: a name that only they have is a stale
/// one, or one of another file.
fn code_of(path: &Path) -> Option<String> {
    let text = fs::read_to_string(path).ok()?;
    let comment = match path.extension()?.to_str()? {
        "antt" => "--",
        "rt" => "//",
        _ => return Some(text),
    };
    let is_import = |line: &&str| ["use ", "ghost use ", "open "].iter().any(|word| line.trim_start().starts_with(word));
    let lines = text.lines().map(|line| line.split(comment).next().unwrap_or(line)).filter(|line| !is_import(line));
    Some(lines.collect::<Vec<_>>().join("\n"))
}

/// Whether a character can be part of a name; `-` and primes can, in a definition's.
fn in_name(c: char) -> bool {
    c.is_alphanumeric() || "_-'".contains(c)
}

/// Whether the name stands in the text, and not as a part of a longer one.
fn has_word(text: &str, name: &str) -> bool {
    text.match_indices(name).any(|(at, _)| {
        let (before, after) = (text[..at].chars().next_back(), text[at + name.len()..].chars().next());
        !before.is_some_and(in_name) && !after.is_some_and(in_name)
    })
}

/// The files below a folder: those of the pages aside, of what is built, and of what names things as they were called before or will be.
fn files_below(folder: &Path) -> Vec<PathBuf> {
    const ASIDE: [&str; 8] = ["target", "out", "docs", "next", ".git", "port", "respell.py", "respelled.tsv"];
    let left = listed(folder).into_iter().filter(|path| !ASIDE.contains(&name_of(path).as_str()));
    let (folders, files): (Vec<PathBuf>, Vec<PathBuf>) = left.partition(|path| path.is_dir());
    files.into_iter().chain(folders.iter().flat_map(|path| files_below(path))).collect()
}

/// The names that stand in the files below a folder, with those of the files and of the folders that they are in.
fn words_below(root: &Path) -> BTreeSet<String> {
    let mut words = BTreeSet::new();
    for file in files_below(root).into_iter().filter(|file| file.extension().is_none_or(|ending| ending != "md")) {
        let parts = file.strip_prefix(root).unwrap_or(&file).iter().map(|part| part.to_string_lossy().into_owned());
        words.extend(parts);
        let text = code_of(&file).or_else(|| fs::read_to_string(&file).ok()).unwrap_or_default();
        words.extend(text.split(|c| !in_name(c)).filter(|word| !word.is_empty()).map(str::to_string));
    }
    words
}

/// The functions that a file of code has.
fn functions_of(path: &Path) -> Vec<String> {
    let code = code_of(path).unwrap_or_default();
    let name = |after: &str| after.chars().take_while(|c| c.is_alphanumeric() || *c == '_').collect();
    code.split_whitespace().zip(code.split_whitespace().skip(1)).filter(|pair| pair.0 == "fn").map(|pair| name(pair.1)).collect()
}

/// The files of definitions in a folder and the folders in it, those of cases aside.
fn definition_files(folder: &Path) -> Vec<PathBuf> {
    let (folders, files): (Vec<PathBuf>, Vec<PathBuf>) = listed(folder).into_iter().partition(|path| path.is_dir());
    let inner = folders.iter().filter(|path| name_of(path) != "Cases").flat_map(|path| definition_files(path));
    files.iter().filter(|path| path.extension().is_some_and(|ending| ending == "antt")).cloned().chain(inner).collect()
}

/// The name that a line of a file of definitions declares for others. What is set in is a field, unless it is said to be a type.
fn declared(line: &str) -> Option<&str> {
    const BEFORE: [&str; 3] = ["abbrev", "unfoldable", "opaque"];
    const TYPES: [&str; 2] = ["record", "data"];
    let mut words = line.split_whitespace().skip_while(|word| BEFORE.contains(word));
    if words.next() != Some("pub") {
        return None;
    }
    match words.next()? {
        "mod" | "use" | "open" => None,
        word if TYPES.contains(&word) => words.next(),
        word => (!line.starts_with(' ')).then_some(word),
    }
}

/// The name of the struct or enum that a line of code declares.
fn declared_type(line: &str) -> Option<&str> {
    let name = ["pub struct ", "pub enum "].iter().find_map(|words| line.strip_prefix(words))?;
    name.split_whitespace().next()
}

/// The names that a crate's specs and the types of its code declare.
fn definitions_of(member: &Path) -> BTreeSet<String> {
    let texts = |files: Vec<PathBuf>| files.into_iter().filter_map(|file| code_of(&file));
    let names = |text: String, name: fn(&str) -> Option<&str>| -> Vec<String> {
        text.lines().filter_map(name).map(str::to_string).collect()
    };
    let specs = texts(definition_files(&member.join("specs"))).flat_map(|text| names(text, declared));
    specs.chain(texts(listed(&member.join("src"))).flat_map(|text| names(text, declared_type))).collect()
}

impl Repository {
    pub fn read(root: &Path) -> Repository {
        let (mut functions, mut edits, mut definitions) = (BTreeSet::new(), BTreeMap::new(), Vec::new());
        for member in listed(&root.join("crates")) {
            definitions.extend(definitions_of(&member).into_iter().map(|name| (name_of(&member), name)));
            for file in listed(&member.join("src")) {
                functions.extend(functions_of(&file));
            }
            for file in listed(&member.join("must-fail")) {
                if let Some(label) = name_of(&file).strip_suffix(".edit") {
                    edits.insert(format!("{}/{label}", name_of(&member)), Edit::read(&file));
                }
            }
        }
        let decisions = fs::read_to_string(root.join("docs/DECISIONS.md")).unwrap_or_default();
        let number = |line: &str| Some(line.strip_prefix("### ")?.split_once(". ")?.0.to_string());
        let decisions = decisions.lines().filter_map(number).collect();
        let crates = listed(&root.join("crates")).iter().map(|path| name_of(path)).collect();
        Repository { root: root.to_path_buf(), functions, edits, decisions, definitions, crates, words: words_below(root) }
    }

    /// The file of an edit.
    pub fn edit_file(&self, label: &str) -> PathBuf {
        let (member, name) = label.split_once('/').unwrap_or((label, ""));
        self.root.join("crates").join(member).join("must-fail").join(format!("{name}.edit"))
    }

    /// The place that a path of a page names.
    fn place(&self, path: &str) -> PathBuf {
        if FOLDERS.iter().any(|folder| path.starts_with(folder)) {
            self.root.join(path)
        } else {
            self.root.join("crates").join(path)
        }
    }

    pub fn has(&self, path: &str) -> bool {
        self.place(path).exists()
    }

    pub fn has_file(&self, path: &str) -> bool {
        self.place(path).is_file()
    }

    /// Whether each name of a piece of code stands in some file; `plan_` is what names begin with.
    pub fn knows(&self, code: &str) -> bool {
        let is_number = |word: &str| word.chars().all(|c| c.is_ascii_digit() || c == '-');
        let begins = |word: &str| {
            word.ends_with('_') && self.words.range(word.to_string()..).next().is_some_and(|next| next.starts_with(word))
        };
        let is_known = |word: &str| is_number(word) || self.words.contains(word) || begins(word);
        self.words.contains(code) || code.split(|c| !in_name(c)).all(is_known)
    }

    /// Whether a name stands in a file; of `A::b` each part does.
    pub fn names(&self, path: &str, name: &str) -> bool {
        let code = code_of(&self.place(path)).unwrap_or_default();
        name.split("::").all(|part| has_word(&code, part))
    }
}
