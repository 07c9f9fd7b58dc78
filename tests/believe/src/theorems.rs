//! The theorems that papers 01 and 02 ask for beside the promises: each has the type of one closed record and nothing before it, so that all that
//! it assumes stands in that record and in what it rests on.
use crate::closure::{resolve, Closure, Name};
use crate::modules::{Module, Place};
use crate::spec_file::{Definition, SpecFile};
use crate::tokens::Token;
use crate::tree::Tree;
use std::collections::BTreeMap;

/// Each by its crate, its file of `proofs/` and its name, in the order of the page.
const THEOREMS: [[&str; 3]; 4] = [
    ["weir", "Theorem", "weir_cases"],
    ["answer_laws", "Theorems", "one_result"],
    ["join_laws", "Theorems", "join_claims"],
    ["canonical_laws", "Theorems", "canonical_claims"],
];

pub struct Theorem {
    pub name: &'static str,
    /// the file that proves it
    pub file: String,
    /// the record that it has for its type
    pub statement: Name,
}

fn module(of: &str, path: &str) -> Module {
    Module::Proofs { of: of.to_string(), path: path.to_string() }
}

/// The files of proofs that have them.
pub fn modules() -> Vec<Module> {
    THEOREMS.map(|[of, path, _]| module(of, path)).into()
}

/// A theorem as it is declared, or why it cannot be taken for one.
fn read(tree: &Tree, [of, path, name]: [&'static str; 3]) -> Result<Theorem, String> {
    let module = module(of, path);
    let file = module.file();
    let proofs = tree.proofs.get(&module).ok_or(format!("{file} is not there"))?;
    let declared: Vec<&Definition> = proofs.definitions.iter().filter(|d| d.name == name).collect();
    let [theorem] = declared[..] else { return Err(format!("{file} declares {name} {} times", declared.len())) };
    // a theorem of a section would have what the section binds before its own type
    let ty = theorem.stretches.first().map_or(&[][..], |first| &first.tokens);
    let [Token::Path(statement)] = ty else {
        return Err(format!("{file}: the type of {name} is not the name of a record alone"));
    };
    let statement = resolve(proofs, statement).ok_or(format!("{file}: the type of {name} is no name that it uses"))?;
    Ok(Theorem { name, file, statement })
}

/// What is wrong with the record that a theorem has for its type: it must stand in `specs/Cases` and depend on nothing.
fn misstated(tree: &Tree, theorem: &Theorem) -> Option<String> {
    let (module, name) = &theorem.statement;
    let at = format!("{} has the type {name} of {}", theorem.name, module.file());
    if module.place() != Place::Cases {
        return Some(format!("{at}, which does not stand in specs/Cases"));
    }
    let Some(statement) = definition(tree, &theorem.statement) else { return Some(format!("{at}, which does not define it")) };
    let header = statement.stretches.first().map_or(&[][..], |first| &first.tokens);
    let closed = [":", "Type", "0", "where"];
    if statement.fields.is_empty()
        || header.len() != closed.len()
        || !header.iter().zip(closed).all(|(token, word)| token.is(word))
    {
        return Some(format!("{at}, which is no record without parameters"));
    }
    None
}

/// The theorems that can be read.
pub fn all(tree: &Tree) -> Vec<Theorem> {
    THEOREMS.into_iter().filter_map(|theorem| read(tree, theorem).ok()).collect()
}

pub fn definition<'a>(tree: &'a Tree, (module, name): &Name) -> Option<&'a Definition> {
    tree.specs.get(module)?.definition(name)
}

/// What the statements rest on.
pub fn closure(tree: &Tree) -> Closure {
    Closure::from(tree, all(tree).into_iter().map(|t| (t.statement, format!("{} {}", t.file, t.name))).collect())
}

/// The theorems whose type is not one closed record.
pub fn unclosed(tree: &Tree) -> Vec<String> {
    let unread = THEOREMS.into_iter().filter_map(|theorem| read(tree, theorem).err());
    unread.chain(all(tree).iter().filter_map(|theorem| misstated(tree, theorem))).collect()
}

/// What the statements rest on that is neither believed nor a case, or cannot be found.
pub fn hidden(closure: &Closure) -> Vec<String> {
    let is_open = |module: &Module| matches!(module.place(), Place::Believed | Place::Given | Place::Cases);
    let hidden = closure.definitions.iter().filter(|((module, _), _)| !is_open(module));
    let line = |((module, name), from): (&Name, &String)| format!("{from} speaks of {name} of {}", module.file());
    hidden.map(line).chain(closure.proofs.clone()).chain(closure.problems.clone()).collect()
}

/// Of one file of cases, the definitions that the statements rest on.
pub struct Cases<'a> {
    pub file: String,
    pub definitions: Vec<&'a Definition>,
}

/// The files of cases that the statements rest on.
pub fn cases<'a>(tree: &'a Tree, closure: &Closure) -> Vec<Cases<'a>> {
    let mut files: BTreeMap<String, &SpecFile> = BTreeMap::new();
    for module in closure.files().into_iter().filter(|module| module.place() == Place::Cases) {
        files.extend(tree.specs.get(module).map(|file| (module.file(), file)));
    }
    let of_file = |(file, spec): (String, &'a SpecFile)| {
        let used = closure.in_file(&spec.module);
        let definitions = spec.definitions.iter().filter(|d| used.contains(d.name.as_str())).collect();
        Cases { file, definitions }
    };
    files.into_iter().map(of_file).collect()
}

impl Cases<'_> {
    pub fn lines(&self) -> usize {
        self.definitions.iter().map(|d| d.text.lines().count()).sum()
    }

    /// A number that changes with any word of these definitions (FNV-1a of 64 bits), comments and layout apart.
    pub fn sum(&self) -> String {
        let words = self.definitions.iter().flat_map(|d| d.text.split_whitespace());
        let bytes = words.flat_map(|word| word.bytes().chain([b' ']));
        let sum = bytes.fold(0xcbf2_9ce4_8422_2325_u64, |sum, byte| (sum ^ u64::from(byte)).wrapping_mul(0x0100_0000_01b3));
        format!("`{sum:016x}`")
    }
}
