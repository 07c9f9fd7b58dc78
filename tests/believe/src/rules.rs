//! What must hold. Each rule gives what is wrong, a line each, with the file and the definition.
use crate::closure::{declaration, Closure};
use crate::modules::{Module, Place};
use crate::page::outward;
use crate::page_rules;
use crate::spec_file::{SpecFile, Use};
use crate::theorems;
use crate::tree::{Tree, OUTWARD, OUTWARD_FILES};
use std::collections::{BTreeMap, BTreeSet};

pub struct Rule {
    pub says: &'static str,
    pub wrong: Vec<String>,
}

/// In words, where a module stands.
fn place_of(module: &Module) -> &'static str {
    match module.place() {
        Place::Inner => "specs/Inner",
        Place::Cases => "specs/Cases",
        Place::Proofs => "proofs",
        Place::Elsewhere => "a folder of specs that is neither Inner nor Cases",
        Place::Believed | Place::Given => "specs",
    }
}

fn is_open(module: &Module) -> bool {
    matches!(module.place(), Place::Believed | Place::Given)
}

/// All that the promises rest on can be found and read.
fn followed(tree: &Tree, closure: &Closure) -> Vec<String> {
    let unread = tree.specs.values().flat_map(|file| file.problems.clone());
    unread.chain(closure.problems.clone()).collect()
}

fn in_specs(closure: &Closure) -> Vec<String> {
    let hidden = closure.definitions.iter().filter(|((module, _), _)| !is_open(module));
    let line = |((module, name), from): (&(Module, String), &String)| {
        format!("{}: {name} is believed (by {from}) and stands in {}", module.file(), place_of(module))
    };
    hidden.map(line).chain(closure.proofs.clone()).collect()
}

/// The files directly in `specs/`, but for those that only declare modules.
fn open_files(tree: &Tree) -> impl Iterator<Item = &SpecFile> {
    tree.specs.values().filter(|file| file.module.place() == Place::Believed && !file.module.is_node())
}

/// What a file uses of places that it may not use. Through a node file it could reach any module below.
fn uses_of(file: &SpecFile, allowed: impl Fn(&Module) -> bool) -> Vec<String> {
    let name = |u: &Use| u.names.first().map_or("modules".to_string(), |(name, _)| name.clone());
    let used = file.uses.iter().map(|u| (u.module.clone(), name(u))).chain(file.whole_paths());
    let wrong = used.filter(|(module, _)| !allowed(module) || module.is_node());
    let line = |(module, name): (Module, String)| {
        format!("{}: uses {name} of {}, in {}", file.module.file(), module.file(), place_of(&module))
    };
    wrong.map(line).collect()
}

fn believed_uses(tree: &Tree) -> Vec<String> {
    open_files(tree).flat_map(|file| uses_of(file, is_open)).collect()
}

fn all_believed(tree: &Tree, closure: &Closure) -> Vec<String> {
    let mut wrong = Vec::new();
    for file in open_files(tree) {
        let believed = closure.in_file(&file.module);
        let at = file.module.file();
        if believed.is_empty() {
            wrong.push(format!(
                "{at}: no promise rests on any definition of this file: it belongs into specs/Inner or specs/Cases"
            ));
            continue;
        }
        let spare = file.definitions.iter().filter(|d| !believed.contains(d.name.as_str()));
        wrong.extend(
            spare.map(|d| format!("{at}:{}: no promise rests on {}: it belongs into specs/Inner or specs/Cases", d.line, d.name)),
        );
    }
    wrong
}

fn nodes_and_folders(tree: &Tree) -> Vec<String> {
    let mut wrong = Vec::new();
    for file in tree.specs.values() {
        let at = file.module.file();
        if file.module.is_node() {
            let more = file.definitions.iter().map(|d| d.name.clone()).chain(file.uses.iter().map(|u| u.module.file()));
            wrong.extend(more.map(|what| format!("{at}: has {what}, and should have `pub mod` lines alone")));
        } else if file.module.place() == Place::Elsewhere {
            wrong.push(format!("{at}: stands in {}", place_of(&file.module)));
        }
    }
    wrong
}

fn no_duties(tree: &Tree) -> Vec<String> {
    let mut wrong = Vec::new();
    for (path, code) in tree.outward() {
        for function in code.functions.iter().filter(|f| f.public) {
            let name = &function.name;
            wrong.extend(function.requires.iter().map(|clause| format!("{path}: {name} asks its caller for {}", clause.text)));
            if function.ensures.is_empty() {
                wrong.push(format!("{path}: {name} has no `ensures`"));
            }
        }
    }
    let has_calls = |of: &str| tree.outward_of(of).any(|(_, code)| code.functions.iter().any(|f| f.public));
    wrong.extend(OUTWARD.iter().filter(|of| !has_calls(of)).map(|of| format!("crates/{of}: has no `pub` function")));
    let calls_in = |file: &str| tree.code.get(file).is_some_and(|code| code.functions.iter().any(|f| f.public));
    wrong.extend(OUTWARD_FILES.iter().filter(|file| !calls_in(file)).map(|file| format!("{file}: has no `pub` function")));
    wrong
}

/// The believed definitions, the declared types and what is used of the toolchain by their names, with where each stands.
fn names(closure: &Closure) -> BTreeMap<&str, Vec<String>> {
    let mut names: BTreeMap<&str, Vec<String>> = BTreeMap::new();
    for (module, name) in closure.definitions.keys() {
        names.entry(name).or_default().push(module.file());
    }
    for ty in &closure.types {
        names.entry(&ty.name).or_default().push(ty.file());
    }
    for (module, name) in &closure.library {
        names.entry(name).or_default().push(module.clone());
    }
    names
}

/// The fields of believed records and structs, the cases of data types and enums, and the outward calls that are spelled like a
/// definition; each with what it is.
pub fn shared(tree: &Tree, closure: &Closure) -> BTreeSet<(String, String)> {
    let mut parts: Vec<(&str, String)> = Vec::new();
    for (module, name) in closure.definitions.keys() {
        let definition = tree.specs.get(module).and_then(|file| file.definition(name));
        let of = definition.into_iter().flat_map(|d| d.fields.iter().chain(&d.constructors));
        parts.extend(of.map(|part| (part.as_str(), format!("a field or case of {name} of {}", module.file()))));
    }
    for ty in &closure.types {
        let of = declaration(tree, ty).into_iter().flat_map(|d| &d.parts);
        let name = |part: &'_ String| part.find([':', '(', '{', ' ']).unwrap_or(part.len());
        parts.extend(of.map(|part| (&part[..name(part)], format!("a field or case of {} of {}", ty.name, ty.file()))));
    }
    parts.extend(outward(tree).iter().map(|f| (f.name.as_str(), "an outward call".to_string())));
    let names = names(closure);
    let both = parts.into_iter().filter(|(part, _)| names.contains_key(part));
    both.map(|(part, of)| (part.to_string(), of)).collect()
}

fn one_meaning(closure: &Closure) -> Vec<String> {
    let twice = names(closure).into_iter().filter(|(_, files)| files.len() > 1);
    twice.map(|(name, files)| format!("{name} is defined in {}", files.join(" and in "))).collect()
}

fn cases_use(tree: &Tree) -> Vec<String> {
    let cases = tree.specs.values().filter(|file| file.module.place() == Place::Cases);
    cases.flat_map(|file| uses_of(file, |module| is_open(module) || module.place() == Place::Cases)).collect()
}

pub fn all(tree: &Tree, closure: &Closure, stated: &Closure) -> Vec<Rule> {
    let rule = |says, wrong| Rule { says, wrong };
    vec![
        rule("all that the promises rest on can be found", followed(tree, closure)),
        rule("what the promises rest on stands directly in specs", in_specs(closure)),
        rule("a file of specs uses nothing of Inner, Cases or proofs", believed_uses(tree)),
        rule("the promises rest on every definition that stands directly in specs", all_believed(tree, closure)),
        rule("Lib, Inner and Cases declare modules alone, and specs has no other folders", nodes_and_folders(tree)),
        rule("an outward call asks nothing of its caller, and promises something", no_duties(tree)),
        rule("a name of what is believed has one meaning", one_meaning(closure)),
        rule("a file of Cases uses nothing of Inner or proofs", cases_use(tree)),
        rule("the page lists the files with their lines", page_rules::files(tree, closure)),
        rule("the page quotes the outward calls", page_rules::calls(tree)),
        rule("a theorem has the type of one closed record", theorems::unclosed(tree)),
        rule("what a theorem says rests on what is believed and on cases alone", theorems::hidden(stated)),
        rule("the page lists the theorems, and quotes what they say", page_rules::theorems(tree)),
        rule("the page lists the cases that the theorems rest on, as they are", page_rules::cases(tree, stated)),
        rule("the page lists the structs and enums", page_rules::types(tree, closure, stated)),
        rule("the page lists what is used of the toolchain's libraries", page_rules::library(tree, closure, stated)),
        rule("the page lists the names that are both a definition and something else", page_rules::both(tree, closure)),
        rule("README points to the page, and to nothing wider", page_rules::readme(tree)),
    ]
}
