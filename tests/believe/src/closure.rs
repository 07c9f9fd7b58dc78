//! What the outward promises rest on, from the `ensures` of the outward calls to the last definition and declared type; and likewise what the
//! theorems beside them rest on, from their statements.
use crate::modules::{Module, Type};
use crate::rattle_file::{Declaration, Function, RattleFile};
use crate::scope::references;
use crate::spec_file::{is_whole, Definition, SpecFile, Stretch};
use crate::tree::Tree;
use std::collections::{BTreeMap, BTreeSet};

/// A name of a module.
pub type Name = (Module, String);

#[derive(Default)]
pub struct Closure {
    /// the believed definitions by their modules, with who speaks of each first
    pub definitions: BTreeMap<Name, String>,
    pub types: BTreeSet<Type>,
    /// names of the toolchain's modules
    pub library: BTreeSet<(String, String)>,
    /// what leads to `proofs/`
    pub proofs: Vec<String>,
    /// what could not be followed
    pub problems: Vec<String>,
    left: Vec<(Name, String)>,
}

/// Whether a word in a text is this name: the operator `◌≡◌` is written `≡` between what it joins.
fn spells(name: &str, word: &str) -> bool {
    name == word || name.contains('◌') && name.split('◌').any(|part| part == word)
}

/// What the first name of a path stands for, where the file defines it or a `use` line brings it.
fn known(file: &SpecFile, head: &str) -> Option<Name> {
    let own = file.definitions.iter().flat_map(|d| d.constructors.iter().chain([&d.name]));
    if let Some(name) = own.into_iter().find(|name| spells(name, head)) {
        return Some((file.module.clone(), name.clone()));
    }
    let brought = file.uses.iter().flat_map(|u| u.names.iter().map(move |(name, here)| (u, name, here)));
    let (u, name, _) = brought.into_iter().find(|(_, _, here)| spells(here, head))?;
    Some((u.module.clone(), name.clone()))
}

/// What a path stands for, by the module and the name there; nothing for what is bound or is the prelude's.
pub fn resolve(file: &SpecFile, path: &[String]) -> Option<Name> {
    let (head, last) = (path.first()?, path.last()?);
    if let Some(name) = known(file, head) {
        return Some(name);
    }
    let between = &path[1..path.len() - (path.len() > 1) as usize];
    match file.uses.iter().find(|u| u.alias.as_ref() == Some(head)) {
        Some(u) if path.len() > 1 => Some((u.module.below(between), last.clone())),
        _ if is_whole(path) => Some((Module::named(&path[..path.len() - 1]), last.clone())),
        _ => None,
    }
}

/// Whether a name, in a pattern of this file, is a constructor.
fn is_constructor(tree: &Tree, file: &SpecFile, name: &str) -> bool {
    let Some((module, name)) = resolve(file, &[name.to_string()]) else { return false };
    match (&module, tree.specs.get(&module)) {
        (Module::Declared(ty), _) => name != ty.name,
        (_, Some(other)) => other.is_constructor(&name),
        // of a name of the toolchain's it makes no difference
        (_, None) => true,
    }
}

fn refers_to(tree: &Tree, file: &SpecFile, definition: &Definition) -> Vec<Name> {
    let constructor = |name: &str| is_constructor(tree, file, name);
    let paths = definition.stretches.iter().flat_map(|stretch| references(stretch, &constructor));
    paths.filter_map(|path| resolve(file, &path)).collect()
}

/// The clauses of a file of code, as definitions over its `ghost use` lines.
fn as_definition(function: &Function) -> Definition {
    let stretch = Stretch { bound: function.parameters(), tokens: function.promised(), clause: false };
    Definition {
        name: function.name.clone(),
        line: 0,
        text: String::new(),
        stretches: vec![stretch],
        fields: vec![],
        constructors: vec![],
    }
}

impl Closure {
    pub fn of(tree: &Tree) -> Closure {
        let mut closure = Closure::default();
        for (path, code) in tree.outward() {
            closure.start(tree, path, code);
        }
        closure.followed(tree)
    }

    /// What these definitions rest on, they themselves among it; each comes with who speaks of it.
    pub fn from(tree: &Tree, names: Vec<(Name, String)>) -> Closure {
        Closure { left: names, ..Closure::default() }.followed(tree)
    }

    fn followed(mut self, tree: &Tree) -> Closure {
        while let Some(((module, name), from)) = self.left.pop() {
            self.follow(tree, module, name, &from);
        }
        self
    }

    fn start(&mut self, tree: &Tree, path: &str, code: &RattleFile) {
        let scope = SpecFile::read(Module::Library(path.to_string()), &code.ghost_uses.join("\n"));
        self.problems.extend(scope.problems.clone());
        for function in code.functions.iter().filter(|f| f.public) {
            let from = format!("{path} {}", function.name);
            for name in refers_to(tree, &scope, &as_definition(function)) {
                self.left.push((name, from.clone()));
            }
            for name in function.types() {
                self.type_named(tree, path, &name);
            }
        }
    }

    fn follow(&mut self, tree: &Tree, module: Module, name: String, from: &str) {
        match &module {
            Module::Declared(ty) => self.ty(tree, ty.clone()),
            Module::Library(path) => _ = self.library.insert((path.clone(), name)),
            Module::Proofs { .. } => self.proofs.push(format!("{from} speaks of {name} of {}", module.file())),
            Module::Specs { .. } => match tree.specs.get(&module) {
                Some(file) => self.definition(tree, file, name, from),
                None => self.problems.push(format!("{from} speaks of {name} of {}, which is not there", module.file())),
            },
        }
    }

    fn definition(&mut self, tree: &Tree, file: &SpecFile, name: String, from: &str) {
        let at = file.module.file();
        let passed_on = || file.uses.iter().filter(|u| u.public).find(|u| u.names.iter().any(|(_, here)| *here == name));
        let Some(definition) = file.definition(&name) else {
            return match passed_on().and(resolve(file, std::slice::from_ref(&name))) {
                Some(found) => self.left.push((found, from.to_string())),
                None => self.problems.push(format!("{from} speaks of {name}, which {at} does not define")),
            };
        };
        let key = (file.module.clone(), definition.name.clone());
        if self.definitions.contains_key(&key) {
            return;
        }
        self.definitions.insert(key, from.to_string());
        let here = format!("{at} {}", definition.name);
        self.left.extend(refers_to(tree, file, definition).into_iter().map(|found| (found, here.clone())));
    }

    /// A type that a file of code names.
    fn type_named(&mut self, tree: &Tree, file: &str, name: &str) {
        match tree.type_in(file, name) {
            Some(ty) => self.ty(tree, ty),
            None => self.problems.push(format!("{file} speaks of the type {name}, which it neither declares nor uses")),
        }
    }

    fn ty(&mut self, tree: &Tree, ty: Type) {
        if !self.types.insert(ty.clone()) {
            return;
        }
        match declaration(tree, &ty) {
            Some(declared) => declared.types().iter().for_each(|name| self.type_named(tree, &ty.file(), name)),
            None => self.problems.push(format!("{} declares no {}", ty.file(), ty.name)),
        }
    }

    /// The believed definitions of a file.
    pub fn in_file(&self, module: &Module) -> BTreeSet<&str> {
        self.definitions.keys().filter(|(of, _)| of == module).map(|(_, name)| name.as_str()).collect()
    }

    /// The files that the believed definitions stand in.
    pub fn files(&self) -> BTreeSet<&Module> {
        self.definitions.keys().map(|(module, _)| module).collect()
    }
}

pub fn declaration<'a>(tree: &'a Tree, ty: &Type) -> Option<&'a Declaration> {
    tree.code.get(&ty.file())?.declarations.iter().find(|d| d.name == ty.name)
}
