//! The files of the repository that the test reads.
use crate::modules::{Module, Type};
use crate::rattle_file::RattleFile;
use crate::spec_file::SpecFile;
use crate::theorems;
use std::collections::BTreeMap;
use std::fs;
use std::path::Path;

/// The crates whose `pub` functions are the outward calls, but for those of modules that a crate keeps to itself and has no C call in.
pub const OUTWARD: [&str; 6] = ["bare_questions", "goal_question", "least_steps", "join", "canonical", "flowgoal"];

/// The files of other crates whose `pub` functions are outward calls too: the number of an answer that two outward crates share.
pub const OUTWARD_FILES: [&str; 1] = ["crates/policy_writing/src/answer.rt"];

pub struct Tree {
    pub specs: BTreeMap<Module, SpecFile>,
    /// the files of proofs that have the theorems beside the promises
    pub proofs: BTreeMap<Module, SpecFile>,
    /// by the path from the root on
    pub code: BTreeMap<String, RattleFile>,
    pub page: String,
    pub readme: String,
}

/// The files below a folder whose names end so, each with its path from there on.
fn files(folder: &Path, ending: &str) -> Vec<(String, String)> {
    let mut found = Vec::new();
    let Ok(entries) = fs::read_dir(folder) else { return found };
    for path in entries.flatten().map(|entry| entry.path()) {
        let name = path.file_name().unwrap_or_default().to_string_lossy().to_string();
        if path.is_dir() {
            found.extend(files(&path, ending).into_iter().map(|(inner, text)| (format!("{name}/{inner}"), text)));
        } else if name.ends_with(ending) {
            found.push((name, fs::read_to_string(&path).unwrap_or_default()));
        }
    }
    found.sort();
    found
}

fn crates(root: &Path) -> Vec<String> {
    let entries = fs::read_dir(root.join("crates")).into_iter().flatten().flatten();
    let mut names: Vec<String> = entries.map(|entry| entry.file_name().to_string_lossy().to_string()).collect();
    names.sort();
    names
}

impl Tree {
    pub fn read(root: &Path) -> Tree {
        let (mut specs, mut code) = (BTreeMap::new(), BTreeMap::new());
        for of in crates(root) {
            let folder = root.join("crates").join(&of);
            for (path, text) in files(&folder.join("specs"), ".antt") {
                let path = path.trim_end_matches(".antt").to_string();
                let module = Module::Specs { of: of.clone(), path };
                specs.insert(module.clone(), SpecFile::read(module, &text));
            }
            for (path, text) in files(&folder.join("src"), ".rt") {
                code.insert(format!("crates/{of}/src/{path}"), RattleFile::read(&text));
            }
        }
        let proofs = theorems::modules().into_iter().filter_map(|module| {
            let text = fs::read_to_string(root.join(module.file())).ok()?;
            Some((module.clone(), SpecFile::read(module, &text)))
        });
        let page = fs::read_to_string(root.join("docs/BELIEVE.md")).unwrap_or_default();
        let readme = fs::read_to_string(root.join("README.md")).unwrap_or_default();
        Tree { specs, proofs: proofs.collect(), code, page, readme }
    }

    /// The files of the outward crates' code that have something to call.
    pub fn outward(&self) -> impl Iterator<Item = (&String, &RattleFile)> {
        let files = OUTWARD_FILES.into_iter().filter_map(|file| self.code.get_key_value(file));
        OUTWARD.into_iter().flat_map(|of| self.outward_of(of)).chain(files)
    }

    /// Those of one crate: for another crate, which is all of them where some file passes anything on by `pub use`, or for C, which asks no
    /// module.
    pub fn outward_of(&self, of: &str) -> impl Iterator<Item = (&String, &RattleFile)> {
        let folder = format!("crates/{of}/src/");
        let of_crate: Vec<_> = self.code.iter().filter(|(path, _)| path.starts_with(&folder)).collect();
        let passes_on = of_crate.iter().any(|(_, file)| file.passes_on);
        let private: Vec<String> = of_crate
            .iter()
            .filter(|(path, _)| path.ends_with("/src/lib.rt"))
            .flat_map(|(_, file)| &file.private_modules)
            .flat_map(|name| [format!("/src/{name}.rt"), format!("/src/{name}/")])
            .collect();
        let is_private = move |path: &str| private.iter().any(|part| path.contains(part.as_str()));
        let for_c = |file: &RattleFile| file.functions.iter().any(|f| f.signature.contains("extern "));
        of_crate.into_iter().filter(move |(path, file)| passes_on || for_c(file) || !is_private(path))
    }

    /// The type that a name stands for in a file of code.
    pub fn type_in(&self, file: &str, name: &str) -> Option<Type> {
        let (of, path) = file.strip_prefix("crates/")?.split_once("/src/")?;
        let code = self.code.get(file)?;
        if code.declarations.iter().any(|d| d.name == name) {
            let path = path.trim_end_matches(".rt");
            let path = if path == "lib" || path == "main" { "" } else { path };
            return Some(Type { of: of.to_string(), path: path.to_string(), name: name.to_string() });
        }
        let (parts, _) = code.uses.iter().find(|(_, here)| here == name)?;
        let (name, path) = parts.split_last()?;
        let (root, path) = path.split_first()?;
        let of = if root == "crate" { of } else { root };
        Some(Type { of: of.to_string(), path: path.join("/"), name: name.clone() })
    }
}
