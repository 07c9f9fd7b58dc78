//! Modules as a `use` line names them, and the files that they stand for.

/// The libraries of the toolchain whose modules are named as those of a crate are.
const OF_TOOLCHAIN: [&str; 2] = ["core", "std"];

#[derive(Clone, Debug, PartialEq, Eq, PartialOrd, Ord)]
pub enum Module {
    /// a file of a crate's `specs/`, by its path there without the ending: `Bits`, `Inner/Fill`
    Specs { of: String, path: String },
    /// what is made of a struct or an enum of a crate's `src/`
    Declared(Type),
    /// a file or a made module of a crate's `proofs/`
    Proofs { of: String, path: String },
    /// a module of the toolchain
    Library(String),
}

/// A struct or an enum, by its crate, the path of its module (empty for `src/lib.rt`) and its name.
#[derive(Clone, Debug, PartialEq, Eq, PartialOrd, Ord)]
pub struct Type {
    pub of: String,
    pub path: String,
    pub name: String,
}

impl Type {
    pub fn file(&self) -> String {
        let path = if self.path.is_empty() { "lib" } else { &self.path };
        format!("crates/{}/src/{path}.rt", self.of)
    }
}

/// Where a definition stands.
#[derive(Clone, Copy, Debug, PartialEq, Eq)]
pub enum Place {
    /// directly in `specs/`: believed
    Believed,
    Inner,
    Cases,
    Proofs,
    /// what the toolchain has, or makes of the code
    Given,
    /// a folder of `specs/` that there is no rule for
    Elsewhere,
}

impl Module {
    /// From the parts of a path: `Rattle.base.specs.Bits`, `Rattle.std.specs.Prelude`.
    pub fn named(parts: &[String]) -> Module {
        let whole = || Module::Library(parts.join("."));
        let Some(("Rattle", [of, kind, rest @ ..])) = parts.split_first().map(|(first, rest)| (first.as_str(), rest)) else {
            return whole();
        };
        if OF_TOOLCHAIN.contains(&of.as_str()) {
            return whole();
        }
        let (of, first) = (of.clone(), rest.first().map(String::as_str));
        match (kind.as_str(), first) {
            ("specs", Some("declared")) => Module::declared(of, &rest[1..]),
            ("specs", _) => Module::Specs { of, path: rest.join("/") },
            ("proofs", _) => Module::Proofs { of, path: rest.join("/") },
            _ => whole(),
        }
    }

    /// `counts.Counts`, or `kinds.Kind.TheVariants` for the names of an enum's cases.
    fn declared(of: String, parts: &[String]) -> Module {
        let parts = if parts.last().is_some_and(|last| last == "TheVariants") { &parts[..parts.len() - 1] } else { parts };
        let (name, path) = parts.split_last().map_or((String::new(), &parts[..0]), |(name, path)| (name.clone(), path));
        Module::Declared(Type { of, path: path.join("/"), name })
    }

    /// The module below this one that the names lead to.
    pub fn below(&self, names: &[String]) -> Module {
        let mut module = self.clone();
        for name in names {
            match &mut module {
                Module::Specs { path, .. } | Module::Proofs { path, .. } => *path = format!("{path}/{name}"),
                Module::Library(path) => *path = format!("{path}.{name}"),
                Module::Declared(_) => (),
            }
        }
        module
    }

    pub fn place(&self) -> Place {
        match self {
            Module::Specs { path, .. } => match path.split_once('/') {
                None => Place::Believed,
                Some(("Inner", _)) => Place::Inner,
                Some(("Cases", _)) => Place::Cases,
                Some(_) => Place::Elsewhere,
            },
            Module::Proofs { .. } => Place::Proofs,
            Module::Declared(_) | Module::Library(_) => Place::Given,
        }
    }

    /// Whether it is a node file: one that declares the modules of a folder.
    pub fn is_node(&self) -> bool {
        matches!(self, Module::Specs { path, .. } if ["", "Lib", "Inner", "Cases"].contains(&path.as_str()))
    }

    /// The file, from the root of the repository on; a module of the toolchain is named as it is.
    pub fn file(&self) -> String {
        match self {
            Module::Specs { of, path } => format!("crates/{of}/specs/{path}.antt"),
            Module::Proofs { of, path } => format!("crates/{of}/proofs/{path}.antt"),
            Module::Declared(ty) => ty.file(),
            Module::Library(path) => path.clone(),
        }
    }
}
