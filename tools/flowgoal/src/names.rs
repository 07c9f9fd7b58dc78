//! A names file: `type 1 raw_stage_t`, `permission 2 0 read`. Types, roles, users, classes and permissions have numbers in images; with
//! such a file they are written and read by their names.
use crate::ending::{unasked, Run};
use crate::input::{read, utf8};
use second_search::policy::{Context, Event};
use std::collections::HashMap;
use std::path::Path;

/// What is numbered. A permission is numbered within its class.
#[derive(Clone, Copy, PartialEq, Eq, Hash, Debug)]
pub enum Sort {
    Type,
    Role,
    User,
    Class,
    PermissionOf(u32),
}

impl Sort {
    pub fn word(self) -> &'static str {
        match self {
            Sort::Type => "type",
            Sort::Role => "role",
            Sort::User => "user",
            Sort::Class => "class",
            Sort::PermissionOf(_) => "permission",
        }
    }

    /// The least and the largest number that any policy has. One file may serve policies with fewer.
    pub fn range(self) -> (u32, u32) {
        match self {
            Sort::Type => (1, 255),
            Sort::Role | Sort::User => (1, 15),
            Sort::Class => (1, 31),
            Sort::PermissionOf(_) => (0, 31),
        }
    }
}

/// The names of a file, each with the line that gives it.
#[derive(Default)]
pub struct Names {
    /// The file; none where there are no names.
    pub file: Option<String>,
    names: HashMap<(Sort, u32), (String, usize)>,
    numbers: HashMap<(Sort, String), u32>,
}

/// The file of names that is used where it stands beside a policy.
const BESIDE: &str = "names.txt";

/// A number of the sort, in range.
fn number(word: &str, sort: Sort) -> Result<u32, String> {
    let (least, largest) = sort.range();
    let parsed = word.parse().ok().filter(|n| (least..=largest).contains(n));
    parsed.ok_or(format!("{word:?} is no number of a {}: those are {least} to {largest}", sort.word()))
}

/// A name can be told from a number, from what the text format says by itself, and from the parts of a context or a set of permissions.
fn is_name(word: &str) -> bool {
    let first = |c: char| c.is_alphabetic() || c == '_';
    word != "self" && word.starts_with(first) && word.chars().all(|c| c.is_alphanumeric() || "_-.".contains(c))
}

impl Names {
    /// The names of the file that is named, or else of `names.txt` beside the policy, where it is there.
    pub fn choose(named: Option<&str>, policy: &str) -> Run<Names> {
        let beside = Path::new(policy).with_file_name(BESIDE);
        match named {
            Some(file) => Names::read(file),
            None if beside.exists() => Names::read(&beside.to_string_lossy()),
            None => Ok(Names::default()),
        }
    }

    fn read(file: &str) -> Run<Names> {
        let text = utf8(file, read(file)?)?;
        let mut names = Names { file: Some(file.to_string()), ..Names::default() };
        for (i, line) in text.lines().enumerate() {
            names.take(i + 1, line).map_err(|why| unasked(format!("{file}: line {}: {why}", i + 1)))?;
        }
        Ok(names)
    }

    fn take(&mut self, at: usize, line: &str) -> Result<(), String> {
        let words: Vec<&str> = line.split('#').next().unwrap_or("").split_whitespace().collect();
        match words[..] {
            [] => Ok(()),
            ["type", n, name] => self.give(Sort::Type, n, name, at),
            ["role", n, name] => self.give(Sort::Role, n, name, at),
            ["user", n, name] => self.give(Sort::User, n, name, at),
            ["class", n, name] => self.give(Sort::Class, n, name, at),
            ["permission", class, n, name] => self.give(Sort::PermissionOf(number(class, Sort::Class)?), n, name, at),
            ["type" | "role" | "user" | "class", ..] => Err(format!("{} is followed by a number and a name", words[0])),
            ["permission", ..] => Err("permission is followed by a class's number, its own, and a name".into()),
            [word, ..] => Err(format!("{word:?} is none of type, role, user, class, permission")),
        }
    }

    fn give(&mut self, sort: Sort, word: &str, name: &str, at: usize) -> Result<(), String> {
        let n = number(word, sort)?;
        if !is_name(name) {
            return Err(format!("{name:?} is no name: one has letters, digits, _ - and . and begins with a letter or _"));
        }
        if let Some((other, before)) = self.names.get(&(sort, n)) {
            return Err(format!("{} {n} is named {other} by line {before} already", sort.word()));
        }
        if let Some(before) = self.numbers.insert((sort, name.to_string()), n) {
            let line = self.names[&(sort, before)].1;
            return Err(format!("{name} is the name of {} {before} already, by line {line}", sort.word()));
        }
        self.names.insert((sort, n), (name.to_string(), at));
        Ok(())
    }

    pub fn name(&self, sort: Sort, n: u32) -> Option<&str> {
        self.names.get(&(sort, n)).map(|(name, _)| name.as_str())
    }

    /// The name, or the number where there is none.
    pub fn short(&self, sort: Sort, n: u32) -> String {
        self.name(sort, n).map_or(n.to_string(), str::to_string)
    }

    /// What it is and its name, as in `type 4` or `type record_t`.
    pub fn long(&self, sort: Sort, n: u32) -> String {
        format!("{} {}", sort.word(), self.short(sort, n))
    }

    /// The number that a word stands for: any number, or a name that is known.
    pub fn number(&self, sort: Sort, word: &str) -> Result<u32, String> {
        match (word.parse(), self.numbers.get(&(sort, word.to_string()))) {
            (Ok(n), _) | (_, Some(&n)) => Ok(n),
            _ => Err(self.unknown(sort, word)),
        }
    }

    fn unknown(&self, sort: Sort, word: &str) -> String {
        let what = match sort {
            Sort::PermissionOf(class) => format!("permission of {}", self.long(Sort::Class, class)),
            _ => sort.word().to_string(),
        };
        match &self.file {
            Some(file) => format!("{word:?} is no {what} of {file}, and no number"),
            None => format!("{word:?} is no number, and no file of names is given that would name a {what}"),
        }
    }

    /// As SELinux writes it, user:role:type; without names as the goal program prints it.
    pub fn context(&self, x: Context) -> String {
        match self.file {
            Some(_) => format!("{}:{}:{}", self.short(Sort::User, x.u), self.short(Sort::Role, x.r), self.short(Sort::Type, x.t)),
            None => format!("{} {} {}", x.t, x.r, x.u),
        }
    }

    /// As SELinux writes it, class { permission }; without names as the goal program prints it.
    pub fn event(&self, e: Event) -> String {
        match self.file {
            Some(_) => format!("{} {{ {} }}", self.short(Sort::Class, e.c), self.short(Sort::PermissionOf(e.c), e.p)),
            None => format!("{} {}", e.c, e.p),
        }
    }

    /// A set of permissions of a class: `{ read write }` where each of them has a name, and else its mask.
    pub fn mask(&self, class: u32, mask: u32) -> String {
        let bits = (0..32).filter(|p| mask >> p & 1 == 1);
        let named: Option<Vec<&str>> = bits.map(|p| self.name(Sort::PermissionOf(class), p)).collect();
        match named {
            Some(named) if !named.is_empty() => format!("{{ {} }}", named.join(" ")),
            _ if self.file.is_some() => format!("{mask:#x}"),
            _ => mask.to_string(),
        }
    }
}
