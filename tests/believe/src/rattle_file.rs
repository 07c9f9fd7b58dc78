//! One file of `src/`: its functions with their clauses, its structs and enums, and its `use` lines.
use crate::tokens::{tokens, Token};

/// A function with its clauses, as they stand but for line ends.
#[derive(Clone, Debug)]
pub struct Function {
    pub name: String,
    pub public: bool,
    /// on one line
    pub signature: String,
    pub requires: Vec<Clause>,
    pub ensures: Vec<Clause>,
}

/// A clause of a contract.
#[derive(Clone, Debug)]
pub struct Clause {
    /// `requires` or `ensures`, with a star where it speaks of memory
    kind: String,
    /// the name that the clause has beside others of its kind; empty where it is alone
    name: String,
    /// what stands in its braces, on one line
    pub text: String,
}

/// A struct or an enum.
#[derive(Clone, Debug)]
pub struct Declaration {
    /// `struct` or `enum`
    pub kind: String,
    pub name: String,
    /// `field: type`, or an enum's cases
    pub parts: Vec<String>,
}

#[derive(Debug, Default)]
pub struct RattleFile {
    /// the modules that it declares with no `pub`, and whether it passes on by `pub use`
    pub private_modules: Vec<String>,
    pub passes_on: bool,
    pub functions: Vec<Function>,
    pub declarations: Vec<Declaration>,
    /// paths of `use` lines, with the name that each gets here: `[policy_image, counts, Counts]`
    pub uses: Vec<(Vec<String>, String)>,
    /// what stands behind `ghost use`, a line each
    pub ghost_uses: Vec<String>,
}

/// A piece of code at the top level: what stands before its braces, its clauses, and what the braces hold.
struct Item {
    head: String,
    clauses: Vec<Clause>,
    body: String,
}

fn without_comments(text: &str) -> String {
    text.lines().map(|line| line.split("//").next().unwrap_or("")).collect::<Vec<_>>().join("\n")
}

fn one_line(text: &str) -> String {
    text.split_whitespace().collect::<Vec<_>>().join(" ")
}

/// The length of the bracketed text that starts here. Brackets in a quoted text, and `b'{'`, are none.
fn balanced(text: &str) -> usize {
    let (mut depth, mut quoted) = (0, false);
    for (at, c) in text.char_indices() {
        match c {
            '"' => quoted = !quoted,
            _ if quoted || text[..at].ends_with("b'") => (),
            '{' | '(' | '[' => depth += 1,
            '}' | ')' | ']' => depth -= 1,
            _ => (),
        }
        if depth == 0 {
            return at + c.len_utf8();
        }
    }
    text.len()
}

fn inside(bracketed: &str) -> String {
    let inner = bracketed.strip_prefix(['{', '(']).unwrap_or(bracketed);
    inner.strip_suffix(['}', ')']).unwrap_or(inner).to_string()
}

const KINDS: [&str; 4] = ["requires", "requires*", "ensures", "ensures*"];

/// The clause that a brace opens, by the word before it or the word and a name, and where the head ends without these.
fn clause(head: &str) -> Option<(Clause, usize)> {
    let (before, last) = last_word(head)?;
    let (before, kind, name) = match last_word(before) {
        _ if KINDS.contains(&last) => (before, last, ""),
        Some((before, kind)) if KINDS.contains(&kind) => (before, kind, last),
        _ => return None,
    };
    Some((Clause { kind: kind.to_string(), name: name.to_string(), text: String::new() }, before.len()))
}

/// A text cut before its last word.
fn last_word(text: &str) -> Option<(&str, &str)> {
    let text = text.trim_end();
    let at = text.rfind(char::is_whitespace).map_or(0, |at| at + 1);
    (at < text.len()).then(|| text.split_at(at))
}

fn items(text: &str) -> Vec<Item> {
    let mut items = Vec::new();
    let mut item = Item { head: String::new(), clauses: vec![], body: String::new() };
    let mut rest = text;
    while let Some(c) = rest.chars().next() {
        let start = item.head.trim_start().trim_start_matches("pub ").trim_start_matches("ghost ");
        let is_use = start.starts_with("use ");
        let length = if "{([".contains(c) { balanced(rest) } else { c.len_utf8() };
        let (taken, after) = rest.split_at(length);
        rest = after;
        let mut ended = c == ';';
        match clause(&item.head) {
            Some((clause, length)) if c == '{' => {
                item.head.truncate(length);
                item.clauses.push(Clause { text: one_line(&inside(taken)), ..clause });
            }
            _ if c == '{' && !is_use => (item.body, ended) = (inside(taken), true),
            _ => item.head.push_str(taken),
        }
        if ended {
            items.push(std::mem::replace(&mut item, Item { head: String::new(), clauses: vec![], body: String::new() }));
        }
    }
    items
}

/// The head without attributes such as `#[unsafe(no_mangle)]` and `#![tactic(auto)]`, and on one line.
fn plain_head(head: &str) -> String {
    let mut head = head.trim_start();
    while let Some(attribute) = head.strip_prefix("#!").or(head.strip_prefix('#')) {
        head = attribute[balanced(attribute)..].trim_start();
    }
    one_line(head)
}

impl RattleFile {
    pub fn read(text: &str) -> RattleFile {
        let mut file = RattleFile::default();
        file.items(&without_comments(text));
        file
    }

    fn items(&mut self, text: &str) {
        for item in items(text) {
            let head = plain_head(&item.head);
            let words: Vec<&str> = head.split([' ', '(', '{', ';', '<']).filter(|word| !word.is_empty()).collect();
            let public = words.first() == Some(&"pub");
            let after = |word: &str| words.iter().position(|w| *w == word).and_then(|at| words.get(at + 1).copied());
            match words.get(public as usize).copied() {
                Some("use") => {
                    self.passes_on |= public;
                    self.use_line(&head[head.find("use").unwrap_or(0) + 3..]);
                }
                Some("ghost") => self.ghost_uses.push(head.trim_end_matches(';').replacen("ghost ", "", 1)),
                Some("mod") if !public && item.body.is_empty() => {
                    self.private_modules.push(after("mod").unwrap_or("").to_string())
                }
                Some("impl" | "mod") => self.items(&item.body),
                Some(kind @ ("struct" | "enum")) => self.declaration(kind, after(kind).unwrap_or(""), &head, &item.body),
                Some("fn" | "extern") => self.function(after("fn").unwrap_or(""), public, head.clone(), item.clauses),
                _ => (),
            }
        }
    }

    fn use_line(&mut self, path: &str) {
        let path = path.trim().trim_end_matches(';');
        let (stem, leaves) = match path.split_once("::{") {
            Some((stem, leaves)) => (stem, leaves.trim_end_matches('}')),
            None => path.rsplit_once("::").unwrap_or(("", path)),
        };
        for leaf in leaves.split(',').map(str::trim).filter(|leaf| !leaf.is_empty()) {
            let (name, here) = leaf.split_once(" as ").unwrap_or((leaf, leaf));
            let parts = stem.split("::").chain(name.split("::")).filter(|part| !part.is_empty());
            let here = here.rsplit("::").next().unwrap_or(here).to_string();
            self.uses.push((parts.map(str::to_string).collect(), here));
        }
    }

    fn declaration(&mut self, kind: &str, name: &str, head: &str, body: &str) {
        let name = name.trim_end_matches(';').to_string();
        // a tuple struct has its parts in the head
        let body = if body.is_empty() {
            head.find('(').map_or(String::new(), |at| inside(head[at..].trim_end_matches(';')))
        } else {
            body.to_string()
        };
        let parts = commas(&body).into_iter().map(|part| one_line(part.trim_start().trim_start_matches("pub "))).collect();
        self.declarations.push(Declaration { kind: kind.to_string(), name, parts });
    }

    fn function(&mut self, name: &str, public: bool, head: String, clauses: Vec<Clause>) {
        let of = |kind: &str| clauses.iter().filter(|c| c.kind.trim_end_matches('*') == kind).cloned().collect();
        let signature = head.replace("( ", "(").replace(", )", ")");
        self.functions.push(Function {
            name: name.to_string(),
            public,
            signature,
            requires: of("requires"),
            ensures: of("ensures"),
        });
    }
}

/// The parts between commas that stand in no brackets.
fn commas(text: &str) -> Vec<String> {
    let mut parts = vec![String::new()];
    let mut rest = text;
    while let Some(c) = rest.chars().next() {
        let length = if "{([".contains(c) { balanced(rest) } else { c.len_utf8() };
        match c {
            ',' => parts.push(String::new()),
            _ => parts.last_mut().expect("a part").push_str(&rest[..length]),
        }
        rest = &rest[length..];
    }
    parts.into_iter().filter(|part| !part.trim().is_empty()).collect()
}

/// Types of the language, which no file has to declare or use.
const BUILT_IN: [&str; 2] = ["Option", "Result"];

/// The names of declared types in a text of Rattle: those that start with a capital letter and are not those of constants.
pub fn type_names(text: &str) -> Vec<String> {
    let words = text.split(|c: char| !c.is_alphanumeric() && c != '_');
    let is_type = |word: &&str| word.starts_with(char::is_uppercase) && (word.len() == 1 || word.contains(char::is_lowercase));
    words.filter(is_type).filter(|word| !BUILT_IN.contains(word)).map(str::to_string).collect()
}

impl Declaration {
    /// The types that the fields, or what the cases hold, are of.
    pub fn types(&self) -> Vec<String> {
        let ty = |part: &String| match part.split_once([':', '(', '{']) {
            Some((_, ty)) => ty.to_string(),
            None if self.kind == "enum" => String::new(),
            None => part.clone(),
        };
        self.parts.iter().flat_map(|part| type_names(&ty(part))).collect()
    }
}

impl Function {
    /// The names of the parameters, which hide all else of their spelling in the clauses.
    pub fn parameters(&self) -> Vec<String> {
        let list = self.signature.find('(').map_or("", |at| &self.signature[at..at + balanced(&self.signature[at..])]);
        let name = |part: &String| part.split_once(':').map(|(name, _)| name.trim().trim_start_matches("mut ").to_string());
        commas(&inside(list)).iter().filter_map(name).collect()
    }

    /// As the page quotes it: the signature, and each `ensures`.
    pub fn quoted(&self) -> String {
        let ensures = self.ensures.iter().map(|clause| format!("    {}", clause.written()));
        [self.signature.clone()].into_iter().chain(ensures).collect::<Vec<_>>().join("\n")
    }

    /// The types that the signature names.
    pub fn types(&self) -> Vec<String> {
        type_names(&self.signature.replace("\"C\"", ""))
    }

    /// What is promised, as tokens of antt.
    pub fn promised(&self) -> Vec<Token> {
        self.ensures.iter().flat_map(|clause| tokens(&clause.text)).collect()
    }
}

impl Clause {
    /// As it stands in the code.
    pub fn written(&self) -> String {
        let words = [self.kind.as_str(), &self.name, "{", &self.text, "}"];
        words.into_iter().filter(|word| !word.is_empty()).collect::<Vec<_>>().join(" ")
    }
}
