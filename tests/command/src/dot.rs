//! A reader of the dot language of Graphviz, as far as a directed graph needs it, by its grammar: statements with their semicolons, subgraphs,
//! attributes, edges between nodes that are stated.
use std::collections::BTreeSet;

/// The nodes and edges of a picture.
#[derive(Default, Debug)]
pub struct Picture {
    pub nodes: BTreeSet<String>,
    pub edges: Vec<(String, String)>,
}

#[derive(Clone, PartialEq, Debug)]
enum Token {
    Name(String),
    Text(String),
    Sign(&'static str),
}

const SIGNS: [&str; 8] = ["->", "{", "}", "[", "]", "=", ";", ","];

fn tokens(text: &str) -> Result<Vec<Token>, String> {
    let mut tokens = Vec::new();
    let mut rest = text.trim_start();
    while !rest.is_empty() {
        let length = if let Some(sign) = SIGNS.iter().find(|sign| rest.starts_with(**sign)) {
            tokens.push(Token::Sign(sign));
            sign.len()
        } else if rest.starts_with('"') {
            let length = string_length(rest)?;
            tokens.push(Token::Text(rest[1..length - 1].to_string()));
            length
        } else {
            let length = rest.find(|c: char| !c.is_ascii_alphanumeric() && c != '_').unwrap_or(rest.len());
            if length == 0 || rest.starts_with(|c: char| c.is_ascii_digit()) {
                return Err(format!("no word of the dot language: {rest:.20}"));
            }
            tokens.push(Token::Name(rest[..length].to_string()));
            length
        };
        rest = rest[length..].trim_start();
    }
    Ok(tokens)
}

/// A string goes up to a quote that no backslash stands before, and on one line.
fn string_length(rest: &str) -> Result<usize, String> {
    let mut escaped = false;
    for (at, c) in rest.char_indices().skip(1) {
        match c {
            '\n' => return Err("a string goes over the end of its line".into()),
            '"' if !escaped => return Ok(at + 1),
            _ => escaped = c == '\\' && !escaped,
        }
    }
    Err("a string does not end".into())
}

/// The tokens that are left, from the last to the first.
struct Reader {
    rest: Vec<Token>,
    picture: Picture,
}

pub fn parse(text: &str) -> Result<Picture, String> {
    let mut rest = tokens(text)?;
    rest.reverse();
    let mut reader = Reader { rest, picture: Picture::default() };
    if reader.name()? != "digraph" {
        return Err("it does not begin with digraph".into());
    }
    reader.name()?;
    reader.statements()?;
    if let Some(token) = reader.rest.last() {
        return Err(format!("something follows the graph: {token:?}"));
    }
    let picture = reader.picture;
    let ends = picture.edges.iter().flat_map(|(from, to)| [from, to]);
    let lost: Vec<&String> = ends.filter(|end| !picture.nodes.contains(*end)).collect();
    match lost.is_empty() {
        true => Ok(picture),
        false => Err(format!("edges have the ends {lost:?}, which are no nodes")),
    }
}

impl Reader {
    fn name(&mut self) -> Result<String, String> {
        match self.rest.pop() {
            Some(Token::Name(name)) => Ok(name),
            other => Err(format!("a name is missing, at {other:?}")),
        }
    }

    fn take(&mut self, sign: &'static str) -> bool {
        let is = self.rest.last() == Some(&Token::Sign(sign));
        if is {
            self.rest.pop();
        }
        is
    }

    fn want(&mut self, sign: &'static str) -> Result<(), String> {
        match self.take(sign) {
            true => Ok(()),
            false => Err(format!("{sign} is missing before {:?}", self.rest.last())),
        }
    }

    fn statements(&mut self) -> Result<(), String> {
        self.want("{")?;
        while !self.take("}") {
            self.statement()?;
        }
        Ok(())
    }

    fn statement(&mut self) -> Result<(), String> {
        let name = self.name()?;
        if name == "subgraph" {
            self.name()?;
            return self.statements();
        }
        if self.take("=") {
            self.value()?;
        } else if self.take("->") {
            let to = self.name()?;
            self.picture.edges.push((name, to));
            self.attributes()?;
        } else {
            self.attributes()?;
            if name != "node" && name != "edge" && !self.picture.nodes.insert(name.clone()) {
                return Err(format!("the node {name} stands twice"));
            }
        }
        self.want(";")
    }

    fn value(&mut self) -> Result<(), String> {
        match self.rest.pop() {
            Some(Token::Name(_) | Token::Text(_)) => Ok(()),
            other => Err(format!("a value is missing, at {other:?}")),
        }
    }

    fn attributes(&mut self) -> Result<(), String> {
        if !self.take("[") {
            return Ok(());
        }
        loop {
            self.name()?;
            self.want("=")?;
            self.value()?;
            if self.take("]") {
                return Ok(());
            }
            self.want(",")?;
        }
    }
}
