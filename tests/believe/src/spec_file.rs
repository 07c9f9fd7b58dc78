//! One file of `specs/`: what it uses and what it defines.
use crate::modules::Module;
use crate::tokens::{items, lines, tokens_of, Line, Token};

/// A `use` line.
#[derive(Clone, Debug)]
pub struct Use {
    pub module: Module,
    /// each name that is brought in, and the one that it gets here
    pub names: Vec<(String, String)>,
    /// the name that the module itself gets here, where no names are brought in
    pub alias: Option<String>,
    /// the names are passed on to others
    pub public: bool,
}

/// Tokens with the names that are bound in all of them.
#[derive(Clone, Debug, Default)]
pub struct Stretch {
    pub bound: Vec<String>,
    pub tokens: Vec<Token>,
    /// a clause of a function: what stands before its `=` is a pattern
    pub clause: bool,
}

#[derive(Clone, Debug)]
pub struct Definition {
    pub name: String,
    pub line: usize,
    /// as it stands, without comments: what is bound for it, its type or header, and all below
    pub text: String,
    pub stretches: Vec<Stretch>,
    /// a record's fields
    pub fields: Vec<String>,
    /// a data type's constructors
    pub constructors: Vec<String>,
}

/// What holds for all declarations of a `module _ (..) where` block: its parameters, and the fields that it opens.
#[derive(Clone, Default)]
struct Block {
    stretches: Vec<Stretch>,
    bound: Vec<String>,
    text: String,
}

#[derive(Debug)]
pub struct SpecFile {
    pub module: Module,
    pub uses: Vec<Use>,
    pub definitions: Vec<Definition>,
    pub children: Vec<String>,
    /// lines that are not blank, not comment and not of a `use` line
    pub lines: usize,
    /// what could not be read
    pub problems: Vec<String>,
}

impl SpecFile {
    pub fn read(module: Module, text: &str) -> SpecFile {
        let mut file = SpecFile { module, uses: vec![], definitions: vec![], children: vec![], lines: 0, problems: vec![] };
        file.block(&lines(text), &Block::default());
        file
    }

    /// The definition that a name stands for: its own, or that of the type which it constructs.
    pub fn definition(&self, name: &str) -> Option<&Definition> {
        let constructs = |d: &&Definition| d.constructors.iter().any(|c| c == name);
        self.definitions.iter().find(|d| d.name == name).or_else(|| self.definitions.iter().find(constructs))
    }

    pub fn is_constructor(&self, name: &str) -> bool {
        self.definitions.iter().any(|d| d.constructors.iter().any(|c| c == name))
    }

    /// What the definitions name by a whole path, with no `use` line.
    pub fn whole_paths(&self) -> Vec<(Module, String)> {
        let tokens = self.definitions.iter().flat_map(|d| &d.stretches).flat_map(|stretch| &stretch.tokens);
        let whole = |token: &Token| match token {
            Token::Path(path) if path.len() > 1 && is_whole(path) => {
                Some((Module::named(&path[..path.len() - 1]), path[path.len() - 1].clone()))
            }
            _ => None,
        };
        tokens.filter_map(whole).collect()
    }

    fn block(&mut self, lines: &[Line], outer: &Block) {
        let items = items(lines);
        let mut block = outer.clone();
        for item in items.iter().filter(|item| tokens_of(item).first().is_some_and(|t| t.is("open"))) {
            block.open(&tokens_of(item));
            block.text += &text_of(item);
            self.lines += item.len();
        }
        for item in items {
            self.item(item, &block);
        }
    }

    fn item(&mut self, item: &[Line], block: &Block) {
        let all = tokens_of(item);
        let marks = all.iter().take_while(|t| ["unfoldable", "abbrev", "pub", "axiom"].iter().any(|m| t.is(m))).count();
        let tokens = &all[marks..];
        let public = all[..marks].iter().any(|t| t.is("pub"));
        match tokens.first().and_then(Token::name) {
            Some("use") => return self.use_line(item, &tokens[1..], public),
            Some("open") => return,
            Some("mod") => self.children.extend(tokens.get(1).and_then(Token::name).map(str::to_string)),
            Some("module" | "mutual") => return self.inner_block(item, block),
            Some("record") => self.record(item, tokens, block),
            Some("data") => self.data(item, tokens, block),
            Some(word) if word.starts_with("infix") => (),
            _ => self.function(item, tokens, block),
        }
        self.lines += item.len();
    }

    fn use_line(&mut self, item: &[Line], tokens: &[Token], public: bool) {
        let at = format!("{}:{}", self.module.file(), item[0].number);
        let Some(Token::Path(path)) = tokens.first() else {
            return self.problems.push(format!("{at}: a `use` line that cannot be read"));
        };
        if path.last().is_some_and(|last| last == "*") {
            return self.problems.push(format!("{at}: a `use` line that does not name what it brings"));
        }
        if tokens.get(1).is_some_and(|t| t.is_mark('.')) {
            self.names(path, &tokens[2..], public);
        } else {
            let last = path.last().cloned();
            let alias = if tokens.get(1).is_some_and(|t| t.is("as")) { named(&tokens[2..]) } else { last };
            self.uses.push(Use { module: self.module_here(path), names: vec![], alias, public });
        }
    }

    /// The names in the braces of a `use` line; `N.d` stands for d of the module N below.
    fn names(&mut self, path: &[String], tokens: &[Token], public: bool) {
        for leaf in tokens.split(|t| t.is_mark(',')) {
            let words: Vec<&Token> = leaf.iter().filter(|t| !matches!(t, Token::Mark(_))).collect();
            let Some(Token::Path(parts)) = words.first() else { continue };
            let Some((name, below)) = parts.split_last() else { continue };
            let here = if words.len() > 2 { words[2].name().unwrap_or(name) } else { name };
            let module = self.module_here(path).below(below);
            self.uses.push(Use { module, names: vec![(name.clone(), here.to_string())], alias: None, public });
        }
    }

    /// A path of a `use` line; it may begin with the name that another line of this file gives a module.
    fn module_here(&self, path: &[String]) -> Module {
        match self.uses.iter().find(|u| u.alias.is_some() && u.alias.as_ref() == path.first()) {
            Some(named) => named.module.below(&path[1..]),
            None => Module::named(path),
        }
    }

    /// `module _ (..) where` or `mutual`, and the declarations in it.
    fn inner_block(&mut self, item: &[Line], block: &Block) {
        let (head, body) = split_where(item);
        self.lines += head.len();
        let mut inner = block.clone();
        let header = Stretch { bound: block.bound.clone(), tokens: tokens_of(head), clause: false };
        inner.bound.extend(binders(&header.tokens));
        inner.stretches.push(header);
        inner.text += &text_of(head);
        self.block(body, &inner);
    }

    fn start(&mut self, name: String, item: &[Line], block: &Block) -> &mut Definition {
        let stretches = block.stretches.clone();
        let text = block.text.clone() + &text_of(item);
        self.definitions.push(Definition { name, line: item[0].number, text, stretches, fields: vec![], constructors: vec![] });
        self.definitions.last_mut().expect("a definition was pushed")
    }

    /// A record: its parameters are bound in all its fields, and each field in those after it.
    fn record(&mut self, item: &[Line], tokens: &[Token], block: &Block) {
        let (head, body) = split_where(item);
        let Some(name) = named(&tokens[1..]) else { return self.unread(item) };
        let definition = self.start(name, item, block);
        let header = header_of(&tokens_of(head), block);
        let mut bound = [block.bound.clone(), binders(&header.tokens)].concat();
        definition.stretches.push(header);
        for field in items(body) {
            let (names, ty) = split_colon(&tokens_of(field));
            definition.stretches.push(Stretch { bound: bound.clone(), tokens: ty, clause: false });
            definition.fields.extend(names.clone());
            bound.extend(names);
        }
    }

    fn data(&mut self, item: &[Line], tokens: &[Token], block: &Block) {
        let (head, body) = split_where(item);
        let Some(name) = named(&tokens[1..]) else { return self.unread(item) };
        let definition = self.start(name, item, block);
        let header = header_of(&tokens_of(head), block);
        let bound = [block.bound.clone(), binders(&header.tokens)].concat();
        definition.stretches.push(header);
        for constructor in items(body) {
            let (names, ty) = split_colon(&tokens_of(constructor));
            definition.stretches.push(Stretch { bound: bound.clone(), tokens: ty, clause: false });
            definition.constructors.extend(names);
        }
    }

    /// A signature starts a definition; any other item is a clause of the one before it.
    fn function(&mut self, item: &[Line], tokens: &[Token], block: &Block) {
        let bound = block.bound.clone();
        if let Some((name, ty)) = signature(tokens) {
            let definition = self.start(name, item, block);
            return definition.stretches.push(Stretch { bound, tokens: ty, clause: false });
        }
        match self.definitions.last_mut() {
            Some(last) => {
                last.text += &text_of(item);
                last.stretches.push(Stretch { bound, tokens: tokens.to_vec(), clause: true })
            }
            None => self.unread(item),
        }
    }

    fn unread(&mut self, item: &[Line]) {
        self.problems.push(format!("{}:{}: a declaration that cannot be read", self.module.file(), item[0].number));
    }
}

impl Block {
    /// `open R t using (a, b as c)`
    fn open(&mut self, tokens: &[Token]) {
        let at = tokens.iter().position(|t| t.is("using")).unwrap_or(tokens.len());
        let (what, names) = tokens.split_at(at);
        self.stretches.push(Stretch { bound: self.bound.clone(), tokens: what[1..].to_vec(), clause: false });
        let leaves = names.split(|t| t.is_mark(','));
        self.bound.extend(leaves.filter_map(|leaf| leaf.iter().filter_map(Token::name).next_back()).map(str::to_string));
    }
}

/// Whether a path begins at a crate's library, and so needs no `use` line.
pub fn is_whole(path: &[String]) -> bool {
    path.first().is_some_and(|first| first == "Rattle")
}

/// The lines as they stand, without comments, each with its end.
fn text_of(lines: &[Line]) -> String {
    lines.iter().map(|line| format!("{}\n", line.text.trim_end())).collect()
}

/// The first token as a name.
fn named(tokens: &[Token]) -> Option<String> {
    tokens.first().and_then(Token::name).map(str::to_string)
}

/// The lines up to the one that ends in `where`, and those after it.
fn split_where(item: &[Line]) -> (&[Line], &[Line]) {
    let ends = |line: &Line| line.text.split_whitespace().last().is_some_and(|word| word == "where" || word == "mutual");
    let at = item.iter().position(ends).map_or(item.len(), |at| at + 1);
    item.split_at(at)
}

/// The header of a record or a data type, without the words that are no names: all up to its own name.
fn header_of(tokens: &[Token], block: &Block) -> Stretch {
    let at = tokens.iter().position(|t| t.is("record") || t.is("data")).map_or(0, |at| at + 2);
    Stretch { bound: block.bound.clone(), tokens: tokens[at.min(tokens.len())..].to_vec(), clause: false }
}

/// The names before the first colon that stands in no brackets, and what follows it.
fn split_colon(tokens: &[Token]) -> (Vec<String>, Vec<Token>) {
    let at = outside(tokens, ":").unwrap_or(tokens.len());
    let names = tokens[..at].iter().filter_map(Token::name).filter(|&name| name != "pub").map(str::to_string).collect();
    (names, tokens[(at + 1).min(tokens.len())..].to_vec())
}

/// Where a word stands outside all brackets.
pub fn outside(tokens: &[Token], word: &str) -> Option<usize> {
    let mut depth = 0;
    tokens.iter().position(|token| {
        match token {
            Token::Mark('(' | '{') => depth += 1,
            Token::Mark(')' | '}') => depth -= 1,
            _ => (),
        }
        depth == 0 && token.is(word)
    })
}

/// `name {levels} : type`
fn signature(tokens: &[Token]) -> Option<(String, Vec<Token>)> {
    let name = named(tokens)?;
    let colon = outside(tokens, ":")?;
    let levels = &tokens[1..colon];
    let plain = levels.is_empty() || levels[0].is_mark('{') && levels[levels.len() - 1].is_mark('}');
    plain.then(|| (name, tokens[colon + 1..].to_vec()))
}

/// The names of the groups `(x y : A)` and `{x : A}`.
pub fn binders(tokens: &[Token]) -> Vec<String> {
    (0..tokens.len()).flat_map(|at| group(&tokens[at..])).collect()
}

/// The names that a group binds, where the tokens start with one.
pub fn group(tokens: &[Token]) -> Vec<String> {
    if !matches!(tokens.first(), Some(Token::Mark('(' | '{'))) {
        return Vec::new();
    }
    let names: Vec<&str> = tokens[1..].iter().map_while(Token::name).take_while(|&name| name != ":").collect();
    let colon = tokens.get(1 + names.len()).is_some_and(|t| t.is(":"));
    if colon {
        names.into_iter().map(str::to_string).collect()
    } else {
        Vec::new()
    }
}
