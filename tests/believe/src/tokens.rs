//! Tokens, lines and items of antt, the language of `specs/` and of the clauses of a contract.

#[derive(Clone, Debug, PartialEq)]
pub enum Token {
    /// a name, or names joined by dots with no space between: `x`, `outcome.Holds`
    Path(Vec<String>),
    /// a projection: ` .field`
    Field(String),
    /// one of ( ) { } . ; , @
    Mark(char),
}

impl Token {
    /// The name, where the token is one name alone.
    pub fn name(&self) -> Option<&str> {
        match self {
            Token::Path(parts) if parts.len() == 1 => Some(&parts[0]),
            _ => None,
        }
    }
    pub fn is(&self, word: &str) -> bool {
        self.name() == Some(word)
    }
    pub fn is_mark(&self, mark: char) -> bool {
        *self == Token::Mark(mark)
    }
}

/// The characters that end a name, besides spaces.
const MARKS: &str = "(){}.;,@\"«»";

fn in_name(c: char) -> bool {
    !c.is_whitespace() && !MARKS.contains(c)
}

/// The text without its comments, `-- ..` and `{- .. -}`; lines keep their numbers.
pub fn without_comments(text: &str) -> String {
    let mut kept = String::new();
    let mut rest = text;
    // a name may have `--` inside, so a comment starts only where a name could
    let mut fresh = true;
    while let Some(c) = rest.chars().next() {
        let comment = match rest {
            _ if fresh && rest.starts_with("--") => rest.find('\n').unwrap_or(rest.len()),
            _ if rest.starts_with("{-") => rest.find("-}").map_or(rest.len(), |end| end + 2),
            _ => 0,
        };
        if comment > 0 {
            kept.extend(rest[..comment].chars().filter(|&c| c == '\n'));
            rest = &rest[comment..];
            continue;
        }
        kept.push(c);
        fresh = !in_name(c);
        rest = &rest[c.len_utf8()..];
    }
    kept
}

/// The length of the name that the text starts with; `«max_len»` is one name.
fn name_length(text: &str) -> usize {
    match text.strip_prefix('«').and_then(|inner| inner.find('»')) {
        Some(inner) => '«'.len_utf8() + inner + '»'.len_utf8(),
        None => text.find(|c| !in_name(c)).unwrap_or(text.len()),
    }
}

fn plain(name: &str) -> String {
    name.trim_matches(['«', '»']).to_string()
}

/// The tokens of a text without comments. A quoted text names nothing and is left out.
pub fn tokens(text: &str) -> Vec<Token> {
    let mut tokens = Vec::new();
    let mut rest = text;
    let mut after_name = false;
    while let Some(c) = rest.chars().next() {
        let dotted = if c == '.' { name_length(&rest[1..]) } else { 0 };
        let length = name_length(rest);
        let taken = if dotted > 0 {
            let name = plain(&rest[1..1 + dotted]);
            match tokens.last_mut() {
                Some(Token::Path(parts)) if after_name => parts.push(name),
                _ => tokens.push(Token::Field(name)),
            }
            1 + dotted
        } else if length > 0 {
            tokens.push(Token::Path(vec![plain(&rest[..length])]));
            length
        } else if c == '"' {
            rest[1..].find('"').map_or(rest.len(), |end| end + 2)
        } else {
            if !c.is_whitespace() {
                tokens.push(Token::Mark(c));
            }
            c.len_utf8()
        };
        after_name = dotted > 0 || length > 0;
        rest = &rest[taken..];
    }
    tokens
}

/// A line that is neither blank nor all comment.
#[derive(Clone, Debug)]
pub struct Line {
    pub number: usize,
    pub indent: usize,
    pub text: String,
}

pub fn lines(text: &str) -> Vec<Line> {
    let text = without_comments(text);
    let line = |(at, text): (usize, &str)| {
        let indent = text.chars().take_while(|&c| c == ' ').count();
        Line { number: at + 1, indent, text: text.to_string() }
    };
    text.lines().enumerate().map(line).filter(|line| !line.text.trim().is_empty()).collect()
}

/// The items of a block: each starts at the block's indentation, and has the deeper lines that follow.
pub fn items(lines: &[Line]) -> Vec<&[Line]> {
    let Some(base) = lines.first().map(|line| line.indent) else { return Vec::new() };
    let starts: Vec<usize> = (0..lines.len()).filter(|&at| lines[at].indent <= base).collect();
    let ends = starts.iter().skip(1).copied().chain([lines.len()]);
    starts.iter().zip(ends).map(|(&start, end)| &lines[start..end]).collect()
}

pub fn tokens_of(lines: &[Line]) -> Vec<Token> {
    lines.iter().flat_map(|line| tokens(&line.text)).collect()
}
