//! The paths that a stretch of antt refers to: those whose first name nothing in the stretch binds.
use crate::spec_file::{group, outside, Stretch};
use crate::tokens::Token;

/// What is open at a place: for each bracket the names bound since it, and those that its group binds once it is closed.
#[derive(Default)]
struct Frame {
    bound: Vec<String>,
    after: Vec<String>,
}

struct Walk {
    frames: Vec<Frame>,
    found: Vec<Vec<String>>,
    /// the tokens that follow are the binders of a λ
    binders: bool,
}

/// The paths that the stretch refers to. In a pattern a name binds, unless it is that of a constructor.
pub fn references(stretch: &Stretch, is_constructor: &dyn Fn(&str) -> bool) -> Vec<Vec<String>> {
    let mut walk = Walk { frames: vec![Frame { bound: stretch.bound.clone(), after: vec![] }], found: vec![], binders: false };
    let equals = if stretch.clause { outside(&stretch.tokens, "=") } else { None };
    let (pattern, value) = stretch.tokens.split_at(equals.map_or(0, |at| at + 1));
    for token in pattern {
        walk.pattern(token, is_constructor);
    }
    for at in 0..value.len() {
        walk.step(value, at);
    }
    walk.found
}

impl Walk {
    fn pattern(&mut self, token: &Token, is_constructor: &dyn Fn(&str) -> bool) {
        match (token, token.name()) {
            (_, Some(name)) if !is_constructor(name) => self.bind(name),
            (Token::Path(path), _) => self.found.push(path.clone()),
            _ => (),
        }
    }

    fn step(&mut self, tokens: &[Token], at: usize) {
        match &tokens[at] {
            Token::Mark('(' | '{') => self.frames.push(Frame { bound: vec![], after: group(&tokens[at..]) }),
            Token::Mark(')' | '}') => self.close(),
            Token::Mark('.') => self.binders = false,
            Token::Path(path) => self.path(path, tokens, at),
            _ => (),
        }
    }

    fn close(&mut self) {
        let Some(closed) = self.frames.pop() else { return };
        closed.after.iter().for_each(|name| self.bind(name));
    }

    fn path(&mut self, path: &[String], tokens: &[Token], at: usize) {
        let before = at.checked_sub(1).map(|before| &tokens[before]);
        match path[0].as_str() {
            "λ" => self.binders = true,
            name if self.binders => self.bind(name),
            name if before.is_some_and(|t| t.is("let")) => self.bind(name),
            _ if is_label(before, tokens.get(at + 1)) => (),
            name if self.is_bound(name) => (),
            _ => self.found.push(path.to_vec()),
        }
    }

    fn bind(&mut self, name: &str) {
        if self.frames.is_empty() {
            self.frames.push(Frame::default());
        }
        self.frames.last_mut().expect("a frame").bound.push(name.to_string());
    }

    fn is_bound(&self, name: &str) -> bool {
        let here = |names: &[String]| names.iter().any(|bound| bound == name);
        // in the group `(x : A)` itself x stands only where it is bound
        self.frames.iter().any(|frame| here(&frame.bound) || here(&frame.after))
    }
}

/// The label of a field in `record { x = a; y = b }`, or of an argument in `f {x = a}`.
fn is_label(before: Option<&Token>, next: Option<&Token>) -> bool {
    before.is_some_and(|t| t.is_mark('{') || t.is_mark(';')) && next.is_some_and(|t| t.is("="))
}
