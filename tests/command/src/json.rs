//! A reader of JSON by its standard (RFC 8259), written apart from what writes it: nothing that is not JSON passes.
use std::collections::BTreeMap;

#[derive(Clone, PartialEq, Debug)]
pub enum Value {
    Null,
    Bool(bool),
    Number(f64),
    Text(String),
    List(Vec<Value>),
    Object(BTreeMap<String, Value>),
}

/// Nothing, for a field that is not there.
const MISSING: Value = Value::Null;

impl Value {
    pub fn field(&self, name: &str) -> &Value {
        match self {
            Value::Object(fields) => fields.get(name).unwrap_or(&MISSING),
            _ => &MISSING,
        }
    }
    pub fn list(&self) -> &[Value] {
        match self {
            Value::List(things) => things,
            _ => &[],
        }
    }
    pub fn text(&self) -> &str {
        match self {
            Value::Text(text) => text,
            _ => "",
        }
    }
    /// A number that is whole and not negative.
    pub fn number(&self) -> Option<usize> {
        match self {
            Value::Number(n) if *n >= 0.0 && n.fract() == 0.0 => Some(*n as usize),
            _ => None,
        }
    }
}

/// What is left to be read.
struct Reader<'a> {
    rest: &'a str,
}

/// One value, and nothing but space about it.
pub fn parse(text: &str) -> Result<Value, String> {
    let mut reader = Reader { rest: text };
    let value = reader.value()?;
    reader.space();
    match reader.rest {
        "" => Ok(value),
        rest => Err(format!("something follows the value: {:.20}", rest)),
    }
}

impl Reader<'_> {
    fn space(&mut self) {
        self.rest = self.rest.trim_start_matches([' ', '\t', '\n', '\r']);
    }

    fn take(&mut self, token: &str) -> bool {
        self.space();
        let rest = self.rest.strip_prefix(token);
        self.rest = rest.unwrap_or(self.rest);
        rest.is_some()
    }

    fn want(&mut self, token: &str) -> Result<(), String> {
        match self.take(token) {
            true => Ok(()),
            false => Err(format!("{token:?} is missing before {:.20}", self.rest)),
        }
    }

    fn value(&mut self) -> Result<Value, String> {
        for (word, value) in [("null", Value::Null), ("true", Value::Bool(true)), ("false", Value::Bool(false))] {
            if self.take(word) {
                return Ok(value);
            }
        }
        if self.take("[") {
            return Ok(Value::List(self.items("]", Reader::value)?));
        }
        if self.take("{") {
            let fields = self.items("}", Reader::field)?;
            let count = fields.len();
            let fields: BTreeMap<String, Value> = fields.into_iter().collect();
            return if fields.len() == count { Ok(Value::Object(fields)) } else { Err("a field stands twice".into()) };
        }
        match self.rest.starts_with('"') {
            true => self.string().map(Value::Text),
            false => self.number(),
        }
    }

    /// What stands between commas up to the end.
    fn items<T>(&mut self, end: &str, one: fn(&mut Self) -> Result<T, String>) -> Result<Vec<T>, String> {
        let mut items = Vec::new();
        if self.take(end) {
            return Ok(items);
        }
        loop {
            self.space();
            items.push(one(self)?);
            if self.take(end) {
                return Ok(items);
            }
            self.want(",")?;
        }
    }

    fn field(&mut self) -> Result<(String, Value), String> {
        let name = self.string()?;
        self.want(":")?;
        self.space();
        Ok((name, self.value()?))
    }

    fn string(&mut self) -> Result<String, String> {
        self.want("\"")?;
        let mut said = String::new();
        loop {
            let c = self.next().ok_or("a string does not end")?;
            match c {
                '"' => return Ok(said),
                '\\' => said.push(self.escaped()?),
                c if (c as u32) < 0x20 => return Err("a control character in a string".into()),
                c => said.push(c),
            }
        }
    }

    fn next(&mut self) -> Option<char> {
        let c = self.rest.chars().next()?;
        self.rest = &self.rest[c.len_utf8()..];
        Some(c)
    }

    fn escaped(&mut self) -> Result<char, String> {
        match self.next() {
            Some(c @ ('"' | '\\' | '/')) => Ok(c),
            Some('b') => Ok('\u{8}'),
            Some('f') => Ok('\u{c}'),
            Some('n') => Ok('\n'),
            Some('r') => Ok('\r'),
            Some('t') => Ok('\t'),
            Some('u') => {
                let digits: String = (0..4).map_while(|_| self.next()).collect();
                let code = u32::from_str_radix(&digits, 16).ok().filter(|_| digits.len() == 4 && !digits.contains('+'));
                code.and_then(char::from_u32).ok_or(format!("\\u{digits} is no character"))
            }
            other => Err(format!("{other:?} cannot be escaped")),
        }
    }

    /// As the standard has it: no sign but a minus, no leading zeros, digits on both sides of a point.
    fn number(&mut self) -> Result<Value, String> {
        let end = self.rest.find(|c: char| !"+-.eE0123456789".contains(c)).unwrap_or(self.rest.len());
        let (number, rest) = self.rest.split_at(end);
        let digits = number.strip_prefix('-').unwrap_or(number);
        let leads = digits.starts_with(|c: char| c.is_ascii_digit())
            && !(digits.len() > 1 && digits.starts_with('0') && !digits.starts_with("0."));
        let ends = number.ends_with(|c: char| c.is_ascii_digit()) && !number.contains(".e") && !number.contains(".E");
        self.rest = rest;
        number.parse().ok().filter(|_| leads && ends).map(Value::Number).ok_or(format!("no value: {number:?}"))
    }
}
