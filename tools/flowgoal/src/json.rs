//! JSON, as far as the tool writes it: one object, on one line.
use std::fmt;

pub enum Json {
    Null,
    Bool(bool),
    Number(u64),
    Text(String),
    List(Vec<Json>),
    Object(Vec<(&'static str, Json)>),
}

pub fn text(text: impl ToString) -> Json {
    Json::Text(text.to_string())
}

pub fn number(number: impl TryInto<u64>) -> Json {
    number.try_into().map_or(Json::Null, Json::Number)
}

pub fn list<T>(things: impl IntoIterator<Item = T>, json: impl Fn(T) -> Json) -> Json {
    Json::List(things.into_iter().map(json).collect())
}

/// A string: quotes, backslashes and control characters are escaped, all else stands as it is.
fn quoted(f: &mut fmt::Formatter, text: &str) -> fmt::Result {
    f.write_str("\"")?;
    for c in text.chars() {
        match c {
            '"' | '\\' => write!(f, "\\{c}")?,
            '\n' => f.write_str("\\n")?,
            c if c.is_control() => write!(f, "\\u{:04x}", c as u32)?,
            c => write!(f, "{c}")?,
        }
    }
    f.write_str("\"")
}

impl fmt::Display for Json {
    fn fmt(&self, f: &mut fmt::Formatter) -> fmt::Result {
        match self {
            Json::Null => f.write_str("null"),
            Json::Bool(yes) => write!(f, "{yes}"),
            Json::Number(number) => write!(f, "{number}"),
            Json::Text(text) => quoted(f, text),
            Json::List(things) => {
                f.write_str("[")?;
                for (i, thing) in things.iter().enumerate() {
                    write!(f, "{}{thing}", if i > 0 { "," } else { "" })?;
                }
                f.write_str("]")
            }
            Json::Object(fields) => {
                f.write_str("{")?;
                for (i, (name, value)) in fields.iter().enumerate() {
                    f.write_str(if i > 0 { "," } else { "" })?;
                    quoted(f, name)?;
                    write!(f, ":{value}")?;
                }
                f.write_str("}")
            }
        }
    }
}
