//! Files that are read. Where an image is asked for, its text will do.
use crate::ending::{unasked, Run};
use crate::names::Names;
use crate::text;
use std::fs::File;
use std::io::Read;

/// What a file is asked to be.
#[derive(Clone, Copy, PartialEq, Eq, Debug)]
pub enum What {
    Policy,
    Goal,
}

impl What {
    pub fn word(self) -> &'static str {
        match self {
            What::Policy => "policy",
            What::Goal => "goal",
        }
    }
}

/// More than any image, text or file of names has: what is longer, as a device that never ends, is not read on.
const LONGEST: u64 = 1 << 24;

pub fn read(file: &str) -> Run<Vec<u8>> {
    let mut bytes = Vec::new();
    let read = File::open(file).and_then(|f| f.take(LONGEST + 1).read_to_end(&mut bytes));
    read.map_err(|why| unasked(format!("{file} cannot be read: {why}")))?;
    match bytes.len() as u64 > LONGEST {
        true => Err(unasked(format!("{file} cannot be read: it has more than {LONGEST} bytes"))),
        false => Ok(bytes),
    }
}

/// The text of a file, without the mark that some editors put before it.
pub fn utf8(file: &str, bytes: Vec<u8>) -> Run<String> {
    let text = String::from_utf8(bytes).map_err(|why| {
        let line = 1 + why.as_bytes()[..why.utf8_error().valid_up_to()].iter().filter(|&&b| b == b'\n').count();
        unasked(format!("{file}: line {line}: not text (UTF-8)"))
    })?;
    Ok(text.strip_prefix('\u{feff}').map_or(text.clone(), str::to_string))
}

/// Is it a text? No image that is accepted is one: its links and kinds are bytes below those of letters, and not all of them are those
/// of tabs and line ends.
pub fn is_text(bytes: &[u8]) -> bool {
    !bytes.is_empty() && bytes.iter().all(|&b| b >= b' ' || b"\t\n\r".contains(&b))
}

/// The image of a file, or that of its text.
pub fn image(file: &str, what: What, names: &Names) -> Run<Vec<u8>> {
    let bytes = read(file)?;
    if !is_text(&bytes) {
        return Ok(bytes);
    }
    let text = utf8(file, bytes)?;
    let (image, is) = text::assemble(file, &text, names)?;
    match is == what {
        true => Ok(image),
        false => Err(unasked(format!("{file} is the text of a {}, and a {} is asked for", is.word(), what.word()))),
    }
}

/// The image of a file, or that of its text, whichever of the two it is.
pub fn any_image(file: &str, names: &Names) -> Run<Vec<u8>> {
    let bytes = read(file)?;
    match is_text(&bytes) {
        true => Ok(text::assemble(file, &utf8(file, bytes)?, names)?.0),
        false => Ok(bytes),
    }
}
