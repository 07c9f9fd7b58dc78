//! How a run ends: its exit status, and the one line that it says where it ends before its answer.
use std::fmt::Display;

/// The exit statuses of all subcommands (D66, D103 of docs/DECISIONS.md).
#[derive(Clone, Copy, PartialEq, Eq, Debug)]
pub enum End {
    /// holds, yes, the same, agree, written, shown
    Yes = 0,
    /// broken, no, different, none
    No = 1,
    /// the library refuses the question
    Refused = 2,
    /// the question could not be asked: wrong words, a file that cannot be read or written
    Unasked = 3,
    /// what the tool makes of the records is not what the library answers: one of the two is wrong
    Bug = 4,
}

/// Why a run ends without an answer.
#[derive(Debug)]
pub struct Fault {
    pub end: End,
    pub why: String,
}

pub type Run<T> = Result<T, Fault>;

pub fn unasked(why: impl Display) -> Fault {
    Fault { end: End::Unasked, why: why.to_string() }
}

/// The tool explains nothing that the library does not say: where the two differ, it says so in place of an explanation.
pub fn bug(why: impl Display) -> Fault {
    let why =
        format!("A BUG, NOTHING IS EXPLAINED: {why}; please report it with the images (the library's answer is the proved one)");
    Fault { end: End::Bug, why }
}
