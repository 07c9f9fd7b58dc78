//! What the calls answer, by name. A call gives the number 256m + 4k + answer, for m steps, or the m bytes that it wrote, and the
//! refusal k, where m takes 32 bits; it is put together and taken apart here alone.
use crate::is_policy_length;
use std::fmt;

/// What the goal question is answered with.
#[derive(Clone, Copy, PartialEq, Eq, PartialOrd, Ord, Debug)]
pub enum Outcome {
    Holds,
    /// A path of m steps breaks order, and none of fewer steps breaks the goal.
    Order(u32),
    /// A path of m steps breaks events, none of so many steps breaks order, and none of fewer steps breaks the goal.
    Events(u32),
    /// Refused with k: from 1 to 11, or with 14.
    Refused(u32),
    /// Refused with 12: a path of m steps breaks the goal, and the path slice has no room for it.
    NoRoom(u32),
}

/// What a bare question is answered with.
#[derive(Clone, Copy, PartialEq, Eq, PartialOrd, Ord, Debug)]
pub enum Answer {
    No,
    Yes,
    /// Refused with k: from 1 to 6, 14 or 13.
    Refused(u32),
}

/// What least steps is answered with.
#[derive(Clone, Copy, PartialEq, Eq, PartialOrd, Ord, Debug)]
pub enum Steps {
    /// No path, of any length, leads from the one context to the other.
    None,
    /// A path of m steps is shown, and none has fewer.
    Shown(u32),
    /// Refused with k: from 1 to 6, 14, 13 or 11.
    Refused(u32),
    /// Refused with 12: a shortest path has m steps, and the path slice has no room for it.
    NoRoom(u32),
}

/// What a call that writes a policy image is answered with.
#[derive(Clone, Copy, PartialEq, Eq, PartialOrd, Ord, Debug)]
pub enum Writing {
    /// So many bytes are written.
    Written(u32),
    /// Refused with k: from 1 to 6, 14, 15 or 16.
    Refused(u32),
}

/// A number that is no answer to its question.
#[derive(Clone, Copy, PartialEq, Eq, Debug)]
pub struct Stray {
    pub question: &'static str,
    pub number: u64,
}

/// The answer of every question that is refused.
const REFUSED: u64 = 3;

fn number(m: u32, k: u32, answer: u64) -> u64 {
    256 * m as u64 + 4 * k as u64 + answer
}

/// m, k and the answer, without what stands above the 32 bits of m.
fn fields(raw: u64) -> (u32, u32, u64) {
    ((raw / 256) as u32, (raw / 4 % 64) as u32, raw % 4)
}

impl Outcome {
    /// What the number says, which must be exactly that outcome's: nothing in it is passed over.
    pub fn from_raw(raw: u64) -> Result<Outcome, Stray> {
        let (m, k, answer) = fields(raw);
        let outcome = match (k, answer) {
            (0, 0) => Some(Outcome::Holds),
            (0, 1) => Some(Outcome::Order(m)),
            (0, 2) => Some(Outcome::Events(m)),
            (1..=11 | 14, REFUSED) => Some(Outcome::Refused(k)),
            (12, REFUSED) => Some(Outcome::NoRoom(m)),
            _ => None,
        };
        outcome.filter(|outcome| outcome.raw() == raw).ok_or(Stray { question: "the goal question", number: raw })
    }

    pub fn raw(self) -> u64 {
        match self {
            Outcome::Holds => number(0, 0, 0),
            Outcome::Order(m) => number(m, 0, 1),
            Outcome::Events(m) => number(m, 0, 2),
            Outcome::Refused(k) => number(0, k, REFUSED),
            Outcome::NoRoom(m) => number(m, 12, REFUSED),
        }
    }

    /// The steps that the outcome tells of; 0 where it tells of none.
    pub fn steps(self) -> u32 {
        match self {
            Outcome::Order(m) | Outcome::Events(m) | Outcome::NoRoom(m) => m,
            Outcome::Holds | Outcome::Refused(_) => 0,
        }
    }

    /// The outcome in words, without its steps.
    pub fn name(self) -> String {
        match self {
            Outcome::Holds => "holds".to_string(),
            Outcome::Order(_) => "order".to_string(),
            Outcome::Events(_) => "events".to_string(),
            Outcome::Refused(k) => format!("refused {k}"),
            Outcome::NoRoom(_) => "refused 12".to_string(),
        }
    }
}

impl Answer {
    /// What the number says, which must be exactly that answer's.
    pub fn from_raw(raw: u64) -> Result<Answer, Stray> {
        let (_, k, answer) = fields(raw);
        let said = match (k, answer) {
            (0, 0) => Some(Answer::No),
            (0, 1) => Some(Answer::Yes),
            (1..=6 | 13 | 14, REFUSED) => Some(Answer::Refused(k)),
            _ => None,
        };
        said.filter(|said| said.raw() == raw).ok_or(Stray { question: "a bare question", number: raw })
    }

    pub fn raw(self) -> u64 {
        match self {
            Answer::No => number(0, 0, 0),
            Answer::Yes => number(0, 0, 1),
            Answer::Refused(k) => number(0, k, REFUSED),
        }
    }
}

impl Steps {
    /// What the number says, which must be exactly that answer's.
    pub fn from_raw(raw: u64) -> Result<Steps, Stray> {
        let (m, k, answer) = fields(raw);
        let said = match (k, answer) {
            (0, 0) => Some(Steps::None),
            (0, 1) => Some(Steps::Shown(m)),
            (1..=6 | 11 | 13 | 14, REFUSED) => Some(Steps::Refused(k)),
            (12, REFUSED) => Some(Steps::NoRoom(m)),
            _ => None,
        };
        said.filter(|said| said.raw() == raw).ok_or(Stray { question: "least steps", number: raw })
    }

    pub fn raw(self) -> u64 {
        match self {
            Steps::None => number(0, 0, 0),
            Steps::Shown(m) => number(m, 0, 1),
            Steps::Refused(k) => number(0, k, REFUSED),
            Steps::NoRoom(m) => number(m, 12, REFUSED),
        }
    }

    /// The steps of a shortest path; 0 where the answer tells of none.
    pub fn count(self) -> u32 {
        match self {
            Steps::Shown(m) | Steps::NoRoom(m) => m,
            Steps::None | Steps::Refused(_) => 0,
        }
    }

    /// The answer in words, without its steps.
    pub fn name(self) -> String {
        match self {
            Steps::None => "none".to_string(),
            Steps::Shown(_) => "shown".to_string(),
            Steps::Refused(k) => format!("refused {k}"),
            Steps::NoRoom(_) => "refused 12".to_string(),
        }
    }
}

impl Writing {
    /// What the number says, which must be exactly that answer's.
    pub fn from_raw(raw: u64) -> Result<Writing, Stray> {
        let (m, k, answer) = fields(raw);
        let said = match (k, answer) {
            (0, 0) if is_policy_length(m as usize) => Some(Writing::Written(m)),
            (1..=6 | 14..=16, REFUSED) => Some(Writing::Refused(k)),
            _ => None,
        };
        said.filter(|said| said.raw() == raw).ok_or(Stray { question: "a call that writes", number: raw })
    }

    pub fn raw(self) -> u64 {
        match self {
            Writing::Written(m) => number(m, 0, 0),
            Writing::Refused(k) => number(0, k, REFUSED),
        }
    }

    /// The answer in words, without its length.
    pub fn name(self) -> String {
        match self {
            Writing::Written(_) => "written".to_string(),
            Writing::Refused(k) => format!("refused {k}"),
        }
    }
}

/// As the first line that the goal program prints.
impl fmt::Display for Outcome {
    fn fmt(&self, f: &mut fmt::Formatter) -> fmt::Result {
        match self {
            Outcome::Holds | Outcome::Refused(_) => write!(f, "{}", self.name()),
            Outcome::Order(m) | Outcome::Events(m) | Outcome::NoRoom(m) => write!(f, "{} {m}", self.name()),
        }
    }
}

impl fmt::Display for Answer {
    fn fmt(&self, f: &mut fmt::Formatter) -> fmt::Result {
        match self {
            Answer::No => write!(f, "no"),
            Answer::Yes => write!(f, "yes"),
            Answer::Refused(k) => write!(f, "refused {k}"),
        }
    }
}

/// As the first line of a path is printed, with `steps` in place of what a goal's path breaks.
impl fmt::Display for Steps {
    fn fmt(&self, f: &mut fmt::Formatter) -> fmt::Result {
        match self {
            Steps::None | Steps::Refused(_) => write!(f, "{}", self.name()),
            Steps::Shown(m) => write!(f, "steps {m}"),
            Steps::NoRoom(m) => write!(f, "{} {m}", self.name()),
        }
    }
}

impl fmt::Display for Writing {
    fn fmt(&self, f: &mut fmt::Formatter) -> fmt::Result {
        match self {
            Writing::Written(m) => write!(f, "written {m}"),
            Writing::Refused(_) => write!(f, "{}", self.name()),
        }
    }
}

impl fmt::Display for Stray {
    fn fmt(&self, f: &mut fmt::Formatter) -> fmt::Result {
        write!(f, "the number {} is no answer to {}", self.number, self.question)
    }
}
