//! A question that the library refuses: the number, what it means, and of what it is said.
use crate::check::Form;
use crate::ending::{End, Run};
use crate::json::{number, text, Json};
use crate::names::{Names, Sort};
use crate::output;
use crate::refusals::meaning;
use second_search::policy::{Context, Event, Policy};

/// What is refused.
pub enum Subject {
    /// An image: what it is, and its file.
    Image(&'static str, String),
    /// The numbers of a question, in words.
    Numbers(String),
}

pub struct Refusal {
    pub number: u32,
    pub of: String,
    pub meaning: String,
}

impl Refusal {
    pub fn of(call: &str, number: u32, subject: Subject) -> Refusal {
        match subject {
            Subject::Image(what, file) => Refusal { number, of: format!("{what}, {file}"), meaning: meaning(call, number) },
            Subject::Numbers(words) => Refusal { number, of: words, meaning: meaning(call, number) },
        }
    }

    /// What a question says of a number that the policy does not have.
    pub fn out_of_range(call: &str, policy: &Policy, names: &Names, contexts: &[Context], event: Option<Event>) -> Refusal {
        let mut numbers = Vec::new();
        for x in contexts {
            numbers.extend([(Sort::Type, x.t, policy.types), (Sort::Role, x.r, policy.roles), (Sort::User, x.u, policy.users)]);
        }
        if let Some(e) = event {
            numbers.extend([(Sort::Class, e.c, policy.classes), (Sort::PermissionOf(e.c), e.p, 31)]);
        }
        let outside = numbers.iter().find(|&&(sort, n, most)| n < sort.range().0 || n > most);
        let words = outside.map_or("the question".to_string(), |&(sort, n, most)| {
            format!("{}, where the policy's go from {} to {most}", names.long(sort, n), sort.range().0)
        });
        Refusal::of(call, 13, Subject::Numbers(words))
    }

    pub fn line(&self) -> String {
        format!("refused {}", self.number)
    }

    /// Prints it, and ends the run.
    pub fn print(&self, form: Form) -> Run<End> {
        let line = self.line();
        let said = match form {
            Form::Plain => format!("{line}\n"),
            Form::Explained => format!("{line}\n\n{}: {}\n", self.of, self.meaning),
            Form::Json => {
                let fields =
                    [("answer", text("refused")), ("number", number(self.number)), ("lines", Json::List(vec![text(line)]))];
                let more = [("of", text(&self.of)), ("meaning", text(&self.meaning))];
                format!("{}\n", Json::Object(fields.into_iter().chain(more).collect()))
            }
        };
        output::print(&said)?;
        Ok(End::Refused)
    }
}
