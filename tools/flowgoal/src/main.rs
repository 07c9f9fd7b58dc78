//! `./flowgoal`: the command for people over the proved library. docs/TOOLS.md tells what it does; ./flowgoal --help lists it.
mod args;
mod asked;
mod bare;
mod check;
mod compare;
mod convert;
mod difference;
mod dot;
mod ending;
mod expression;
mod facts;
mod ground;
mod input;
mod json;
mod labels;
mod library;
mod names;
mod output;
mod policy;
mod reach;
mod refusals;
mod report;
mod sets;
mod steps;
mod text;
mod walk;
mod writing;

use args::{Args, Usage};
use ending::{unasked, End, Run};
use std::ffi::OsString;

/// A subcommand: its words, what it does in a line, and what runs it.
struct Subcommand {
    usage: &'static Usage,
    does: &'static str,
    run: fn(Args) -> Run<End>,
}

const SUBCOMMANDS: &[Subcommand] = &[
    Subcommand { usage: &check::USAGE, does: "does the goal hold of the policy, and why or why not", run: check::run },
    Subcommand { usage: &bare::AUTHORIZED, does: "may one context act on another so", run: bare::authorized },
    Subcommand { usage: &bare::FLOWS, does: "does information flow from one context to another so", run: bare::flows },
    Subcommand { usage: &steps::USAGE, does: "how near is one context to another", run: steps::run },
    Subcommand { usage: &convert::TEXT, does: "the text of an image", run: convert::to_text },
    Subcommand { usage: &convert::IMAGE, does: "the image of a text", run: convert::to_image },
    Subcommand { usage: &writing::JOIN, does: "one policy from the maker's and a board's", run: writing::join },
    Subcommand { usage: &writing::CANONICAL, does: "the canonical image of a policy", run: writing::canonical },
    Subcommand { usage: &difference::USAGE, does: "what one policy says and another does not", run: difference::run },
    Subcommand { usage: &compare::USAGE, does: "do the proved library and the second search agree", run: compare::run },
];

const MORE: &str =
    "Where an image is asked for, its text will do. ./flowgoal SUBCOMMAND --help says more, docs/TOOLS.md all of it.
Exit status: 0 holds, yes, the same; 1 broken, no, different; 2 refused; 3 it could not be asked; 4 a bug in the tool.";

fn help() -> String {
    let line = |one: &Subcommand| format!("  {:<11} {}\n", one.usage.name, one.does);
    let lines: String = SUBCOMMANDS.iter().map(line).collect();
    format!(
        "./flowgoal SUBCOMMAND WORD..: a checker of flow goals over SELinux policies, its answers proved\n\n{lines}\n{MORE}\n"
    )
}

fn run(words: &[String]) -> Run<End> {
    let is_help = |word: &String| ["--help", "-h"].contains(&word.as_str());
    let Some((name, rest)) = words.split_first() else {
        return Err(unasked("no subcommand is given: ./flowgoal --help lists them"));
    };
    // `help check` is `check --help`
    let (name, helps) = match rest.first() {
        Some(of) if name == "help" => (of, true),
        _ => (name, rest.iter().any(is_help)),
    };
    if is_help(name) || name == "help" {
        output::print(&help())?;
        return Ok(End::Yes);
    }
    let Some(Subcommand { usage, run, .. }) = SUBCOMMANDS.iter().find(|one| one.usage.name == name) else {
        return Err(unasked(format!("there is no subcommand {name:?}: ./flowgoal --help lists them")));
    };
    if helps {
        output::print(&format!("./flowgoal {} {}\n\n{}\n", usage.name, usage.words, usage.help))?;
        return Ok(End::Yes);
    }
    run(Args::new(usage, rest)?)
}

/// The words of the command line.
fn words() -> Run<Vec<String>> {
    let text = |word: OsString| word.into_string().map_err(|word| unasked(format!("{word:?} is no text (UTF-8)")));
    std::env::args_os().skip(1).map(text).collect()
}

fn main() {
    let end = words().and_then(|words| run(&words)).unwrap_or_else(|fault| {
        output::note(&fault.why);
        fault.end
    });
    std::process::exit(end as i32)
}
