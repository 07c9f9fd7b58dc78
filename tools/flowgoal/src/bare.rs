//! `authorized` and `flows`: the bare questions, each answer with the records that give it or the clauses that fail.
use crate::args::{Args, Usage};
use crate::asked::{Refusal, Subject};
use crate::check::Form;
use crate::ending::{bug, End, Run};
use crate::input::{image, What};
use crate::json::{list, text, Json};
use crate::names::Names;
use crate::policy::{Clause, Reading, Way};
use crate::report::{clauses_json, way_json};
use crate::sets::listed;
use crate::{library, output};
use flowgoal_calls::{Answer, Bare};
use second_search::policy::{Context, Event};

pub const AUTHORIZED: Usage = Usage {
    name: "authorized",
    words: "POLICY X Y CLASS PERMISSION [--plain | --json] [--names FILE]",
    flags: &["--plain", "--json"],
    values: &["--names"],
    help: "Is the permission of the class authorized from the context X, which acts, on the context Y?

A context is USER:ROLE:TYPE, each by its name or its number, or three numbers TYPE ROLE USER; class and permission are names or
numbers. Prints yes with the records that give it, no with the clauses that fail, or refused k.

  --plain       the answer alone
  --json        one object with every clause
  --names FILE  names of types, roles, users, classes and permissions (names.txt beside the policy, where it is there)

Exit status: 0 yes, 1 no, 2 refused, 3 it could not be asked.",
};

pub const FLOWS: Usage = Usage {
    name: "flows",
    help:
        "Does information flow from the context X to the context Y by the permission of the class? It does where the permission is
write-like and authorized from X on Y, or read-like and authorized from Y on X.

A context is USER:ROLE:TYPE, each by its name or its number, or three numbers TYPE ROLE USER; class and permission are names or
numbers. Prints yes with the records that give it, no with what fails, or refused k.

  --plain       the answer alone
  --json        one object with every clause
  --names FILE  names of types, roles, users, classes and permissions (names.txt beside the policy, where it is there)

Exit status: 0 yes, 1 no, 2 refused, 3 it could not be asked.",
    ..AUTHORIZED
};

pub fn authorized(args: Args) -> Run<End> {
    ask(args, Bare::Authorized)
}

pub fn flows(args: Args) -> Run<End> {
    ask(args, Bare::Flows)
}

fn ask(mut args: Args, question: Bare) -> Run<End> {
    let form = Form::of(&args)?;
    let file = args.file("POLICY")?;
    let names = Names::choose(args.value("--names"), &file)?;
    args.split();
    let (x, y) = (args.context("X", &names)?, args.context("Y", &names)?);
    let e = args.event(&names)?;
    args.end()?;
    let image = image(&file, What::Policy, &names)?;
    if let Some(k) = library::policy_refusal(&image)? {
        return Refusal::of("flowgoal_authorized", k, Subject::Image("the policy", file)).print(form);
    }
    let policy = library::policy(&image)?;
    let answer = library::bare(question, &image, x, y, e)?;
    if let Answer::Refused(_) = answer {
        return Refusal::out_of_range("flowgoal_authorized", &policy, &names, &[x, y], Some(e)).print(form);
    }
    let explained = || held(&Reading::new(&policy, &names), question, answer, x, y, e);
    output::print(&match form {
        Form::Plain => format!("{answer}\n"),
        Form::Explained => format!("{answer}\n\n{}", explained()?.why),
        Form::Json => format!("{}\n", Json::Object(vec![("answer", text(answer)), explained()?.json])),
    })?;
    Ok(if answer == Answer::Yes { End::Yes } else { End::No })
}

/// What the records say, which must be the library's answer.
fn held(reading: &Reading, question: Bare, answer: Answer, x: Context, y: Context, e: Event) -> Run<Said> {
    let said = match question {
        Bare::Authorized => authorization(reading, x, y, e),
        Bare::Flows => flow(reading, x, y, e),
    };
    match (answer == Answer::Yes) == said.yes {
        true => Ok(said),
        false => Err(bug(format!("the library says {answer}, and the records say {}", if said.yes { "yes" } else { "no" }))),
    }
}

/// What the records say to a question.
struct Said {
    yes: bool,
    why: String,
    json: (&'static str, Json),
}

/// Clauses a line each, with their records below. What is the same of both contexts is said once.
fn clauses<'a>(reading: &Reading, clauses: impl Iterator<Item = &'a Clause>, indent: &str) -> String {
    let mut blocks: Vec<String> = Vec::new();
    for clause in clauses {
        let record = |&k: &usize| format!("{indent}  record {k}: {}\n", reading.line(k));
        let block = format!("{indent}{}\n{}", clause.words, clause.records.iter().map(record).collect::<String>());
        if !blocks.contains(&block) {
            blocks.push(block);
        }
    }
    blocks.concat()
}

/// All clauses of what is authorized, and those that fail of what is not.
fn by_clauses(reading: &Reading, all: &[Clause], indent: &str) -> String {
    match all.iter().all(|clause| clause.holds) {
        true => clauses(reading, all.iter(), indent),
        false => clauses(reading, all.iter().filter(|clause| !clause.holds), indent),
    }
}

fn authorization(reading: &Reading, x: Context, y: Context, e: Event) -> Said {
    let all = reading.clauses(x, y, e);
    let json = ("clauses", Json::List(clauses_json(&all)));
    Said { yes: all.iter().all(|clause| clause.holds), why: by_clauses(reading, &all, ""), json }
}

/// A way that flows, or what is in its way.
fn one_way(reading: &Reading, way: &Way) -> String {
    let (acting, on) = (reading.names.context(way.acting), reading.names.context(way.on));
    let like = match &way.records[..] {
        [] => return format!("the permission is not {}-like: no flow record says so\n", way.name),
        records => format!("the permission is {}-like (record {})", way.name, listed(records)),
    };
    let authorized = if way.is_authorized() { "authorized" } else { "not authorized" };
    format!("{like} and {authorized} from {acting} on {on}:\n{}", by_clauses(reading, &way.clauses, "  "))
}

fn flow(reading: &Reading, x: Context, y: Context, e: Event) -> Said {
    let ways = reading.ways(x, y, e);
    let yes = ways.iter().any(Way::flows);
    let shown = ways.iter().filter(|way| way.flows() || !yes);
    let json = ("ways", list(&ways, |way| way_json(reading, way)));
    Said { yes, why: shown.map(|way| one_way(reading, way)).collect(), json }
}
