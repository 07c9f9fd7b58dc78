//! What is printed of an answer: the goal program's lines, the walk of a path and the ground of an all-clear, as text and as JSON.
use crate::check::{Checked, Form, Found};
use crate::ground::Ground;
use crate::json::{list, number, text, Json};
use crate::names::Sort;
use crate::policy::{Clause, Reading, Way};
use crate::sets::{self, listed};
use crate::walk::{self, Break, Step};
use flowgoal_calls::Outcome;
use second_search::goal::Goal;
use second_search::paths::{self, Path};
use second_search::policy::{Context, Event};

/// A line of a block: a word in its own column, and what it says.
pub fn row(word: &str, said: &str) -> String {
    format!("  {word:<7} {said}\n")
}

/// Records with their lines, one below the other.
fn records(reading: &Reading, word: &str, numbers: &[usize]) -> String {
    let line = |(i, &k): (usize, &usize)| row(if i == 0 { word } else { "" }, &format!("by record {k}: {}", reading.line(k)));
    numbers.iter().enumerate().map(line).collect()
}

/// A context or an event, with the sets of the goal that it is in.
fn with_sets(said: String, sets: &[String]) -> String {
    match sets.is_empty() {
        true => said,
        false => format!("{said}, in {}", listed(sets)),
    }
}

fn context(reading: &Reading, goal: Option<&Goal>, x: Context) -> String {
    with_sets(reading.names.context(x), &goal.map_or(vec![], |goal| sets::of_context(goal, x)))
}

fn event(reading: &Reading, goal: Option<&Goal>, e: Event) -> String {
    with_sets(reading.names.event(e), &goal.map_or(vec![], |goal| sets::of_event(goal, e)))
}

/// The records of a way: the allow records, and what else a step hangs on that types do not say.
fn way(reading: &Reading, way: &Way) -> String {
    let word = if way.name == "write" { "writes" } else { "reads" };
    let role = |r: u32| reading.names.short(Sort::Role, r);
    let clause = |clause: &Clause| match (clause.name, &clause.records[..]) {
        ("allow", numbers) => records(reading, word, numbers),
        ("transition", []) => row("role", &format!("{} stays what it is, which needs no record", role(way.acting.r))),
        ("transition", numbers) => records(reading, "role", numbers),
        ("constraint", numbers) => row("under", &format!("record {}: {}", listed(numbers), clause.words)),
        _ => String::new(),
    };
    way.clauses.iter().map(clause).collect()
}

/// A step, from one context to the next.
pub fn step(reading: &Reading, goal: Option<&Goal>, at: usize, step: &Step) -> String {
    let mut said = format!("step {at}\n");
    said += &row("from", &context(reading, goal, step.from));
    said += &row("to", &context(reading, goal, step.to));
    said += &row("event", &event(reading, goal, step.event));
    said + &step.ways.iter().map(|one| way(reading, one)).collect::<String>()
}

/// The steps of a path that breaks a goal, and where it does.
fn walked(checked: &Checked, path: &Path, steps: &[Step], broken: &Break, sort: paths::Sort) -> String {
    let (reading, goal) = (checked.reading, checked.goal);
    let breaks = row("breaks", &format!("{}: {}", walk::word(sort), broken.words(goal, path, reading.names)));
    let open = walk::open_legs(goal, path);
    let mut said = String::new();
    if broken.at() == 0 {
        said += &format!("start\n{}{breaks}", row("at", &context(reading, Some(goal), path.xs[0])));
    }
    for (j, one) in steps.iter().enumerate() {
        said += &step(reading, Some(goal), j + 1, one);
        // after the break no leg is open
        if sort == paths::Sort::Events && j < broken.at() {
            let [before, after] = [j, j + 1].map(|at| walk::open_words(&open[at], goal.n));
            said += &row("legs", &format!("open before it: {before}; after it: {after}"));
        }
        if broken.at() == j + 1 {
            said += &breaks;
        }
    }
    said
}

/// So many of something, in words.
fn count(number: usize, one: &str, many: &str) -> String {
    format!("{number} {}", if number == 1 { one } else { many })
}

fn grounded(ground: &Ground, last: usize) -> String {
    let Ground { contexts, valid, starts, ends, reached, leading, both, warnings } = ground;
    let mut said = format!("{} of {} ρ and μ; ", valid, count(*contexts, "context meets", "contexts meet"));
    said += &format!("of these {} in σ0 and {ends} in σ{last}\n", count(*starts, "is", "are"));
    let reached = count(*reached, "is reached", "are reached");
    let leading = count(*leading, "leads", "lead");
    said += &format!("{reached} from σ0 and {leading} to σ{last}, with no exception met before; ");
    said += &format!("{} both\n", count(*both, "does", "do"));
    said + &warnings.iter().map(|warning| format!("warning: {warning}\n")).collect::<String>()
}

/// The lines of the goal program.
pub fn lines(outcome: Outcome, path: Option<&Path>) -> String {
    format!("{outcome}\n{}", path.map_or(String::new(), Path::lines))
}

pub fn checked(checked: &Checked, form: Form) -> String {
    let lines = &checked.lines;
    match (form, &checked.ground) {
        (Form::Plain, _) => lines.clone(),
        (Form::Json, _) => format!("{}\n", as_json(checked)),
        (_, Found::Nothing(ground)) => format!("{lines}\n{}", grounded(ground, checked.goal.n)),
        (_, Found::Path { path, steps, broken, sort }) => format!("{lines}\n{}", walked(checked, path, steps, broken, *sort)),
    }
}

fn as_json(checked: &Checked) -> Json {
    let mut fields = vec![
        ("answer", text(checked.outcome.name())),
        ("steps", Json::Null),
        ("lines", list(checked.lines.lines(), text)),
        ("legs", list(0..checked.goal.n, |leg| text(if checked.goal.repeated(leg) { "repeated" } else { "one step" }))),
    ];
    match &checked.ground {
        Found::Nothing(ground) => fields.push(("ground", ground_json(ground))),
        Found::Path { path, steps, broken, sort } => {
            fields[1].1 = number(path.steps());
            fields.push(("contexts", list(&path.xs, |&x| context_json(checked.reading, Some(checked.goal), x))));
            fields.push(("walk", list(steps, |step| step_json(checked.reading, Some(checked.goal), step))));
            fields.push(("open_legs", list(walk::open_legs(checked.goal, path), |legs| list(legs, number))));
            let words = broken.words(checked.goal, path, checked.reading.names);
            let breaks = vec![("what", text(walk::word(*sort))), ("at", number(broken.at())), ("words", text(words))];
            fields.push(("breaks", Json::Object(breaks)));
        }
    }
    Json::Object(fields)
}

fn ground_json(ground: &Ground) -> Json {
    Json::Object(vec![
        ("contexts", number(ground.contexts)),
        ("valid", number(ground.valid)),
        ("starts", number(ground.starts)),
        ("ends", number(ground.ends)),
        ("reached", number(ground.reached)),
        ("leading", number(ground.leading)),
        ("both", number(ground.both)),
        ("warnings", list(&ground.warnings, text)),
    ])
}

pub fn context_json(reading: &Reading, goal: Option<&Goal>, x: Context) -> Json {
    Json::Object(vec![
        ("type", number(x.t)),
        ("role", number(x.r)),
        ("user", number(x.u)),
        ("text", text(reading.names.context(x))),
        ("sets", list(goal.map_or(vec![], |goal| sets::of_context(goal, x)), text)),
    ])
}

pub fn step_json(reading: &Reading, goal: Option<&Goal>, step: &Step) -> Json {
    Json::Object(vec![
        ("class", number(step.event.c)),
        ("permission", number(step.event.p)),
        ("text", text(reading.names.event(step.event))),
        ("sets", list(goal.map_or(vec![], |goal| sets::of_event(goal, step.event)), text)),
        ("ways", list(&step.ways, |way| way_json(reading, way))),
    ])
}

/// A clause with its records.
pub fn clause_json(name: &str, holds: bool, records: &[usize], words: &str) -> Json {
    Json::Object(vec![
        ("clause", text(name)),
        ("holds", Json::Bool(holds)),
        ("records", list(records, |&k| number(k))),
        ("words", text(words)),
    ])
}

pub fn clauses_json(clauses: &[Clause]) -> Vec<Json> {
    clauses.iter().map(|clause| clause_json(clause.name, clause.holds, &clause.records, &clause.words)).collect()
}

/// A way with the records of each clause, the flow records first.
pub fn way_json(reading: &Reading, way: &Way) -> Json {
    let like = !way.records.is_empty();
    let words = format!("the permission is {}{}-like", if like { "" } else { "not " }, way.name);
    let mut clauses = vec![clause_json("flow", like, &way.records, &words)];
    clauses.extend(clauses_json(&way.clauses));
    Json::Object(vec![
        ("way", text(way.name)),
        ("acting", text(reading.names.context(way.acting))),
        ("on", text(reading.names.context(way.on))),
        ("clauses", Json::List(clauses)),
    ])
}
