//! `steps POLICY FROM TO`: the least number of steps from one context to another, and such a path walked.
use crate::args::{Args, Usage};
use crate::asked::{Refusal, Subject};
use crate::check::Form;
use crate::ending::{bug, End, Run};
use crate::input::{image, What};
use crate::json::{list, number, text, Json};
use crate::names::Names;
use crate::policy::Reading;
use crate::reach::{Bounds, Direction, Graph};
use crate::walk::Step;
use crate::{library, output, report, walk};
use flowgoal_calls::Steps;
use second_search::paths::Path;
use second_search::policy::Context;

pub const USAGE: Usage = Usage {
    name: "steps",
    words: "POLICY FROM TO [--plain | --json] [--names FILE]",
    flags: &["--plain", "--json"],
    values: &["--names"],
    help: "By how many steps of flow does the context FROM reach the context TO at the least?

A context is USER:ROLE:TYPE, each by its name or its number, or three numbers TYPE ROLE USER. Prints steps m and a shortest path,
and then each step with the records that give it; or none, and why; or refused k.

  --plain       the first line and the path alone
  --json        one object with all of it
  --names FILE  names of types, roles, users, classes and permissions (names.txt beside the policy, where it is there)

Exit status: 0 a path is shown, 1 there is none, 2 refused, 3 it could not be asked.",
};

pub fn run(mut args: Args) -> Run<End> {
    let form = Form::of(&args)?;
    let file = args.file("POLICY")?;
    let names = Names::choose(args.value("--names"), &file)?;
    args.split();
    let (from, to) = (args.context("FROM", &names)?, args.context("TO", &names)?);
    args.end()?;
    let image = image(&file, What::Policy, &names)?;
    if let Some(k) = library::policy_refusal(&image)? {
        return Refusal::of("flowgoal_least_steps", k, Subject::Image("the policy", file)).print(form);
    }
    let policy = library::policy(&image)?;
    let reading = Reading::new(&policy, &names);
    match library::least_steps(&image, from, to)? {
        (Steps::Refused(_), _) => Refusal::out_of_range("flowgoal_least_steps", &policy, &names, &[from, to], None).print(form),
        (steps, Some(path)) => shown(&reading, &image, steps, [from, to], &path, form),
        (_, None) => none(&reading, from, to, form),
    }
}

/// The path, which must lead from the one context to the other.
fn shown(reading: &Reading, image: &[u8], steps: Steps, ends: [Context; 2], path: &Path, form: Form) -> Run<End> {
    if [path.xs[0], path.xs[path.steps()]] != ends {
        return Err(bug("the library's path does not lead from the one context to the other"));
    }
    let walked = || walk::steps(reading, image, path);
    let lines = format!("{steps}\n{}", path.lines());
    let blocks = |(j, step): (usize, &Step)| report::step(reading, None, j + 1, step);
    output::print(&match form {
        Form::Plain => lines,
        Form::Explained if path.steps() == 0 => format!("{lines}\nthe two contexts are one\n"),
        Form::Explained => format!("{lines}\n{}", walked()?.iter().enumerate().map(blocks).collect::<String>()),
        Form::Json => {
            let fields = vec![
                ("answer", text("steps")),
                ("steps", number(path.steps())),
                ("lines", list(lines.lines(), text)),
                ("contexts", list(&path.xs, |&x| report::context_json(reading, None, x))),
                ("walk", list(&walked()?, |step| report::step_json(reading, None, step))),
            ];
            format!("{}\n", Json::Object(fields))
        }
    })?;
    Ok(End::Yes)
}

/// Why there is no path: which of the two contexts fails ρ or μ, or how many are reached from the one and lead to the other.
struct Lack {
    failing: Vec<String>,
    reached: usize,
    leading: usize,
}

/// That there is none the search of contexts must find too.
fn lack(reading: &Reading, from: Context, to: Context) -> Run<Lack> {
    let graph = Graph::new(reading);
    let bounds = Bounds { goal: None, exceptions: false };
    let reached = graph.search(Direction::Forward, &|x| x == from, bounds);
    let leading = graph.search(Direction::Backward, &|x| x == to, bounds);
    if reached.contains(&to) || leading.contains(&from) {
        return Err(bug("the library says that there is no path, and the search of contexts finds one"));
    }
    let fails = |x: Context| reading.held(x).into_iter().find(|clause| !clause.holds).map(|clause| (x, clause.words));
    let said = |(x, why): (Context, String)| format!("{}: {why}", reading.names.context(x));
    let failing = [from, to].into_iter().filter_map(fails).map(said).collect();
    Ok(Lack { failing, reached: reached.len(), leading: leading.len() })
}

fn none(reading: &Reading, from: Context, to: Context, form: Form) -> Run<End> {
    output::print(&match form {
        Form::Plain => "none\n".to_string(),
        Form::Explained => format!("none\n\n{}\n", lack(reading, from, to)?.words(reading, from, to)),
        Form::Json => {
            let Lack { failing, reached, leading } = lack(reading, from, to)?;
            let fields = vec![
                ("answer", text("none")),
                ("steps", Json::Null),
                ("lines", list(["none"], text)),
                ("reached", number(reached)),
                ("leading", number(leading)),
                ("failing", list(&failing, text)),
            ];
            format!("{}\n", Json::Object(fields))
        }
    })?;
    Ok(End::No)
}

impl Lack {
    fn words(&self, reading: &Reading, from: Context, to: Context) -> String {
        if !self.failing.is_empty() {
            return self.failing.join("\n");
        }
        let [from, to] = [from, to].map(|x| reading.names.context(x));
        let counts = format!("{} reached from {from}, {} leading to {to}", self.reached, self.leading);
        format!("no path leads there; contexts, these two counted: {counts}")
    }
}
