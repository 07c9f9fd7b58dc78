//! `check POLICY GOAL`: the goal question, and what its answer rests on.
use crate::args::{Args, Usage};
use crate::asked::{Refusal, Subject};
use crate::ending::{unasked, End, Run};
use crate::ground::{self, Ground};
use crate::input::{image, What};
use crate::names::Names;
use crate::policy::Reading;
use crate::walk::{self, Break, Step};
use crate::{dot, library, output, report};
use flowgoal_calls::Outcome;
use second_search::goal::Goal;
use second_search::paths::{Path, Sort};

pub const USAGE: Usage = Usage {
    name: "check",
    words: "POLICY GOAL [--plain | --json] [--dot FILE [--overwrite]] [--names FILE]",
    flags: &["--plain", "--json", "--overwrite"],
    values: &["--dot", "--names"],
    help: "Does the goal hold of the policy? Each is an image, of any size, or its text.

First the lines of the goal program: holds, order m or events m with the path, or refused k. Then, for a path, each step with
the allow records that give it and where the path breaks the goal; for holds, what that rests on, and a warning where it says
nothing.

  --plain       the lines of the goal program alone
  --json        one object with all of it
  --dot FILE    a picture for Graphviz: the goal's legs, and the path with the sets that its contexts are in
  --overwrite   FILE may be there already
  --names FILE  names of types, roles, users, classes and permissions (names.txt beside the policy, where it is there)

Exit status: 0 the goal holds, 1 a path breaks it, 2 refused, 3 it could not be asked.",
};

/// The goal question, answered.
pub struct Checked<'a> {
    pub reading: &'a Reading<'a>,
    pub goal: &'a Goal,
    pub outcome: Outcome,
    /// what the goal program prints
    pub lines: String,
    pub ground: Found,
}

/// What an answer is explained by.
pub enum Found {
    Nothing(Ground),
    Path { path: Path, steps: Vec<Step>, broken: Break, sort: Sort },
}

/// The forms of an answer.
#[derive(Clone, Copy, PartialEq, Eq)]
pub enum Form {
    Explained,
    Plain,
    Json,
}

impl Form {
    pub fn of(args: &Args) -> Run<Form> {
        match (args.flag("--plain"), args.flag("--json")) {
            (false, false) => Ok(Form::Explained),
            (true, false) => Ok(Form::Plain),
            (false, true) => Ok(Form::Json),
            (true, true) => Err(unasked("--plain and --json cannot both be had")),
        }
    }
}

pub fn run(mut args: Args) -> Run<End> {
    let form = Form::of(&args)?;
    let (policy_file, goal_file) = (args.file("POLICY")?, args.file("GOAL")?);
    args.end()?;
    let names = Names::choose(args.value("--names"), &policy_file)?;
    let policy_image = image(&policy_file, What::Policy, &names)?;
    let goal_image = image(&goal_file, What::Goal, &names)?;
    if let Some(k) = library::goal_refusal(&policy_image, &goal_image)? {
        let subject = refused(&policy_image, &goal_image, policy_file, goal_file)?;
        return Refusal::of("flowgoal_check", k, subject).print(form);
    }
    let (outcome, path) = library::check(&policy_image, &goal_image)?;
    let lines = report::lines(outcome, path.as_ref());
    let picture = args.value("--dot");
    if form == Form::Plain && picture.is_none() {
        // the library's answer and nothing of the tool's own
        output::print(&lines)?;
    } else {
        let policy = library::policy(&policy_image)?;
        let goal = library::goal(&goal_image, &policy)?;
        let reading = Reading::new(&policy, &names);
        let ground = match path {
            None => Found::Nothing(ground::of(&reading, &policy_image, &goal)?),
            Some(path) => found_path(&reading, &policy_image, &goal, outcome, path)?,
        };
        let checked = Checked { reading: &reading, goal: &goal, outcome, lines, ground };
        if let Some(file) = picture {
            output::write(file, dot::picture(&checked).as_bytes(), args.flag("--overwrite"))?;
        }
        output::print(&report::checked(&checked, form))?;
    }
    Ok(if outcome == Outcome::Holds { End::Yes } else { End::No })
}

/// Which of the two images is refused; that one of them stands in the other's place is said too.
fn refused(policy: &[u8], goal: &[u8], policy_file: String, goal_file: String) -> Run<Subject> {
    Ok(match library::policy_refusal(policy)? {
        Some(_) if library::is_goal(policy)? => Subject::Image("the policy, which is the image of a goal", policy_file),
        Some(_) => Subject::Image("the policy", policy_file),
        None if library::policy_refusal(goal)?.is_none() => Subject::Image("the goal, which is the image of a policy", goal_file),
        None => Subject::Image("the goal", goal_file),
    })
}

/// The path of an answer, walked; it must be one of the goal, and break what the answer says.
fn found_path(reading: &Reading, image: &[u8], goal: &Goal, outcome: Outcome, path: Path) -> Run<Found> {
    let sort = if matches!(outcome, Outcome::Order(_)) { Sort::Order } else { Sort::Events };
    let steps = walk::steps(reading, image, &path)?;
    walk::ends(reading, goal, &path)?;
    let broken = walk::broken(goal, &path, sort)?;
    Ok(Found::Path { path, steps, broken, sort })
}
