//! `check --json` and `steps --json`: the steps of a path are explained by records that give them, and an all-clear by counts that a search
//! of other hands comes to as well.
use crate::cases::{cases, landed, numbers, Case};
use crate::json::Value;
use crate::places;
use crate::records::Explained;
use crate::tool::{words, Results, Tool, EVENTS, HOLDS, ORDER};
use flowgoal_calls::Bare;
use second_search::answer::{goal_question_landed, Answer};
use second_search::goal::{Goal, GAMMA_E, SIGMA_E};
use second_search::layers::flow_edges;
use second_search::paths::Path;
use second_search::policy::{Context, Event};
use std::collections::{BTreeMap, BTreeSet};

/// The steps of a path that are looked at.
const STEPS: usize = 5;

pub fn test(tool: &Tool, results: &mut Results) {
    for case in cases(500) {
        tool.write("policy.img", &case.policy.encode());
        tool.write("goal.img", &case.goal.encode());
        let name = format!("case {}", case.number);
        match tool.json(&["check", "policy.img", "goal.img", "--json"]) {
            Ok((ran, said)) => checked(&case, &name, ran.status, &said, results),
            Err(why) => results.claim(false, || format!("{name}: check --json: {why}")),
        }
        steps(tool, &case, &name, results);
    }
}

/// Each step of the walk that an object has.
fn walked(case: &Case, name: &str, said: &Value, results: &mut Results) {
    let contexts: Vec<Context> = said.field("contexts").list().iter().map(context).collect();
    for (j, step) in said.field("walk").list().iter().enumerate().take(STEPS) {
        let ways: Vec<&[Value]> = step.field("ways").list().iter().map(|way| way.field("clauses").list()).collect();
        let number = |field: &str| step.field(field).number().unwrap_or(0) as u32;
        let e = Event { c: number("class"), p: number("permission") };
        let name = format!("{name}, step {}", j + 1);
        results.claim(!ways.is_empty(), || format!("{name} has no way"));
        let (x, y) = (contexts[j], contexts[j + 1]);
        Explained { name, policy: &case.policy, question: Bare::Flows, x, y, e, ways }.hold(results);
    }
}

fn context(said: &Value) -> Context {
    let number = |field: &str| said.field(field).number().unwrap_or(0) as u32;
    Context { t: number("type"), r: number("role"), u: number("user") }
}

fn checked(case: &Case, name: &str, status: i32, said: &Value, results: &mut Results) {
    let (policy, goal) = (case.policy.encode(), case.goal.encode());
    let second = goal_question_landed(landed(), &policy, &goal, [1 << 22; 2], &mut vec![0; 1 << 16]);
    let wanted = second.first_line();
    let lines = said.field("lines").list();
    results.claim(lines.first().map(Value::text) == Some(&wanted), || format!("{name}: {lines:?}, not {wanted}"));
    let of_answer = match second {
        Answer::Holds => 0,
        Answer::Broken(..) => 1,
        Answer::Refused(..) => 2,
    };
    results.claim(status == of_answer, || format!("{name}: status {status} for {wanted}"));
    match second {
        Answer::Holds => {
            results.meet(HOLDS);
            grounded(case, name, said.field("ground"), results);
        }
        Answer::Broken(..) => {
            results.meet(if wanted.starts_with(ORDER) { ORDER } else { EVENTS });
            walked(case, name, said, results);
            broken(case, name, said, results);
        }
        Answer::Refused(..) => (),
    }
}

/// Where the path breaks the goal, and why, by what paper 01 says of the places where legs begin.
fn broken(case: &Case, name: &str, said: &Value, results: &mut Results) {
    let goal = &case.goal;
    let lines: Vec<&str> = said.field("lines").list().iter().skip(1).map(Value::text).collect();
    let path = Path::from_entries(&Path::parse_lines(&lines).unwrap_or_default());
    let open: Vec<Vec<usize>> = (0..path.xs.len()).map(|at| places::open(goal, &path, at)).collect();
    let listed: Vec<Vec<usize>> =
        said.field("open_legs").list().iter().map(|legs| legs.list().iter().filter_map(Value::number).collect()).collect();
    results.claim(listed == open, || format!("{name}: the open legs are {listed:?}, and should be {open:?}"));
    let breaks = said.field("breaks");
    let (what, at, words) = (breaks.field("what").text(), breaks.field("at").number(), breaks.field("words").text());
    let (place, wanted) = match what {
        "order" => places::out_of_order(goal, &path),
        _ => places::off_the_legs(goal, &path, &open),
    };
    results.claim(at == Some(place), || format!("{name}: the path breaks {what} at {at:?}, and should at {place}"));
    results.claim(said.field("answer").text() == what, || format!("{name}: {what} is broken, and the answer is another"));
    results.claim(!wanted.is_empty() && wanted.iter().all(|one| words.contains(one)), || {
        format!("{name}: {words:?} lacks some of {wanted:?}")
    });
}

/// Contexts that are come to from some by steps.
fn closure(starts: BTreeSet<Context>, step: impl Fn(Context) -> Vec<Context>) -> BTreeSet<Context> {
    let (mut met, mut left) = (starts.clone(), Vec::from_iter(starts));
    while let Some(x) = left.pop() {
        left.extend(step(x).into_iter().filter(|&y| met.insert(y)));
    }
    met
}

/// The counts of an all-clear, over all flow as the second search finds it.
fn grounded(case: &Case, name: &str, said: &Value, results: &mut Results) {
    let Case { policy, goal, .. } = case;
    let edges = flow_edges(policy);
    let goes = |x: Context, e: Event| !goal.sigma(goal.n, x) && !goal.sigma_e(x) && !goal.gamma_e(e);
    let mut back: BTreeMap<Context, Vec<Context>> = BTreeMap::new();
    for (&x, steps) in &edges {
        for &(_, y) in steps.iter().filter(|&&(e, _)| goes(x, e)) {
            back.entry(y).or_default().push(x);
        }
    }
    let valid: Vec<Context> = policy.contexts().into_iter().filter(|&x| policy.valid(x)).collect();
    let among = |i: usize| valid.iter().copied().filter(|&x| goal.sigma(i, x)).collect::<BTreeSet<_>>();
    let forward = |x: Context| edges[&x].iter().filter(|&&(e, _)| goes(x, e)).map(|&(_, y)| y).collect();
    let reached = closure(among(0), forward);
    let leading = closure(among(goal.n), |y| back.get(&y).cloned().unwrap_or_default());
    let counts = [
        ("contexts", policy.contexts().len()),
        ("valid", valid.len()),
        ("starts", among(0).len()),
        ("ends", among(goal.n).len()),
        ("reached", reached.len()),
        ("leading", leading.len()),
        ("both", reached.intersection(&leading).count()),
    ];
    for (field, count) in counts {
        let number = said.field(field).number();
        results.claim(number == Some(count), || format!("{name}: {field} is {number:?}, not {count}"));
    }
    warned(case, name, said, &edges, results);
}

/// The warning of an all-clear: the first that applies.
fn warned(case: &Case, name: &str, said: &Value, edges: &BTreeMap<Context, Vec<(Event, Context)>>, results: &mut Results) {
    let Case { policy, goal, .. } = case;
    let valid_in = |i: usize| policy.contexts().into_iter().filter(move |&x| policy.valid(x) && goal.sigma(i, x));
    let everywhere = |x: Context| if goal.sigma(goal.n, x) { vec![] } else { edges[&x].iter().map(|&(_, y)| y).collect() };
    let some_path = closure(valid_in(0).collect(), everywhere).iter().any(|&x| goal.sigma(goal.n, x));
    let items = goal.items.iter().filter(|(chain, _)| ![SIGMA_E, GAMMA_E].contains(chain)).copied().collect();
    let bare = Goal { items, ..goal.clone() };
    let second = goal_question_landed(landed(), &policy.encode(), &bare.encode(), [1 << 22; 2], &mut vec![0; 1 << 16]);
    let no_path_left = said.field("both").number() == Some(0);
    let wanted = match () {
        _ if valid_in(0).next().is_none() => "σ0 has no context",
        _ if valid_in(goal.n).next().is_none() => "no path ends",
        _ if !some_path => "no path leads",
        _ if second != Answer::Holds => "the exceptions alone keep it",
        _ if no_path_left => "every path",
        _ => "",
    };
    let warnings = said.field("warnings").list();
    let right = if wanted.is_empty() { warnings.is_empty() } else { warnings.iter().any(|one| one.text().contains(wanted)) };
    results.claim(right, || format!("{name}: the warnings are {warnings:?}, and should have {wanted:?}"));
}

/// Least steps between two contexts that flow from one another, or not.
fn steps(tool: &Tool, case: &Case, name: &str, results: &mut Results) {
    let mut rng = second_search::gen::Rng(case.number + 5);
    let contexts = case.policy.contexts();
    let (x, y) = (rng.pick(&contexts), rng.pick(&contexts));
    let second = second_search::steps::least_steps(landed(), &case.policy.encode(), x, y, [1 << 22; 2], &mut vec![0; 1 << 16]);
    match tool.json(&["steps", "policy.img", &words(numbers(x)), &words(numbers(y)), "--json"]) {
        Ok((_, said)) => {
            let first = said.field("lines").list().first().map_or("", Value::text).to_string();
            results.claim(first == second.first_line(), || format!("{name}: steps: {first}, not {}", second.first_line()));
            walked(case, &format!("{name}, steps"), &said, results);
        }
        Err(why) => results.claim(false, || format!("{name}: steps --json: {why}")),
    }
}
