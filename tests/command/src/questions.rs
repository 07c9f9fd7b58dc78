//! `authorized --json` and `flows --json`: each clause is what the second search says of it, and what is yes is explained by its records.
use crate::cases::{cases, event, numbers, Case};
use crate::json::Value;
use crate::records::Explained;
use crate::tool::{words, Results, Tool, NO, STOPPED_ROLE, YES};
use flowgoal_calls::Bare;
use second_search::layers::flow_edges;
use second_search::policy::{Context, Event, Policy, TRANSITION};

/// The clauses of authorization as the second search finds them; a name that is not here is none of them.
fn clause(policy: &Policy, name: &str, x: Context, y: Context, e: Event) -> Option<bool> {
    let on = |b: u16| if b == 0 { x.t == y.t } else { b as u32 == y.t };
    let allows = |e: Event| {
        policy.records.iter().any(|r| r.kind == 4 && r.a as u32 == x.t && on(r.b) && r.c as u32 == e.c && r.mask >> e.p & 1 == 1)
    };
    match name {
        "domain" => Some(policy.domain(x.t)),
        "class" => Some(policy.gamma(e)),
        "allow" => Some(allows(e)),
        "source role" => Some(policy.rho(x.r, x.t)),
        "target role" => Some(policy.rho(y.r, y.t)),
        "source user" => Some(policy.mu(x.u, x.r)),
        "target user" => Some(policy.mu(y.u, y.r)),
        "transition" => Some(policy.role_rule(x.r, y.r, e)),
        _ => None,
    }
}

pub fn test(tool: &Tool, results: &mut Results) {
    for mut case in cases(400) {
        tool.write("policy.img", &case.policy.encode());
        for (x, y, e) in questions(&mut case) {
            for question in [Bare::Authorized, Bare::Flows] {
                let yes = ask(tool, &case, question, x, y, e, results);
                results.meet(if yes { YES } else { NO });
            }
        }
    }
}

/// A step that flows where there is one, the other way round, and any.
fn questions(case: &mut Case) -> Vec<(Context, Context, Event)> {
    let (contexts, events) = (case.policy.contexts(), case.policy.events());
    let mut all = vec![(case.rng.pick(&contexts), case.rng.pick(&contexts), case.rng.pick(&events))];
    let flowing: Vec<(Context, Context, Event)> =
        flow_edges(&case.policy).into_iter().flat_map(|(x, steps)| steps.into_iter().map(move |(e, y)| (x, y, e))).collect();
    if !flowing.is_empty() {
        let (x, y, e) = case.rng.pick(&flowing);
        all.extend([(x, y, e), (y, x, e)]);
    }
    all.extend(transitions(case));
    all
}

/// Transitions that are authorized but for the role rule: between equal roles, between different ones that it lets through, and others.
fn transitions(case: &mut Case) -> Vec<(Context, Context, Event)> {
    let Case { policy, rng, .. } = case;
    let valid: Vec<Context> = policy.contexts().into_iter().filter(|&x| policy.valid(x)).collect();
    let pairs = valid.iter().flat_map(|&x| valid.iter().map(move |&y| (x, y)));
    let mut sorts: [Vec<(Context, Context, Event)>; 3] = Default::default();
    for (x, y) in pairs.filter(|(x, y)| policy.alpha(x.t, y.t, TRANSITION) && policy.chi(*x, *y, TRANSITION)) {
        let lets = policy.records.iter().any(|r| (r.kind, r.a as u32, r.b as u32) == (7, x.r, y.r));
        let sort = if x.r == y.r { 0 } else { 1 + lets as usize };
        sorts[sort].push((x, y, TRANSITION));
    }
    sorts.iter().filter(|sort| !sort.is_empty()).map(|sort| rng.pick(sort)).collect()
}

/// Is this the one clause that fails?
fn only_fails(clauses: &[Value], name: &str) -> bool {
    let mut failing =
        clauses.iter().filter(|one| *one.field("holds") == Value::Bool(false)).map(|one| one.field("clause").text());
    failing.next() == Some(name) && failing.next().is_none()
}

fn ask(tool: &Tool, case: &Case, question: Bare, x: Context, y: Context, e: Event, results: &mut Results) -> bool {
    let (word, wanted) = match question {
        Bare::Authorized => ("authorized", case.policy.authorized(x, y, e)),
        Bare::Flows => ("flows", case.policy.flow(x, y, e)),
    };
    let name = format!("case {}, {word} {x:?} {y:?} {e:?}", case.number);
    let (x_words, y_words, e_words) = (words(numbers(x)), words(numbers(y)), words(event(e)));
    let (ran, said) = match tool.json(&[word, "policy.img", &x_words, &y_words, &e_words, "--json"]) {
        Ok(said) => said,
        Err(why) => {
            results.claim(false, || format!("{name}: {why}"));
            return false;
        }
    };
    let answer = said.field("answer").text();
    results.claim(answer == if wanted { "yes" } else { "no" }, || format!("{name}: {answer}"));
    results.claim(ran.status == !wanted as i32, || format!("{name}: status {}", ran.status));
    let mut ways: Vec<(&[Value], [Context; 2])> = Vec::new();
    match question {
        Bare::Authorized => ways.push((said.field("clauses").list(), [x, y])),
        Bare::Flows => ways.extend(said.field("ways").list().iter().map(|way| way.field("clauses").list()).zip([[x, y], [y, x]])),
    }
    for (clauses, [acting, on]) in &ways {
        for one in clauses.iter() {
            let holds = *one.field("holds") == Value::Bool(true);
            let second = clause(&case.policy, one.field("clause").text(), *acting, *on, e);
            results.claim(second.is_none_or(|second| second == holds), || format!("{name}: {one:?}"));
        }
    }
    if question == Bare::Authorized && e == TRANSITION && x.r != y.r && only_fails(ways[0].0, "transition") {
        results.meet(STOPPED_ROLE);
    }
    if wanted {
        let holding = ways
            .into_iter()
            .map(|(clauses, _)| clauses)
            .filter(|clauses| clauses.iter().all(|one| *one.field("holds") == Value::Bool(true)));
        Explained { name, policy: &case.policy, question, x, y, e, ways: holding.collect() }.hold(results);
    }
    wanted
}
