//! What an all-clear rests on, and where it is empty of meaning.
use crate::ending::{bug, Run};
use crate::library;
use crate::policy::Reading;
use crate::reach::{Bounds, Direction, Graph};
use flowgoal_calls::Outcome;
use second_search::goal::{is_sigma, Goal, Item, GAMMA_E, SIGMA_E};
use second_search::policy::Context;
use std::collections::HashSet;

/// Contexts, counted. Those that meet ρ and μ are the valid ones.
pub struct Ground {
    pub contexts: usize,
    pub valid: usize,
    /// valid contexts in σ0, and in σn
    pub starts: usize,
    pub ends: usize,
    /// by the paths of the goal, which meet no exception before their end: reached from σ0, leading to σn, and both
    pub reached: usize,
    pub leading: usize,
    pub both: usize,
    pub warnings: Vec<String>,
}

/// A goal that every path of another one breaks, or every path that also passes through exceptions: one leg with no event.
fn any_path(goal: &Goal, exceptions: bool) -> Goal {
    let moved = |&(chain, item): &(usize, Item)| match chain {
        0 => Some((0, item)),
        SIGMA_E | GAMMA_E if exceptions => Some((chain, item)),
        _ if chain == goal.n => Some((1, item)),
        _ => None,
    };
    Goal { n: 1, flags: 0, items: goal.items.iter().filter_map(moved).collect() }
}

/// The goal without one of its exception sets, or without both.
fn without(goal: &Goal, dropped: &[usize]) -> Goal {
    Goal { items: goal.items.iter().filter(|(chain, _)| !dropped.contains(chain)).copied().collect(), ..goal.clone() }
}

/// The ground of the library's "holds". What the search says of there being a path must be what the library says of it.
pub fn of(reading: &Reading, image: &[u8], goal: &Goal) -> Run<Ground> {
    let graph = Graph::new(reading);
    let (start, end) = (|x: Context| goal.sigma(0, x), |x: Context| goal.sigma(goal.n, x));
    let bounds = Bounds { goal: Some(goal), exceptions: true };
    let reached = graph.search(Direction::Forward, &start, bounds);
    let leading = graph.search(Direction::Backward, &end, bounds);
    let everywhere = graph.search(Direction::Forward, &start, Bounds { exceptions: false, ..bounds });
    held(image, goal, true, reached.iter().any(|&x| end(x)))?;
    held(image, goal, true, leading.iter().any(|&x| start(x)))?;
    held(image, goal, false, everywhere.iter().any(|&x| end(x)))?;
    let valid_in = |set: &dyn Fn(Context) -> bool| graph.valid.iter().filter(|&&x| set(x)).count();
    let mut ground = Ground {
        contexts: (reading.policy.types * reading.policy.roles * reading.policy.users) as usize,
        valid: graph.valid.len(),
        starts: valid_in(&start),
        ends: valid_in(&end),
        reached: reached.len(),
        leading: leading.len(),
        both: reached.intersection(&leading).count(),
        warnings: vec![],
    };
    ground.warnings = warnings(&ground, image, goal, &everywhere)?;
    Ok(ground)
}

/// Is there a path? The library must say what the search says.
fn held(image: &[u8], goal: &Goal, exceptions: bool, found: bool) -> Run<()> {
    let (outcome, _) = library::check(image, &any_path(goal, exceptions).encode())?;
    match (outcome == Outcome::Holds) != found {
        true => Ok(()),
        false => Err(bug(format!(
            "the search of contexts says that there is {} path, and the library does not",
            if found { "a" } else { "no" }
        ))),
    }
}

fn warnings(ground: &Ground, image: &[u8], goal: &Goal, everywhere: &HashSet<Context>) -> Run<Vec<String>> {
    let last = goal.n;
    let mut said = Vec::new();
    if ground.starts == 0 {
        said.push("σ0 has no context that meets ρ and μ: no path starts, and the goal says nothing".to_string());
    }
    if ground.ends == 0 {
        said.push(format!("σ{last} has no context that meets ρ and μ: no path ends, and the goal says nothing"));
    }
    let some_path = everywhere.iter().any(|&x| goal.sigma(last, x));
    if said.is_empty() && !some_path {
        said.push(format!("no path leads from σ0 to σ{last} at all, with exceptions or without: the goal says nothing"));
    }
    if some_path {
        said.extend(kept_by_exceptions(image, goal, ground.both == 0)?);
    }
    Ok(said)
}

/// What becomes of the goal without its exceptions.
fn kept_by_exceptions(image: &[u8], goal: &Goal, cut: bool) -> Run<Option<String>> {
    let has = |chain: usize| goal.items.iter().any(|&(of, _)| of == chain);
    for dropped in [&[SIGMA_E][..], &[GAMMA_E], &[SIGMA_E, GAMMA_E]] {
        if !dropped.iter().all(|&chain| has(chain)) {
            continue;
        }
        let (outcome, _) = library::check(image, &without(goal, dropped).encode())?;
        if outcome != Outcome::Holds {
            let sets: Vec<&str> = dropped.iter().map(|&chain| if is_sigma(chain) { "σe" } else { "γe" }).collect();
            return Ok(Some(format!("the exceptions alone keep it: without {} the answer is {outcome}", sets.join(" and "))));
        }
    }
    let cut = cut.then(|| format!("every path from σ0 to σ{} meets an exception: the goal says nothing", goal.n));
    Ok(cut)
}
