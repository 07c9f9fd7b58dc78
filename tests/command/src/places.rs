//! Where a path breaks its goal, by the places where its legs begin: paper 01's p0 < p1 < .. < pn, and not step by step.
use second_search::goal::Goal;
use second_search::paths::{breaks_order, Path};

/// Does a leg go from one place to another: its events only, and one of them where it is a single step?
fn goes(goal: &Goal, path: &Path, leg: usize, from: usize, to: usize) -> bool {
    (from..to).all(|j| goal.gamma(leg, path.es[j])) && (goal.repeated(leg) || to - from <= 1)
}

/// Can the leg begin at this place, those before it gone?
fn begins(goal: &Goal, path: &Path, leg: usize, at: usize) -> bool {
    match leg {
        0 => at == 0,
        _ => goal.sigma(leg, path.xs[at]) && (0..at).any(|p| goes(goal, path, leg - 1, p, at) && begins(goal, path, leg - 1, p)),
    }
}

/// The legs that can be under way at a place: they begin there, or before, and are repeated; n is that all are gone.
pub fn open(goal: &Goal, path: &Path, at: usize) -> Vec<usize> {
    let under_way = |leg: usize, p: usize| p == at || leg < goal.n && goal.repeated(leg) && goes(goal, path, leg, p, at);
    (0..=goal.n).filter(|&leg| (0..=at).any(|p| under_way(leg, p) && begins(goal, path, leg, p))).collect()
}

/// The first context by which order is broken, and what must be said of it.
pub fn out_of_order(goal: &Goal, path: &Path) -> (usize, Vec<String>) {
    let up_to = |at: usize| Path { xs: path.xs[..=at].to_vec(), es: path.es[..at].to_vec() };
    let at = (0..path.xs.len()).find(|&at| breaks_order(goal, &up_to(at))).unwrap_or(usize::MAX);
    let missing = |leg: &usize| goal.sigma(leg + 1, path.xs[at]) && !path.xs[..at].iter().any(|&x| goal.sigma(*leg, x));
    let leg = (1..goal.n).find(missing);
    (at, leg.map_or(vec![], |leg| vec![format!("σ{leg}"), format!("σ{}", leg + 1)]))
}

/// The first step after which no leg is under way, or else the last, and what must be said of each leg that was under way before it.
pub fn off_the_legs(goal: &Goal, path: &Path, open: &[Vec<usize>]) -> (usize, Vec<String>) {
    let last = path.es.len();
    if last == 0 {
        return (0, vec!["goes no leg".to_string()]);
    }
    let step = (1..last).find(|&step| open[step].is_empty()).unwrap_or(last);
    let (event, to) = (path.es[step - 1], path.xs[step]);
    let why = |&leg: &usize| match (goal.gamma(leg, event), goal.repeated(leg), goal.sigma(leg + 1, to)) {
        (false, ..) => format!("leg {leg} is open, and "),
        (true, false, false) => format!("leg {leg} is one step, and this one does not lead to σ{}", leg + 1),
        (true, ..) => format!("leg {leg} is open, and the path ends here, before leg {}, the last, ", goal.n - 1),
    };
    let outside = open[step - 1].iter().filter(|&&leg| !goal.gamma(leg, event)).map(|leg| format!("is not in γ{leg}"));
    (step, open[step - 1].iter().map(why).chain(outside).collect())
}
