//! A path walked through the rules: for each step the records that give it, and where the path breaks its goal. Nothing is said that the
//! library does not confirm.
use crate::ending::{bug, Run};
use crate::library;
use crate::names::Names;
use crate::policy::{Reading, Way};
use crate::sets::listed;
use flowgoal_calls::{Answer, Bare};
use second_search::goal::Goal;
use second_search::paths::{Path, Sort};
use second_search::policy::{Context, Event};

/// A step of a path, and each way in which it flows: x writes to y, or y reads x, or both.
pub struct Step {
    pub from: Context,
    pub to: Context,
    pub event: Event,
    pub ways: Vec<Way>,
}

/// Where and how a path breaks its goal.
pub enum Break {
    /// The context at this place, counted from 0, is in σ(leg + 1), and none before it is in σ(leg).
    Order { at: usize, leg: usize },
    /// This step, counted from 1, goes on with none of the legs that are open before it: each with the reason.
    Events { step: usize, legs: Vec<(usize, Reason)> },
    /// A path without a step goes no leg.
    NoStep,
}

/// Why a leg that is open does not go on by a step.
#[derive(Clone, Copy, PartialEq, Eq, Debug)]
pub enum Reason {
    /// The event is not in the leg's set.
    Event,
    /// The leg is one step, and the step does not lead to where the leg ends.
    Place,
    /// The path ends, and the leg is not the last.
    Early,
}

/// The steps of a path, each by the tool's own reading, which must give it a way of flow just as the library does.
pub fn steps(reading: &Reading, image: &[u8], path: &Path) -> Run<Vec<Step>> {
    let mut steps = Vec::new();
    for (j, &event) in path.es.iter().enumerate() {
        let (from, to) = (path.xs[j], path.xs[j + 1]);
        let ways: Vec<Way> = Vec::from(reading.ways(from, to, event)).into_iter().filter(Way::flows).collect();
        let said = library::bare(Bare::Flows, image, from, to, event)?;
        if ways.is_empty() || said != Answer::Yes {
            let read = if ways.is_empty() { "no" } else { "yes" };
            return Err(bug(format!(
                "of flow by step {} of the path the library says {said}, and the records say {read}",
                j + 1
            )));
        }
        steps.push(Step { from, to, event, ways });
    }
    Ok(steps)
}

/// Whether the path is one of the goal, flow apart: it starts in σ0, where ρ and μ are met, and first comes to σn at its end, with no
/// exception before that. It must be.
pub fn ends(reading: &Reading, goal: &Goal, path: &Path) -> Run<()> {
    let (first, last) = (path.xs[0], path.xs[path.steps()]);
    let before = &path.xs[..path.steps()];
    let starts = goal.sigma(0, first) && reading.held(first).iter().all(|clause| clause.holds);
    let ends = goal.sigma(goal.n, last) && !before.iter().any(|&x| goal.sigma(goal.n, x));
    let excepted = before.iter().any(|&x| goal.sigma_e(x)) || path.es.iter().any(|&e| goal.gamma_e(e));
    match starts && ends && !excepted {
        true => Ok(()),
        false => Err(bug("the library's path is none of the goal's paths")),
    }
}

/// The legs that may be under way at each context of a path. A leg is open where the legs before it are gone; one that is a single step
/// is open for one step alone.
pub fn open_legs(goal: &Goal, path: &Path) -> Vec<Vec<usize>> {
    let mut open = vec![vec![0]];
    for (j, &e) in path.es.iter().enumerate() {
        let going: Vec<usize> = open[j].iter().copied().filter(|&leg| leg < goal.n && goal.gamma(leg, e)).collect();
        let next = |leg: usize| {
            let stays = going.contains(&leg) && goal.repeated(leg);
            stays || leg > 0 && going.contains(&(leg - 1)) && goal.sigma(leg, path.xs[j + 1])
        };
        open.push((0..=goal.n).filter(|&leg| next(leg)).collect());
    }
    open
}

/// Where a path breaks what the library says it breaks. It must.
pub fn broken(goal: &Goal, path: &Path, sort: Sort) -> Run<Break> {
    let found = match sort {
        Sort::Order => breaks_order(goal, path),
        Sort::Events => breaks_events(goal, path),
    };
    found.ok_or_else(|| bug(format!("the library says that its path breaks {}, and it does not", word(sort))))
}

pub fn word(sort: Sort) -> &'static str {
    match sort {
        Sort::Order => "order",
        Sort::Events => "events",
    }
}

fn breaks_order(goal: &Goal, path: &Path) -> Option<Break> {
    let missing = |at: usize, leg: usize| !path.xs[..at].iter().any(|&x| goal.sigma(leg, x));
    let places = (0..path.xs.len()).flat_map(|at| (1..goal.n).map(move |leg| (at, leg)));
    let mut out_of_order = places.filter(|&(at, leg)| goal.sigma(leg + 1, path.xs[at]) && missing(at, leg));
    out_of_order.next().map(|(at, leg)| Break::Order { at, leg })
}

fn breaks_events(goal: &Goal, path: &Path) -> Option<Break> {
    let open = open_legs(goal, path);
    let last = path.steps();
    if open[last].contains(&goal.n) {
        return None;
    }
    if last == 0 {
        return Some(Break::NoStep);
    }
    // the first step after which no leg is open, or the last, which does not end the last leg
    let step = (1..=last).find(|&step| open[step].is_empty()).unwrap_or(last);
    let reason = |leg: usize| match (goal.gamma(leg, path.es[step - 1]), goal.repeated(leg)) {
        (false, _) => Reason::Event,
        (true, false) if !goal.sigma(leg + 1, path.xs[step]) => Reason::Place,
        (true, _) => Reason::Early,
    };
    Some(Break::Events { step, legs: open[step - 1].iter().map(|&leg| (leg, reason(leg))).collect() })
}

impl Break {
    /// In words, for the place that it names.
    pub fn words(&self, goal: &Goal, path: &Path, names: &Names) -> String {
        match self {
            Break::Order { at: 0, leg } => format!("the path starts in σ{}, and so not after σ{leg}", leg + 1),
            Break::Order { leg, .. } => format!("the path comes to σ{} here, and was not in σ{leg} before", leg + 1),
            Break::NoStep => format!("the path starts in σ{}, where it ends, and goes no leg", goal.n),
            Break::Events { step, legs } => {
                let event = names.event(path.es[step - 1]);
                let reason = |&(leg, why): &(usize, Reason)| match why {
                    Reason::Event => format!("leg {leg} is open, and {event} is not in γ{leg}"),
                    Reason::Place => format!("leg {leg} is one step, and this one does not lead to σ{}", leg + 1),
                    Reason::Early => {
                        format!("leg {leg} is open, and the path ends here, before leg {}, the last, has been walked", goal.n - 1)
                    }
                };
                legs.iter().map(reason).collect::<Vec<_>>().join("; ")
            }
        }
    }

    /// The context, counted from 0, at which it is seen.
    pub fn at(&self) -> usize {
        match self {
            Break::Order { at, .. } => *at,
            Break::Events { step, .. } => *step,
            Break::NoStep => 0,
        }
    }
}

/// The legs that are open, in words.
pub fn open_words(open: &[usize], legs: usize) -> String {
    let legs: Vec<usize> = open.iter().copied().filter(|&leg| leg < legs).collect();
    listed(&legs)
}
