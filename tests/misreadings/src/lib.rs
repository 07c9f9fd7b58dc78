//! A copy of the second search, for tests alone, in which one misreading of the specification at a time can be switched on.
//! It is made from the second search's own sources (`build.rs`), so it cannot fall behind them.
#![allow(dead_code)]
use std::cell::{Cell, RefCell};
use std::collections::BTreeMap;

mod names;
pub use names::{Misreading, OF_CANONICAL, OF_FLOW, OF_GOALS, OF_IMAGES, OF_JOINS, OF_STEPS, OF_WRITING};

/// Is the misreading switched on? This is what the places in the copy ask (`../places.rs`).
macro_rules! on {
    ($name:ident) => {
        crate::is_on(crate::Misreading::$name)
    };
}

macro_rules! copied {
    ($($module:ident $file:literal;)*) => {
        $(#[allow(clippy::all)]
        pub mod $module {
            include!(concat!(env!("OUT_DIR"), "/", $file));
        })*
    };
}

copied! {
    landed "landed.rs";
    policy "policy.rs";
    goal "goal.rs";
    paths "paths.rs";
    layers "layers.rs";
    answer "answer.rs";
    steps "steps.rs";
    join "join.rs";
    canonical "canonical.rs";
}

// behind `on!`, which they ask by
mod canonicals;
mod joins;

use goal::Goal;
use landed::Landed;
use policy::{Context, Event};
use steps::Least;

/// The requests that have landed, by their letters: the copy is asked as the second search is.
const LANDED: &str = include_str!("../../landed.txt");

fn landed() -> Landed {
    Landed::parse(LANDED.trim()).expect("letters of requests")
}

thread_local! {
    static SWITCHED: Cell<Option<Misreading>> = const { Cell::new(None) };
    /// The goal of the case, for one who takes least steps to heed it.
    static AT_HAND: RefCell<Option<Goal>> = const { RefCell::new(None) };
}

fn is_on(misreading: Misreading) -> bool {
    SWITCHED.with(|now| now.get() == Some(misreading))
}

/// What the copy says while the misreading is switched on.
fn switched<A>(misreading: Option<Misreading>, say: impl FnOnce() -> A) -> A {
    SWITCHED.with(|now| now.set(misreading));
    let said = say();
    SWITCHED.with(|now| now.set(None));
    said
}

/// The loader's number for the goal question as one who misreads would give it; with none, nothing is misread. The path is not
/// asked for.
pub fn number(misreading: Option<Misreading>, policy: &[u8], goal: &[u8], work: usize) -> u64 {
    let mut room = vec![0; 2 * work + 1];
    switched(misreading, || answer::goal_question_landed(landed(), policy, goal, [work; 2], &mut room).number())
}

/// The number for least steps, likewise, from the first of the pair to the second.
pub fn steps_number(misreading: Option<Misreading>, policy: &[u8], goal: &[u8], pair: [[u32; 3]; 2], work: usize) -> u64 {
    let mut room = vec![0; 2 * work + 1];
    let [x, y] = pair.map(|[t, r, u]| Context { t, r, u });
    let at_hand = answer::check_both_landed(landed(), policy, goal).ok().map(|(_, goal)| goal);
    AT_HAND.with(|now| now.replace(at_hand));
    switched(misreading, || match steps::least_steps(landed(), policy, x, y, [work; 2], &mut room) {
        Least::None => 0,
        Least::Steps(path) => 256 * (path.steps() as u64 + on!(ContextsCounted) as u64) + 1,
        Least::Refused(number, m) => 256 * m.unwrap_or(0) as u64 + 4 * number as u64 + 3,
    })
}

/// The number for a join, likewise; what is written goes to the output.
pub fn join_number(misreading: Option<Misreading>, maker: &[u8], board: &[u8], output: &mut [u8]) -> u64 {
    switched(misreading, || writing_number(join::join(landed(), maker, board, output), output))
}

/// The number for a canonical image, likewise.
pub fn canonical_number(misreading: Option<Misreading>, policy: &[u8], output: &mut [u8]) -> u64 {
    switched(misreading, || writing_number(canonical::canonical(landed(), policy, output), output))
}

/// The number of the bytes that were written, or of the refusal.
fn writing_number(written: Result<usize, u32>, output: &mut [u8]) -> u64 {
    match written {
        Ok(length) => 256 * if on!(RecordsTold) { (length as u64 - 24) / 12 } else { length as u64 },
        Err(number) => {
            if on!(RefusalClears) {
                output.fill(0);
            }
            4 * number as u64 + 3
        }
    }
}

/// The states of the goal at hand, 2^n.
fn states_at_hand() -> usize {
    AT_HAND.with_borrow(|goal| goal.as_ref().map_or(1, |goal| 1 << goal.n))
}

/// What flows from each context.
type Edges = BTreeMap<Context, Vec<(Event, Context)>>;

/// What is left of it, or added to it, by one who misreads least steps.
fn edges_as_read(mut edges: Edges) -> Edges {
    if on!(FlowEitherWay) {
        let forth = edges.clone();
        for (&x, list) in &forth {
            list.iter().for_each(|&(e, y)| edges.entry(y).or_default().push((e, x)));
        }
    }
    AT_HAND.with_borrow(|goal| {
        let Some(goal) = goal else { return };
        for (&x, list) in &mut edges {
            let stopped = on!(ExceptionsHeeded) && goal.sigma_e(x) || on!(EndHeeded) && goal.sigma(goal.n, x);
            let allowed = |e: Event| (0..goal.n).any(|leg| goal.gamma(leg, e));
            let left_out = |e: Event| on!(ExceptionsHeeded) && goal.gamma_e(e) || on!(LegsHeeded) && !allowed(e);
            list.retain(|&(e, _)| !stopped && !left_out(e));
        }
    });
    edges
}
