//! The goal question through the static library against two plain programs. Both are unproved and on the heap: `fast_search.rs` with
//! adjacency lists, `memory_search.rs` with what the proved search remembers too.
use crate::sizes::Size;
use crate::timing::{least, timed};
use crate::{fast_search, memory_search};
use flowgoal_calls::Outcome;

pub const NOTE: &str =
    "entered: nodes that the plain programs' two searches entered; checks: the part of the proved time up to the search;
memory: the plain program with the memory of the proved search; ratio: proved / plain, below 1 the proved one is faster;
-: the plain program without memory is left out where it would take more than about a minute";

/// The plain program without memory is left out where it would evaluate more nodes of expressions than this: a minute's work.
const MOST_EVALUATED: f64 = 2.5e10;

pub fn print_head() {
    println!(
        "{:40} {:14} {:>6} {:>4} {:>9} {:>9} {:10} {:>10} {:>9} {:>10} {:>8} {:>10} {:>8}",
        "case",
        "T R U C",
        "allows",
        "legs",
        "nodes",
        "entered",
        "answer",
        "proved ms",
        "checks ms",
        "plain ms",
        "ratio",
        "memory ms",
        "ratio"
    );
}

/// The library's call with slices of just the right lengths, made once as the caller does.
pub struct Ours {
    work: [Vec<u32>; 2],
    path: Vec<u32>,
}

impl Ours {
    pub fn new(nodes: usize) -> Ours {
        Ours { work: [vec![0; nodes], vec![0; nodes]], path: vec![0; 2 * nodes + 1] }
    }
    pub fn ask(&mut self, policy: &[u8], goal: &[u8]) -> Outcome {
        let nodes = self.work[0].len();
        self.ask_with(policy, goal, nodes)
    }
    /// The call with so many entries of each work slice.
    fn ask_with(&mut self, policy: &[u8], goal: &[u8], entries: usize) -> Outcome {
        let [work1, work2] = self.work.each_mut().map(|work| &mut work[..entries]);
        flowgoal_calls::check(policy, goal, work1, work2, &mut self.path).unwrap_or_else(|stray| panic!("{stray}"))
    }
}

/// What a plain program says, in the library's words.
fn plainly(answer: u8, m: usize) -> Option<Outcome> {
    match (answer, m as u32) {
        (0, 0) => Some(Outcome::Holds),
        (1, m) => Some(Outcome::Order(m)),
        (2, m) => Some(Outcome::Events(m)),
        _ => None,
    }
}

/// What all programs that are asked agree on: the answer, and the nodes that a plain program entered. With the seconds that each took.
struct Agreed {
    outcome: Outcome,
    entered: usize,
    proved: f64,
    memory: f64,
    /// Infinitely long where the program is left out.
    plain: f64,
}

/// Each program is asked once.
fn agree(name: &str, size: &Size, (policy, goal): (&[u8], &[u8]), ours: &mut Ours) -> Option<Agreed> {
    let (outcome, proved) = timed(|| ours.ask(policy, goal));
    let (with_memory, memory) = timed(|| memory_search::run(policy, goal));
    let (answer, m, entered) = with_memory;
    let (without, plain) = match size.evaluated(entered) > MOST_EVALUATED {
        true => (with_memory, f64::INFINITY),
        false => timed(|| fast_search::run(policy, goal)),
    };
    if plainly(answer, m) == Some(outcome) && without == with_memory {
        return Some(Agreed { outcome, entered, proved, memory, plain });
    }
    println!("{name}: the library says {outcome}, the plain program {without:?}, with memory {with_memory:?}");
    None
}

/// Where there is such a number, it; else a dash.
fn or_dash(number: f64) -> String {
    if number.is_finite() && number > 0.0 {
        format!("{number:.3}")
    } else {
        "-".to_string()
    }
}

/// One line of the table; false where the answers differ.
pub fn measure(name: &str, size: &Size) -> bool {
    let (policy, goal) = size.images(42);
    let mut ours = Ours::new(size.nodes());
    let Some(agreed) = agree(name, size, (&policy, &goal), &mut ours) else { return false };
    let Agreed { outcome, entered, .. } = agreed;
    let mut checked = Ours::new(size.nodes());
    // one entry too few is refused last, after every check of policy and goal
    let (refused, checks) = timed(|| checked.ask_with(&policy, &goal, size.nodes() - 1));
    assert_eq!(refused, Outcome::Refused(11));
    let [proved, checks, plain, memory] = least([
        (agreed.proved, &mut || {
            std::hint::black_box(ours.ask(&policy, &goal));
        }),
        (checks, &mut || {
            std::hint::black_box(checked.ask_with(&policy, &goal, size.nodes() - 1));
        }),
        (agreed.plain, &mut || {
            std::hint::black_box(fast_search::run(&policy, &goal));
        }),
        (agreed.memory, &mut || {
            std::hint::black_box(memory_search::run(&policy, &goal));
        }),
    ]);
    let Size { types, roles, users, classes, allows, legs, .. } = size;
    println!(
        "{name:40} {:14} {allows:6} {legs:4} {:9} {entered:9} {:10} {:10.3} {:9.3} {:>10} {:>8} {:10.3} {:8.3}",
        format!("{types} {roles} {users} {classes}"),
        size.nodes(),
        if outcome.steps() > 0 { outcome.to_string() } else { outcome.name() },
        proved * 1e3,
        checks * 1e3,
        or_dash(plain * 1e3),
        or_dash(proved / plain),
        memory * 1e3,
        proved / memory
    );
    true
}

/// Each program is asked once; false where the answers differ.
pub fn ask_once(name: &str, size: &Size) -> bool {
    let (policy, goal) = size.images(42);
    let agreed = agree(name, size, (&policy, &goal), &mut Ours::new(size.nodes()));
    if let Some(Agreed { outcome, entered, .. }) = &agreed {
        println!("{name}: {} {}, {entered} nodes entered", outcome.name(), outcome.steps());
    }
    agreed.is_some()
}
