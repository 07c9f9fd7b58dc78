//! Least steps through the static library against the two plain programs of `steps_search.rs`, and against the goal question on the
//! same policy: from the context that reaches most to one that it does not reach, or to the last that it reaches where it reaches
//! all, so that each program goes through everything.
use crate::goals::Ours as GoalQuestion;
use crate::sizes::Size;
use crate::steps_search::{farthest, run, run_with_memory};
use crate::timing::{least, timed};
use flowgoal_calls::Steps;

pub const NOTE: &str =
    "least steps, from the context that reaches most to one that it does not reach, or to the last where it reaches all;
entered: contexts that the plain programs took up; checks, memory, ratio: as above; goal: the goal question on the same policy,
with the goal of the case of that name, and the ratio of least steps to it";

pub fn print_head() {
    println!(
        "{:40} {:14} {:>6} {:>9} {:>9} {:10} {:>10} {:>9} {:>10} {:>8} {:>10} {:>8} {:>10} {:>8}",
        "least steps: case",
        "T R U C",
        "allows",
        "contexts",
        "entered",
        "answer",
        "proved ms",
        "checks ms",
        "plain ms",
        "ratio",
        "memory ms",
        "ratio",
        "goal ms",
        "ratio"
    );
}

/// The library's call with slices of just the right lengths, made once as the caller does.
struct Ours<'a> {
    policy: &'a [u8],
    pair: [[u32; 3]; 2],
    work: [Vec<u32>; 2],
    path: Vec<u32>,
}

impl Ours<'_> {
    fn new(policy: &[u8], pair: [[u32; 3]; 2], contexts: usize) -> Ours<'_> {
        Ours { policy, pair, work: [vec![0; contexts], vec![0; contexts]], path: vec![0; 2 * contexts + 1] }
    }
    fn ask(&mut self) -> Steps {
        let contexts = self.work[0].len();
        self.ask_with(contexts)
    }
    /// The call with so many entries of each work slice.
    fn ask_with(&mut self, entries: usize) -> Steps {
        let [x, y] = self.pair;
        let [work1, work2] = self.work.each_mut().map(|work| &mut work[..entries]);
        flowgoal_calls::least_steps(self.policy, x, y, work1, work2, &mut self.path).unwrap_or_else(|stray| panic!("{stray}"))
    }
}

/// What all three programs agree on: the answer, and the contexts that a plain program took up. With the seconds that each took.
struct Agreed {
    answer: Steps,
    entered: usize,
    proved: f64,
    plain: f64,
    memory: f64,
}

/// Each program is asked once.
fn agree(name: &str, ours: &mut Ours) -> Option<Agreed> {
    let [x, y] = ours.pair;
    let (answer, proved) = timed(|| ours.ask());
    let (without, plain) = timed(|| run(ours.policy, x, y));
    let (with_memory, memory) = timed(|| run_with_memory(ours.policy, x, y));
    let plainly = without.0.map_or(Steps::None, |m| Steps::Shown(m as u32));
    if plainly == answer && with_memory == without {
        return Some(Agreed { answer, entered: without.1, proved, plain, memory });
    }
    println!("{name}: least steps: the library says {answer}, the plain program {without:?}, with memory {with_memory:?}");
    None
}

/// One line of the table; false where the answers differ.
pub fn measure(name: &str, size: &Size) -> bool {
    let (policy, goal) = size.images(42);
    let contexts = size.contexts();
    let pair = farthest(&policy);
    let mut ours = Ours::new(&policy, pair, contexts);
    let Some(agreed) = agree(name, &mut ours) else { return false };
    let Agreed { answer, entered, .. } = agreed;
    let [x, y] = pair;
    let mut checked = Ours::new(&policy, pair, contexts);
    // one entry too few is refused after every check of the policy, before the search
    let (refused, checks) = timed(|| checked.ask_with(contexts - 1));
    assert_eq!(refused, Steps::Refused(11));
    let mut of_goal = GoalQuestion::new(size.nodes());
    let (_, goal_question) = timed(|| of_goal.ask(&policy, &goal));
    let [proved, checks, plain, memory, goal_question] = least([
        (agreed.proved, &mut || {
            std::hint::black_box(ours.ask());
        }),
        (checks, &mut || {
            std::hint::black_box(checked.ask_with(contexts - 1));
        }),
        (agreed.plain, &mut || {
            std::hint::black_box(run(&policy, x, y));
        }),
        (agreed.memory, &mut || {
            std::hint::black_box(run_with_memory(&policy, x, y));
        }),
        (goal_question, &mut || {
            std::hint::black_box(of_goal.ask(&policy, &goal));
        }),
    ]);
    let Size { types, roles, users, classes, allows, .. } = size;
    println!(
        "{name:40} {:14} {allows:6} {contexts:9} {entered:9} {:10} {:10.3} {:9.3} {:10.3} {:8.3} {:10.3} {:8.3} {:10.3} {:8.3}",
        format!("{types} {roles} {users} {classes}"),
        answer.to_string(),
        proved * 1e3,
        checks * 1e3,
        plain * 1e3,
        proved / plain,
        memory * 1e3,
        proved / memory,
        goal_question * 1e3,
        proved / goal_question
    );
    true
}

/// Each program is asked once; false where the answers differ.
pub fn ask_once(name: &str, size: &Size) -> bool {
    let (policy, _) = size.images(42);
    let agreed = agree(name, &mut Ours::new(&policy, farthest(&policy), size.contexts()));
    if let Some(Agreed { answer, entered, .. }) = &agreed {
        println!("{name}: least steps: {answer}, {entered} contexts entered");
    }
    agreed.is_some()
}
