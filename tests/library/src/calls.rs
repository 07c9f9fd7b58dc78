//! The outward calls of a library, and the slices that are lent to them.
use flowgoal_calls::{Answer, Bare, Outcome, Steps, Stray, Writing};
use second_search::policy::{Context, Event};

/// Entries on either side of a lent slice that no call may touch.
const GUARD: usize = 4;

/// An entry of a lent slice, and what it holds before a call.
pub trait Entry: Copy + PartialEq {
    fn canary(at: usize) -> Self;
}

/// No path entry is so large, so an entry that a call wrote shows.
impl Entry for u32 {
    fn canary(at: usize) -> u32 {
        0xC0DE_0000 + at as u32
    }
}

/// None is 0, and none is that of its neighbours: a byte that was cleared or moved shows.
impl Entry for u8 {
    fn canary(at: usize) -> u8 {
        0x80 + (at % 127) as u8
    }
}

/// A slice that is lent to a call, with guard entries before and behind it.
pub struct Lent<E = u32> {
    all: Vec<E>,
    length: usize,
}

impl<E: Entry> Lent<E> {
    pub fn new(length: usize) -> Lent<E> {
        Lent { all: (0..length + 2 * GUARD).map(E::canary).collect(), length }
    }
    pub fn lend(&mut self) -> &mut [E] {
        &mut self.all[GUARD..GUARD + self.length]
    }
    pub fn entries(&self) -> &[E] {
        &self.all[GUARD..GUARD + self.length]
    }
    /// Are all entries from the given one on, and those before the slice, as they were?
    pub fn unchanged_from(&self, entry: usize) -> bool {
        let same = |at: usize| self.all[at] == E::canary(at);
        (0..GUARD).all(same) && (GUARD + entry..self.all.len()).all(same)
    }
    /// Was nothing outside the slice touched?
    pub fn kept_inside(&self) -> bool {
        self.unchanged_from(self.length)
    }
}

/// The goal question: policy, goal, both work slices and the path slice.
pub type GoalQuestion = fn(&[u8], &[u8], &mut [u32], &mut [u32], &mut [u32]) -> Result<Outcome, Stray>;
/// A bare question: which, the policy, either context and the event.
pub type BareQuestion = fn(Bare, &[u8], [u32; 3], [u32; 3], [u32; 2]) -> Result<Answer, Stray>;

/// Least steps: the policy, either context, both work slices and the path slice.
pub type LeastSteps = fn(&[u8], [u32; 3], [u32; 3], &mut [u32], &mut [u32], &mut [u32]) -> Result<Steps, Stray>;

/// A join: the maker's policy, the board's and the output.
pub type Join = fn(&[u8], &[u8], &mut [u8]) -> Result<Writing, Stray>;

/// The canonical image: the policy and the output.
pub type Canonical = fn(&[u8], &mut [u8]) -> Result<Writing, Stray>;

/// The calls of a library: of the one that is linked, or, in the trials, of one that is wrong.
#[derive(Clone, Copy)]
pub struct Library {
    pub goal_question: GoalQuestion,
    pub bare_question: BareQuestion,
    pub least_steps: LeastSteps,
    pub join: Join,
    pub canonical: Canonical,
}

pub const LINKED: Library = Library {
    goal_question: flowgoal_calls::check,
    bare_question: flowgoal_calls::bare,
    least_steps: flowgoal_calls::least_steps,
    join: flowgoal_calls::join,
    canonical: flowgoal_calls::canonical,
};

fn numbers(x: Context) -> [u32; 3] {
    [x.t, x.r, x.u]
}

impl Library {
    /// The goal question; both work slices and the path slice keep what the call left in them.
    pub fn check(&self, policy: &[u8], goal: &[u8], work: &mut [Lent; 2], path: &mut Lent) -> Result<Outcome, Stray> {
        let [work1, work2] = work;
        (self.goal_question)(policy, goal, work1.lend(), work2.lend(), path.lend())
    }

    pub fn bare(&self, question: Bare, policy: &[u8], x: Context, y: Context, e: Event) -> Result<Answer, Stray> {
        (self.bare_question)(question, policy, numbers(x), numbers(y), [e.c, e.p])
    }

    /// Least steps; the slices keep what the call left in them.
    pub fn steps(&self, policy: &[u8], pair: [Context; 2], work: &mut [Lent; 2], path: &mut Lent) -> Result<Steps, Stray> {
        let [work1, work2] = work;
        let [x, y] = pair.map(numbers);
        (self.least_steps)(policy, x, y, work1.lend(), work2.lend(), path.lend())
    }

    /// The maker's policy and the board's as one; the output keeps what the call left in it.
    pub fn join(&self, maker: &[u8], board: &[u8], output: &mut Lent<u8>) -> Result<Writing, Stray> {
        (self.join)(maker, board, output.lend())
    }

    /// The canonical image of the policy; the output keeps what the call left in it.
    pub fn canonical(&self, policy: &[u8], output: &mut Lent<u8>) -> Result<Writing, Stray> {
        (self.canonical)(policy, output.lend())
    }
}
