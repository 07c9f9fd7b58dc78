//! The outward calls of the static library, as include/flowgoal.h declares them, for the Rust programs that stand beside the crates.
mod results;

pub use results::{Answer, Outcome, Steps, Stray, Writing};

/// The most records of a policy.
pub const MOST_RECORDS: usize = 4095;

/// The bytes of a policy image of so many records.
pub const fn policy_length(records: usize) -> usize {
    24 + 12 * records
}

/// Has some policy an image of so many bytes?
fn is_policy_length(bytes: usize) -> bool {
    let records = bytes.saturating_sub(policy_length(0)) / 12;
    records <= MOST_RECORDS && bytes == policy_length(records)
}

/// A bare question: policy, then type, role and user of either context, class and permission.
type BareQuestion = unsafe extern "C" fn(*const u8, usize, u32, u32, u32, u32, u32, u32, u32, u32) -> u64;

extern "C" {
    fn flowgoal_check(
        policy: *const u8,
        policy_length: usize,
        goal: *const u8,
        goal_length: usize,
        work1: *mut u32,
        work1_length: usize,
        work2: *mut u32,
        work2_length: usize,
        path: *mut u32,
        path_length: usize,
    ) -> u64;
    fn flowgoal_authorized(
        policy: *const u8,
        policy_length: usize,
        t1: u32,
        r1: u32,
        u1: u32,
        t2: u32,
        r2: u32,
        u2: u32,
        class: u32,
        permission: u32,
    ) -> u64;
    fn flowgoal_flows(
        policy: *const u8,
        policy_length: usize,
        t1: u32,
        r1: u32,
        u1: u32,
        t2: u32,
        r2: u32,
        u2: u32,
        class: u32,
        permission: u32,
    ) -> u64;
    fn flowgoal_least_steps(
        policy: *const u8,
        policy_length: usize,
        t1: u32,
        r1: u32,
        u1: u32,
        t2: u32,
        r2: u32,
        u2: u32,
        work1: *mut u32,
        work1_length: usize,
        work2: *mut u32,
        work2_length: usize,
        path: *mut u32,
        path_length: usize,
    ) -> u64;
    fn flowgoal_join(
        maker: *const u8,
        maker_length: usize,
        board: *const u8,
        board_length: usize,
        output: *mut u8,
        output_length: usize,
    ) -> u64;
    fn flowgoal_canonical(policy: *const u8, policy_length: usize, output: *mut u8, output_length: usize) -> u64;
}

/// The goal question.
pub fn check(policy: &[u8], goal: &[u8], work1: &mut [u32], work2: &mut [u32], path: &mut [u32]) -> Result<Outcome, Stray> {
    // SAFETY: each pointer leads to as many entries as its length says, and no two of them to the same ones.
    let raw = unsafe {
        flowgoal_check(
            policy.as_ptr(),
            policy.len(),
            goal.as_ptr(),
            goal.len(),
            work1.as_mut_ptr(),
            work1.len(),
            work2.as_mut_ptr(),
            work2.len(),
            path.as_mut_ptr(),
            path.len(),
        )
    };
    Outcome::from_raw(raw)
}

/// The two bare questions.
#[derive(Clone, Copy, PartialEq, Eq, PartialOrd, Ord, Debug)]
pub enum Bare {
    Authorized,
    Flows,
}

/// A bare question of two contexts, each as type, role and user, and an event, as class and permission.
pub fn bare(question: Bare, policy: &[u8], x: [u32; 3], y: [u32; 3], e: [u32; 2]) -> Result<Answer, Stray> {
    let call: BareQuestion = match question {
        Bare::Authorized => flowgoal_authorized,
        Bare::Flows => flowgoal_flows,
    };
    // SAFETY: the pointer leads to as many bytes as the length says.
    let raw = unsafe { call(policy.as_ptr(), policy.len(), x[0], x[1], x[2], y[0], y[1], y[2], e[0], e[1]) };
    Answer::from_raw(raw)
}

/// Least steps from one context to another, each as type, role and user.
pub fn least_steps(
    policy: &[u8],
    x: [u32; 3],
    y: [u32; 3],
    work1: &mut [u32],
    work2: &mut [u32],
    path: &mut [u32],
) -> Result<Steps, Stray> {
    // SAFETY: each pointer leads to as many entries as its length says, and no two of them to the same ones.
    let raw = unsafe {
        flowgoal_least_steps(
            policy.as_ptr(),
            policy.len(),
            x[0],
            x[1],
            x[2],
            y[0],
            y[1],
            y[2],
            work1.as_mut_ptr(),
            work1.len(),
            work2.as_mut_ptr(),
            work2.len(),
            path.as_mut_ptr(),
            path.len(),
        )
    };
    Steps::from_raw(raw)
}

/// The maker's policy and the board's as one, written to the front of the output.
pub fn join(maker: &[u8], board: &[u8], output: &mut [u8]) -> Result<Writing, Stray> {
    // SAFETY: each pointer leads to as many bytes as its length says, and that of the output to none of the images'.
    let raw =
        unsafe { flowgoal_join(maker.as_ptr(), maker.len(), board.as_ptr(), board.len(), output.as_mut_ptr(), output.len()) };
    Writing::from_raw(raw)
}

/// The canonical image of the policy, written to the front of the output.
pub fn canonical(policy: &[u8], output: &mut [u8]) -> Result<Writing, Stray> {
    // SAFETY: each pointer leads to as many bytes as its length says, and that of the output to none of the image's.
    let raw = unsafe { flowgoal_canonical(policy.as_ptr(), policy.len(), output.as_mut_ptr(), output.len()) };
    Writing::from_raw(raw)
}
