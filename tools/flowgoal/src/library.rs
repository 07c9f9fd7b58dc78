//! The proved library, asked with slices that are long enough for the images, whatever their size.
use crate::ending::{bug, Run};
use flowgoal_calls::{policy_length, Answer, Bare, Outcome, Steps, Stray, Writing, MOST_RECORDS};
use second_search::goal::{check_goal, Goal};
use second_search::landed::Landed;
use second_search::paths::Path;
use second_search::policy::{check_policy_landed, Context, Event, Policy};

/// The requests of paper 02 that have landed, by their letters: images are read as the library reads them.
pub fn landed() -> Landed {
    Landed::parse(include_str!("../../../tests/landed.txt").trim()).expect("letters of requests")
}

fn sane<T>(said: Result<T, Stray>) -> Run<T> {
    said.map_err(bug)
}

/// Why a policy is refused, or none. A bare question of nothing is refused with 13 where the policy is accepted.
pub fn policy_refusal(policy: &[u8]) -> Run<Option<u32>> {
    match sane(flowgoal_calls::bare(Bare::Authorized, policy, [0; 3], [0; 3], [0; 2]))? {
        Answer::Refused(13) => Ok(None),
        Answer::Refused(k) => Ok(Some(k)),
        _ => Err(bug("the library answers a question that is out of range")),
    }
}

/// Why a goal that is put to an accepted policy is refused, or none. A question without work slices is refused with 11 where both are
/// accepted.
pub fn goal_refusal(policy: &[u8], goal: &[u8]) -> Run<Option<u32>> {
    match sane(flowgoal_calls::check(policy, goal, &mut [], &mut [], &mut []))? {
        Outcome::Refused(11) => Ok(None),
        Outcome::Refused(k) => Ok(Some(k)),
        _ => Err(bug("the library answers a goal without work slices")),
    }
}

/// Is it the image of a goal that some policy accepts?
pub fn is_goal(image: &[u8]) -> Run<bool> {
    Ok(goal_refusal(&widest().encode(), image)?.is_none())
}

/// The policy of an image that the library accepts.
pub fn policy(image: &[u8]) -> Run<Policy> {
    check_policy_landed(landed(), image)
        .map_err(|k| bug(format!("the library accepts a policy that is read as refused with {k}")))
}

/// The goal of an image that the library accepts.
pub fn goal(image: &[u8], policy: &Policy) -> Run<Goal> {
    check_goal(image, policy).map_err(|k| bug(format!("the library accepts a goal that is read as refused with {k}")))
}

/// The widest policy, which accepts every goal that some policy does.
pub fn widest() -> Policy {
    Policy { landed: landed(), ..Policy::new(255, 15, 15, 31) }
}

/// T × R × U of an accepted policy's image: the contexts that it counts.
fn contexts(policy: &[u8]) -> usize {
    policy[..3].iter().map(|&count| count as usize).product()
}

/// The goal question of two images that are accepted: the answer, and the path where there is one. No shortest path meets a node of the
/// search twice, so that there is room for each.
pub fn check(policy: &[u8], goal: &[u8]) -> Run<(Outcome, Option<Path>)> {
    let nodes = contexts(policy) << goal[0];
    let (mut work1, mut work2, mut path) = (vec![0; nodes], vec![0; nodes], vec![0; 2 * nodes + 1]);
    let outcome = sane(flowgoal_calls::check(policy, goal, &mut work1, &mut work2, &mut path))?;
    match outcome {
        Outcome::Holds => Ok((outcome, None)),
        Outcome::Order(m) | Outcome::Events(m) => Ok((outcome, Some(Path::from_entries(&path[..2 * m as usize + 1])))),
        Outcome::Refused(_) | Outcome::NoRoom(_) => {
            Err(bug(format!("the library says \"{outcome}\" to images that are accepted, with slices that are long enough")))
        }
    }
}

/// Least steps of an accepted policy: the answer, and the path where there is one.
pub fn least_steps(policy: &[u8], x: Context, y: Context) -> Run<(Steps, Option<Path>)> {
    let nodes = contexts(policy);
    let (mut work1, mut work2, mut path) = (vec![0; nodes], vec![0; nodes], vec![0; 2 * nodes + 1]);
    let (x, y) = ([x.t, x.r, x.u], [y.t, y.r, y.u]);
    let steps = sane(flowgoal_calls::least_steps(policy, x, y, &mut work1, &mut work2, &mut path))?;
    match steps {
        Steps::None | Steps::Refused(13) => Ok((steps, None)),
        Steps::Shown(m) => Ok((steps, Some(Path::from_entries(&path[..2 * m as usize + 1])))),
        Steps::Refused(_) | Steps::NoRoom(_) => {
            Err(bug(format!("the library says \"{steps}\" to a policy that is accepted, with slices that are long enough")))
        }
    }
}

/// A bare question.
pub fn bare(question: Bare, policy: &[u8], x: Context, y: Context, e: Event) -> Run<Answer> {
    sane(flowgoal_calls::bare(question, policy, [x.t, x.r, x.u], [y.t, y.r, y.u], [e.c, e.p]))
}

/// What a call writes into an output that is long enough for every policy, and what it answers.
fn written(call: impl Fn(&mut [u8]) -> Result<Writing, Stray>) -> Run<(Writing, Vec<u8>)> {
    let mut output = vec![0; policy_length(MOST_RECORDS)];
    let writing = sane(call(&mut output))?;
    match writing {
        Writing::Written(bytes) => output.truncate(bytes as usize),
        Writing::Refused(_) => output.clear(),
    }
    Ok((writing, output))
}

/// The maker's policy and the board's as one.
pub fn join(maker: &[u8], board: &[u8]) -> Run<(Writing, Vec<u8>)> {
    written(|output| flowgoal_calls::join(maker, board, output))
}

/// The canonical image of a policy.
pub fn canonical(policy: &[u8]) -> Run<(Writing, Vec<u8>)> {
    written(|output| flowgoal_calls::canonical(policy, output))
}
