//! What a policy says, by request e: two policies have the same canonical image exactly when these agree.
use second_search::policy::{Policy, Record};
use std::collections::BTreeSet;

/// "their counts, their facts of kinds 1 to 7 as written (masks bit by bit, flow's 3 being 1 and 2), and their lists of kinds 8 and 9"
#[derive(PartialEq, Eq, Debug)]
pub struct Meaning {
    counts: [u32; 4],
    facts: BTreeSet<Fact>,
    constraints: Vec<Constraint>,
    nodes: Vec<Node>,
}

/// Kind, a, b and c, and in kinds 2, 3 and 4 a permission.
type Fact = (u8, u16, u16, u8, Option<u32>);
/// Class, mask, and the place of the root.
type Constraint = (u16, u32, usize);
/// Operator, value, and the places of left and right, or 0.
type Node = (u16, u16, usize, usize);

/// What a record of kinds 1 to 7 says.
fn facts(r: &Record) -> Vec<Fact> {
    let ways = if r.kind == 3 && r.b == 3 { vec![1, 2] } else { vec![r.b] };
    let permissions: Vec<Option<u32>> = match r.kind {
        2..=4 => (0..32).filter(|p| r.mask & 1 << p != 0).map(Some).collect(),
        _ => vec![None],
    };
    ways.iter().flat_map(|&b| permissions.iter().map(move |&p| (r.kind, r.a, b, r.c, p))).collect()
}

/// "a node being named by its place in the list": its place from 1, and 0 for none.
fn place(policy: &Policy, node: usize) -> usize {
    policy.records[..node].iter().filter(|r| r.kind == 9).count()
}

pub fn meaning(policy: &Policy) -> Meaning {
    let of_kind = |kind: u8| policy.records.iter().filter(move |r| r.kind == kind);
    let place = |node: usize| place(policy, node);
    let node = |r: &Record| match r.a {
        1..=3 => (r.a, r.b, place(r.left()), place(r.right())),
        _ => (r.a, r.b, 0, 0),
    };
    Meaning {
        counts: [policy.types, policy.roles, policy.users, policy.classes],
        facts: policy.records.iter().filter(|r| r.kind <= 7).flat_map(facts).collect(),
        constraints: of_kind(8).map(|r| (r.a, r.mask, place(r.root()))).collect(),
        nodes: of_kind(9).map(node).collect(),
    }
}
