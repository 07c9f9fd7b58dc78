//! The expression of a constraint: of which contexts it is true, and in words.
use crate::names::{Names, Sort};
use second_search::policy::{Context, Policy, Record};
use std::ops::{BitAnd, BitOr, Not};

/// Some contexts of one type: by role, a bit for each user.
#[derive(Clone, Copy, PartialEq, Eq, Debug)]
pub struct OfType([u16; 16]);

impl OfType {
    pub const NONE: OfType = OfType([0; 16]);
    pub const ALL: OfType = OfType([!0; 16]);

    fn all_if(yes: bool) -> OfType {
        if yes {
            OfType::ALL
        } else {
            OfType::NONE
        }
    }

    pub fn role(r: u32) -> OfType {
        let mut some = OfType::NONE;
        some.0[r as usize] = !0;
        some
    }

    fn user(u: u32) -> OfType {
        OfType([1 << u; 16])
    }

    /// Is it one of them? Its type is not asked.
    pub fn has(self, x: Context) -> bool {
        self.0[x.r as usize] >> x.u & 1 == 1
    }
}

impl BitAnd for OfType {
    type Output = OfType;
    fn bitand(self, other: OfType) -> OfType {
        OfType(std::array::from_fn(|r| self.0[r] & other.0[r]))
    }
}

impl BitOr for OfType {
    type Output = OfType;
    fn bitor(self, other: OfType) -> OfType {
        OfType(std::array::from_fn(|r| self.0[r] | other.0[r]))
    }
}

impl Not for OfType {
    type Output = OfType;
    fn not(self) -> OfType {
        OfType(self.0.map(|users| !users))
    }
}

/// A context, whether it acts, and the type of those on the other side.
#[derive(Clone, Copy)]
pub struct Sides {
    pub one: Context,
    pub acts: bool,
    pub other: u32,
}

/// The contexts on the other side of which the node is true. A policy has many contexts of a type: they are asked about all at once.
pub fn others(policy: &Policy, node: usize, sides: Sides) -> OfType {
    let record = &policy.records[node - 1];
    let Sides { one, acts, other } = sides;
    let b = record.b as u32;
    let of = |child: usize| others(policy, child, sides);
    // operators 7, 9 and 11 speak of the context that acts, 8, 10 and 12 of the one that is acted on
    let of_one = (record.a % 2 == 1) == acts;
    match record.a {
        1 => !of(record.left()),
        2 => of(record.left()) & of(record.right()),
        3 => of(record.left()) | of(record.right()),
        4 => OfType::all_if(one.t == other),
        5 => OfType::role(one.r),
        6 => OfType::user(one.u),
        7 | 8 => OfType::all_if(b == if of_one { one.t } else { other }),
        9 | 10 if of_one => OfType::all_if(one.r == b),
        9 | 10 => OfType::role(b),
        _ if of_one => OfType::all_if(one.u == b),
        _ => OfType::user(b),
    }
}

/// Is the node true, where x acts on y?
pub fn truth(policy: &Policy, node: usize, x: Context, y: Context) -> bool {
    others(policy, node, Sides { one: x, acts: true, other: y.t }).has(y)
}

/// An expression of more nodes than these is not written out.
const LONGEST: usize = 24;

fn children(record: &Record) -> Vec<usize> {
    match record.a {
        1 => vec![record.left()],
        2 | 3 => vec![record.left(), record.right()],
        _ => vec![],
    }
}

/// A node has one use at the most, so that its expression is a tree.
fn size(policy: &Policy, node: usize) -> usize {
    1 + children(&policy.records[node - 1]).into_iter().map(|child| size(policy, child)).sum::<usize>()
}

pub fn words(policy: &Policy, names: &Names, node: usize) -> String {
    match size(policy, node) {
        size if size > LONGEST => format!("an expression of {size} nodes, with root {node}"),
        _ => written(policy, names, node),
    }
}

fn written(policy: &Policy, names: &Names, node: usize) -> String {
    let record = &policy.records[node - 1];
    let of = |child: usize| written(policy, names, child);
    let is = |field: &str, sort: Sort| format!("{field} = {}", names.short(sort, record.b as u32));
    match record.a {
        1 => format!("not ({})", of(record.left())),
        2 => format!("({} and {})", of(record.left()), of(record.right())),
        3 => format!("({} or {})", of(record.left()), of(record.right())),
        4 => "t1 = t2".to_string(),
        5 => "r1 = r2".to_string(),
        6 => "u1 = u2".to_string(),
        7 => is("t1", Sort::Type),
        8 => is("t2", Sort::Type),
        9 => is("r1", Sort::Role),
        10 => is("r2", Sort::Role),
        11 => is("u1", Sort::User),
        _ => is("u2", Sort::User),
    }
}
