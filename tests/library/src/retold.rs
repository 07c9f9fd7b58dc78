//! Policies that say the same in other records, and policies that nearly do.
use second_search::gen::Rng;
use second_search::policy::{Policy, Record};

/// A way to tell of a policy in other records; nothing where it has none that can be told so.
pub struct Way {
    pub words: &'static str,
    pub tell: fn(&mut Rng, &Policy) -> Option<Policy>,
}

const fn way(words: &'static str, tell: fn(&mut Rng, &Policy) -> Option<Policy>) -> Way {
    Way { words, tell }
}

/// Each says the same.
pub const SAME: [Way; 7] = [
    way("in another order", |rng, policy| Some(shuffled(rng, policy))),
    way("with a mask in two records", cut),
    way("with flow both ways in two records", parted),
    way("with two ways of flow in one record", paired),
    way("with a record repeated", repeated),
    way("with an empty mask more", with_empty),
    way("in all of these ways", |rng, policy| {
        let mut told = policy.clone();
        for _ in 0..rng.range(2, 8) {
            let one = &SAME[rng.range(0, 5) as usize];
            told = (one.tell)(rng, &told).unwrap_or(told);
        }
        Some(shuffled(rng, &told))
    }),
];

/// Each mostly says something else.
pub const NEAR: [Way; 17] = [
    way("with a larger count", with_larger_count),
    way("with a fact more", with_fact),
    way("with a fact less", without_fact),
    way("with a permission more", |rng, policy| changed(rng, policy, MASKED, |rng, r| r.mask |= 1 << rng.range(0, 31))),
    way("with a permission less", |rng, policy| changed(rng, policy, MASKED, |rng, r| r.mask &= !(1 << rng.range(0, 31)))),
    way("with one permission less of the lowest", |rng, policy| {
        changed(rng, policy, MASKED, |_, r| r.mask &= r.mask.wrapping_sub(1))
    }),
    way("with self for the type itself, or the type for self", |rng, policy| {
        changed(rng, policy, |r| r.kind == 4 && (r.b == 0 || r.b == r.a), |_, r| r.b = if r.b == 0 { r.a } else { 0 })
    }),
    way("with another way of flow", |rng, policy| changed(rng, policy, |r| r.kind == 3, |_, r| r.b = r.b % 3 + 1)),
    way("with another class", |rng, policy| {
        let classes = policy.classes as u8;
        changed(rng, policy, |r| r.kind == 4, move |_, r| r.c = r.c % classes + 1)
    }),
    way("with two constraints in each other's place", |rng, policy| {
        let (i, j) = two(rng, policy, |r| r.kind == 8)?;
        Some(exchanged(policy, i, j))
    }),
    way("with the roots of two constraints exchanged", |rng, policy| {
        let (i, j) = two(rng, policy, |r| r.kind == 8)?;
        let (mut told, [r, s]) = (policy.clone(), [policy.records[i], policy.records[j]]);
        (told.records[i], told.records[j]) = (r.with_root(s.root()), s.with_root(r.root()));
        Some(told)
    }),
    way("with the mask of a constraint changed", |rng, policy| {
        changed(rng, policy, |r| r.kind == 8, |rng, r| r.mask ^= 1 << rng.range(0, 31))
    }),
    way("with a constraint less", |rng, policy| {
        let left_out = some(rng, policy, |r| r.kind == 8)?;
        Some(without(policy, |i, _| i == left_out))
    }),
    way("with two nodes in each other's place", swapped_nodes),
    way("with left and right in each other's place", |rng, policy| {
        changed(rng, policy, |r| r.kind == 9 && (r.a == 2 || r.a == 3), |_, r| *r = r.with_children(r.right(), r.left()))
    }),
    way("with another operator", |rng, policy| {
        let other = |a: u16| [0, 1, 3, 2, 5, 6, 4, 8, 7, 10, 9, 12, 11][a as usize];
        changed(rng, policy, |r| r.kind == 9, move |_, r| r.a = other(r.a))
    }),
    way("with a node more", |rng, policy| {
        let mut told = policy.clone();
        told.records.push(Record::node(rng.range(4, 6), 0, 0, 0));
        Some(told)
    }),
];

const MASKED: fn(&Record) -> bool = |r| (2..=4).contains(&r.kind);

/// The place of a record of such ones, drawn at random.
fn some(rng: &mut Rng, policy: &Policy, of: impl Fn(&Record) -> bool) -> Option<usize> {
    let places: Vec<usize> = (0..policy.records.len()).filter(|&i| of(&policy.records[i])).collect();
    (!places.is_empty()).then(|| rng.pick(&places))
}

/// The places of two of them, the first one lower.
fn two(rng: &mut Rng, policy: &Policy, of: impl Fn(&Record) -> bool) -> Option<(usize, usize)> {
    let (i, j) = (some(rng, policy, &of)?, some(rng, policy, &of)?);
    (i != j).then_some((i.min(j), i.max(j)))
}

/// One of such records changed.
fn changed(
    rng: &mut Rng,
    policy: &Policy,
    of: impl Fn(&Record) -> bool,
    change: impl FnOnce(&mut Rng, &mut Record),
) -> Option<Policy> {
    let (place, mut told) = (some(rng, policy, of)?, policy.clone());
    change(rng, &mut told.records[place]);
    Some(told)
}

/// The records of these places in this order; what a constraint or a node uses is the same as before.
fn reordered(policy: &Policy, order: &[usize]) -> Policy {
    let mut number = vec![0; policy.records.len() + 1];
    for (new, &old) in order.iter().enumerate() {
        number[old + 1] = new + 1;
    }
    let moved = |r: Record| match (r.kind, r.a) {
        (8, _) => r.with_root(number[r.root()]),
        (9, 1..=3) => r.with_children(number[r.left()], number[r.right()]),
        _ => r,
    };
    let records = order.iter().map(|&old| moved(policy.records[old])).collect();
    Policy { records, ..policy.clone() }
}

/// Without such records, none of which is a node.
fn without(policy: &Policy, left_out: impl Fn(usize, &Record) -> bool) -> Policy {
    let kept: Vec<usize> = (0..policy.records.len()).filter(|&i| !left_out(i, &policy.records[i])).collect();
    reordered(policy, &kept)
}

/// With two records in each other's place.
fn exchanged(policy: &Policy, i: usize, j: usize) -> Policy {
    let mut order: Vec<usize> = (0..policy.records.len()).collect();
    order.swap(i, j);
    reordered(policy, &order)
}

/// In any order, but for the constraints among themselves and the nodes among themselves.
fn shuffled(rng: &mut Rng, policy: &Policy) -> Policy {
    let mut order: Vec<usize> = (0..policy.records.len()).collect();
    for i in (1..order.len()).rev() {
        order.swap(i, rng.range(0, i as u32) as usize);
    }
    for kind in [8, 9] {
        let mut in_turn = (0..policy.records.len()).filter(|&i| policy.records[i].kind == kind);
        for place in order.iter_mut().filter(|place| policy.records[**place].kind == kind) {
            *place = in_turn.next().expect("as many places as records of the kind");
        }
    }
    reordered(policy, &order)
}

/// With more records, at the end or anywhere.
fn with(rng: &mut Rng, policy: &Policy, more: &[Record]) -> Policy {
    let mut told = policy.clone();
    told.records.extend(more);
    if rng.chance(50) {
        shuffled(rng, &told)
    } else {
        told
    }
}

/// A mask in two parts, which may overlap.
fn cut(rng: &mut Rng, policy: &Policy) -> Option<Policy> {
    let (place, mut told) = (some(rng, policy, MASKED)?, policy.clone());
    let (r, part, more) = (policy.records[place], rng.next() as u32, rng.next() as u32);
    told.records[place].mask = r.mask & part;
    Some(with(rng, &told, &[Record { mask: r.mask & (!part | more), ..r }]))
}

/// Flow both ways as a record for each.
fn parted(rng: &mut Rng, policy: &Policy) -> Option<Policy> {
    let (place, mut told) = (some(rng, policy, |r| r.kind == 3 && r.b == 3)?, policy.clone());
    let r = policy.records[place];
    told.records[place].b = 1;
    Some(with(rng, &told, &[Record { b: 2, ..r }]))
}

/// The permissions of a class that flow both ways in one record, and the others in one for each way.
fn paired(rng: &mut Rng, policy: &Policy) -> Option<Policy> {
    let class = policy.records[some(rng, policy, |r| r.kind == 3 && r.b != 3)?].a;
    let of_class = |r: &Record| r.kind == 3 && r.a == class;
    let flows = policy.records.iter().filter(|r| of_class(r));
    let [write, read] = [1, 2].map(|b| flows.clone().filter(|r| r.b & b != 0).fold(0, |mask, r| mask | r.mask));
    let both = write & read;
    let record = |b, mask| Record::new(3, class as u32, b, 0, mask);
    let told = without(policy, |_, r| of_class(r));
    (both != 0).then(|| with(rng, &told, &[record(2, read & !both), record(3, both), record(1, write & !both)]))
}

fn repeated(rng: &mut Rng, policy: &Policy) -> Option<Policy> {
    let place = some(rng, policy, |r| r.kind <= 7)?;
    Some(with(rng, policy, &[policy.records[place]]))
}

/// Any key in range with no permission.
fn with_empty(rng: &mut Rng, policy: &Policy) -> Option<Policy> {
    let (class, target) = (rng.range(1, policy.classes), rng.range(0, policy.types));
    let record = match rng.range(2, 4) {
        4 => Record::new(4, policy.records[some(rng, policy, |r| r.kind == 1)?].a as u32, target, class, 0),
        3 => Record::new(3, class, rng.range(1, 3), 0, 0),
        _ => Record::new(2, class, 0, 0, 0),
    };
    Some(with(rng, policy, &[record]))
}

fn with_larger_count(rng: &mut Rng, policy: &Policy) -> Option<Policy> {
    let mut told = policy.clone();
    let (count, most) = match rng.range(0, 3) {
        0 => (&mut told.types, 255),
        1 => (&mut told.roles, 15),
        2 => (&mut told.users, 15),
        _ => (&mut told.classes, 31),
    };
    *count += 1;
    (*count <= most).then_some(told)
}

/// A record of kinds 1, 5, 6 or 7 in range.
fn with_fact(rng: &mut Rng, policy: &Policy) -> Option<Policy> {
    let [t, r, s, u] = [policy.types, policy.roles, policy.roles, policy.users].map(|count| rng.range(1, count));
    let facts = [Record::new(1, t, 0, 0, 0), Record::new(5, r, t, 0, 0), Record::new(6, u, r, 0, 0), Record::new(7, r, s, 0, 0)];
    let fact = rng.pick(&facts);
    Some(with(rng, policy, &[fact]))
}

/// A fact of those kinds, with all records that say it.
fn without_fact(rng: &mut Rng, policy: &Policy) -> Option<Policy> {
    let fact = policy.records[some(rng, policy, |r| [1, 5, 6, 7].contains(&r.kind))?];
    Some(without(policy, |_, r| *r == fact))
}

/// Two nodes next to each other in their list, of which the second does not use the first.
fn swapped_nodes(rng: &mut Rng, policy: &Policy) -> Option<Policy> {
    let nodes: Vec<usize> = (0..policy.records.len()).filter(|&i| policy.records[i].kind == 9).collect();
    let second = rng.range(1, (nodes.len() as u32).checked_sub(1)?.max(1)) as usize;
    let (i, j) = (*nodes.get(second - 1)?, *nodes.get(second)?);
    let user = policy.records[j];
    let uses = (1..=3).contains(&user.a) && (user.left() == i + 1 || user.right() == i + 1);
    (!uses).then(|| exchanged(policy, i, j))
}
