//! The policies whose canonical images are asked for: of every sort in each case.
use crate::cases::{landed, Case};
use crate::policies::with_nodes;
use flowgoal_calls::MOST_RECORDS;
use second_search::gen::{damage, Rng};
use second_search::policy::{Policy, Record};
use second_search::vary::filled;

/// Of so many of the policies in a hundred that are not the case's own all other questions are asked.
const ASKED_OF: u32 = 10;

/// One case in so many has policies with about as many records as a policy may have.
const LARGE: u32 = 100;

/// The classes that a policy may have: each can have permissions that flow both ways, which make a record more.
const CLASSES: usize = 31;

/// A policy that may say things more than once, in any order.
pub struct Loose {
    pub sort: &'static str,
    pub image: Vec<u8>,
    /// Is the goal of the case, and all else, asked of its canonical image too?
    pub asked_of: bool,
}

impl Loose {
    fn new(sort: &'static str, image: Vec<u8>) -> Loose {
        Loose { sort, image, asked_of: false }
    }
}

/// A mask: often empty, or one that shares bits with others.
fn mask(rng: &mut Rng) -> u32 {
    let (one, some) = (1 << rng.range(0, 31), rng.next() as u32);
    rng.pick(&[0, 0, 1, 3, 6, one, one, some, u32::MAX])
}

/// A record of kinds 1 to 7 with one of a few keys.
fn fact(rng: &mut Rng, keys: u32) -> Record {
    let (x, y, z) = (rng.range(1, keys), rng.range(1, keys), rng.range(1, keys));
    match rng.range(1, 10) {
        1 => Record::new(1, x, 0, 0, 0),
        2 => Record::new(2, x, 0, 0, mask(rng)),
        3 | 4 => Record::new(3, x, rng.range(1, 3), 0, mask(rng)),
        5 => Record::new(5, x, y, 0, 0),
        6 => Record::new(6, x, y, 0, 0),
        7 => Record::new(7, x, y, 0, 0),
        // self, the type itself, and others
        _ => Record::new(4, x, rng.pick(&[0, 0, x, y]), z, mask(rng)),
    }
}

/// A leaf that says which of few types, roles or users a context has, or that both have the same.
fn leaf(rng: &mut Rng, keys: u32) -> Record {
    let op = rng.range(4, 12);
    Record::node(op, if op < 7 { 0 } else { rng.range(1, keys) }, 0, 0)
}

/// A node over some that nothing uses, or a leaf; or a constraint on one, with any mask.
fn expression(rng: &mut Rng, keys: u32, unused: &mut Vec<usize>) -> Record {
    let there = unused.len();
    let mut used = |rng: &mut Rng| unused.swap_remove(rng.range(0, unused.len() as u32 - 1) as usize);
    match (rng.range(0, 5), there) {
        (0, 1..) => Record::node(1, 0, used(rng), 0),
        (1, 2..) => Record::node(rng.range(2, 3), 0, used(rng), used(rng)),
        (2 | 3, 1..) => Record::constraint(rng.range(1, keys), mask(rng), used(rng)),
        _ => leaf(rng, keys),
    }
}

/// A policy of so many records over few keys, so that most are met again, with nodes between them of which some stay unused.
pub fn crowded(rng: &mut Rng, records: usize) -> Policy {
    let keys = rng.range(1, 4);
    let [types, roles, users, classes] = [255, 15, 15, 31].map(|most| if rng.chance(50) { keys } else { rng.range(keys, most) });
    let mut policy = Policy::new(types, roles, users, classes);
    let (nodes, mut unused) = (rng.pick(&[0, 10, 40]), Vec::new());
    while policy.records.len() < records {
        let record = match rng.chance(nodes) {
            true => expression(rng, keys, &mut unused),
            false => fact(rng, keys),
        };
        policy.records.push(record);
        if record.kind == 9 {
            unused.push(policy.records.len());
        }
    }
    // every source is a domain, in most of them
    if !rng.chance(5) {
        let domains: Vec<Record> = (1..=keys).map(|t| Record::new(1, t, 0, 0, 0)).collect();
        policy.records.extend(domains);
    }
    policy
}

/// Policies of about as many records as there may be, before or after they are written: three, and one of some others.
fn large(rng: &mut Rng) -> Vec<Loose> {
    let both = rng.range(1, CLASSES as u32) as usize;
    let few = rng.range(1, both as u32) as usize;
    let mut united = filled(rng, landed(), MOST_RECORDS - 1000, CLASSES);
    united.records.extend((0..1000).map(|_| Record::new(3, rng.range(1, CLASSES as u32), 3, 0, 1)));
    let drawn = |sort, policy: Policy| Loose::new(sort, policy.encode());
    let other = match rng.range(1, 4) {
        1 => drawn("a policy of which few records are left", crowded(rng, MOST_RECORDS - 4)),
        2 => drawn("a policy of many nodes", with_nodes(rng, MOST_RECORDS)),
        3 => drawn("a policy that has more records than there may be", filled(rng, landed(), MOST_RECORDS - both + few, both)),
        _ => {
            let mut image = filled(rng, landed(), MOST_RECORDS - both + few, both).encode();
            damage(rng, &mut image, false);
            Loose::new("a damaged policy with too many records", image)
        }
    };
    vec![
        drawn("a policy that has just as many records as there may be", filled(rng, landed(), MOST_RECORDS - both, both)),
        drawn("a policy that has one record too many", filled(rng, landed(), MOST_RECORDS - both + 1, both)),
        drawn("a policy that has too many records until they are united", united),
        other,
    ]
}

/// One of nodes, a damaged one, or one without records, of any counts.
fn another(rng: &mut Rng) -> Loose {
    let records = rng.range(1, 40) as usize;
    match rng.range(1, 3) {
        1 => Loose::new("a policy with nodes", with_nodes(rng, records).encode()),
        2 => {
            let mut image = crowded(rng, records).encode();
            damage(rng, &mut image, false);
            Loose::new("a damaged policy", image)
        }
        _ => {
            let [types, roles, users, classes] = [255, 15, 15, 31].map(|most| rng.range(1, most));
            Loose::new("an empty policy", Policy::new(types, roles, users, classes).encode())
        }
    }
}

/// The policies of a case: its own, one that says things more than once, and another; and at times large ones. They hang on the case
/// alone, and leave its own choices as they are.
pub fn policies(case: &Case) -> Vec<Loose> {
    let mut rng = Rng(case.rng.0 ^ 0xE);
    let records = if rng.chance(50) { rng.range(1, 6) } else { rng.range(7, 60) };
    let mut all = vec![
        Loose::new("a policy", case.policy.clone()),
        Loose::new("a policy of few keys", crowded(&mut rng, records as usize).encode()),
        another(&mut rng),
    ];
    if rng.range(1, LARGE) == 1 {
        all.extend(large(&mut rng));
    }
    all[0].asked_of = true;
    all[1..].iter_mut().for_each(|policy| policy.asked_of = rng.chance(ASKED_OF));
    all
}
