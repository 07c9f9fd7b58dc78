//! Records drawn at random for the policies that images are written of.
use second_search::gen::Rng;
use second_search::policy::Record;

pub const TYPES: u32 = 255;
pub const ROLES: u32 = 4;
pub const USERS: u32 = 4;
pub const CLASSES: u32 = 8;

/// A record of kinds 1 to 7, most of them allows from a domain, and the first of the list a domain.
pub fn fact(rng: &mut Rng, domains: &mut Vec<u32>) -> Record {
    let (t, r, u, c) = (rng.range(1, TYPES), rng.range(1, ROLES), rng.range(1, USERS), rng.range(1, CLASSES));
    match rng.range(0, 19) {
        _ if domains.is_empty() => domain(t, domains),
        0 => domain(t, domains),
        1 => Record::new(2, c, 0, 0, rng.next() as u32),
        2 => Record::new(3, c, rng.range(1, 3), 0, rng.next() as u32),
        3 | 4 => Record::new(5, r, t, 0, 0),
        5 => Record::new(6, u, r, 0, 0),
        6 => Record::new(7, r, rng.range(1, ROLES), 0, 0),
        _ => Record::new(4, rng.pick(domains), t, c, 1 << rng.range(0, 31)),
    }
}

fn domain(t: u32, domains: &mut Vec<u32>) -> Record {
    domains.push(t);
    Record::new(1, t, 0, 0, 0)
}

/// A leaf, an operator over nodes that nothing uses yet, or a constraint on one; `records` are those that stand before it.
pub fn node(rng: &mut Rng, free: &mut Vec<usize>, records: usize) -> Record {
    let record = match (rng.range(0, 5), free.pop()) {
        (0, Some(root)) => return Record::constraint(rng.range(1, CLASSES), rng.next() as u32, root),
        (1, Some(child)) => Record::node(1, 0, child, 0),
        (2 | 3, Some(left)) => match free.pop() {
            Some(right) => Record::node(rng.range(2, 3), 0, left, right),
            None => Record::node(1, 0, left, 0),
        },
        (_, kept) => {
            free.extend(kept);
            Record::node(7, rng.range(1, TYPES), 0, 0)
        }
    };
    free.push(records + 1);
    record
}
