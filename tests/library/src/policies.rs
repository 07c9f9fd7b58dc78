//! The pairs of policies that are joined: of every sort in each case.
use crate::cases::{landed, Case};
use flowgoal_calls::MOST_RECORDS;
use second_search::gen::{damage, Rng};
use second_search::policy::{check_policy_landed, Policy, Record};
use second_search::vary::{filled, landed_case, pair};

/// One case in so many has pairs with about as many records as a policy may have.
const LARGE: u32 = 100;

/// Of so many joined policies in a hundred all other questions are asked.
const ASKED_OF: u32 = 25;

/// A maker's policy and a board's.
pub struct Policies {
    pub sort: &'static str,
    pub maker: Vec<u8>,
    pub board: Vec<u8>,
    /// Is the goal of the case, and all else, asked of the joined policy too?
    pub asked_of: bool,
}

impl Policies {
    fn new(sort: &'static str, maker: Vec<u8>, board: Vec<u8>) -> Policies {
        Policies { sort, maker, board, asked_of: false }
    }
}

/// Policies drawn at random to go with one.
struct Drawer<'a> {
    image: &'a [u8],
    /// what the image says, where it is accepted
    policy: Option<Policy>,
    rng: Rng,
}

impl Drawer<'_> {
    /// The policy and another one, either of them the maker's.
    fn either(&mut self, sort: &'static str, other: Vec<u8>) -> Policies {
        match self.rng.chance(50) {
            true => Policies::new(sort, self.image.to_vec(), other),
            false => Policies::new(sort, other, self.image.to_vec()),
        }
    }

    /// Another one, which repeats some of the records of this one; of an allow the domain too, but for some.
    fn repeating(&mut self) -> Vec<u8> {
        let size = self.rng.pick(&[1, 2, 3, 5, 8, 12]);
        let (mut other, _) = landed_case(&mut self.rng, size, landed());
        let share = self.rng.pick(&[0, 10, 40]);
        if let (Some(policy), true) = (&self.policy, share > 0) {
            other.types = other.types.max(policy.types);
            other.roles = other.roles.max(policy.roles);
            other.users = other.users.max(policy.users);
            other.classes = other.classes.max(policy.classes);
            let domains = if self.rng.chance(80) { 100 } else { 0 };
            for r in policy.records.iter().filter(|r| r.kind <= 7) {
                if !self.rng.chance(share) {
                    continue;
                }
                if r.kind == 4 && self.rng.chance(domains) {
                    other.records.push(Record::new(1, r.a as u32, 0, 0, 0));
                }
                other.records.push(*r);
            }
        }
        other.encode()
    }

    fn damaged(&mut self) -> Vec<u8> {
        let size = self.rng.range(1, 8);
        let mut image = landed_case(&mut self.rng, size, landed()).0.encode();
        damage(&mut self.rng, &mut image, false);
        image
    }

    /// One without records, of any counts; at times without any bytes.
    fn empty(&mut self) -> Vec<u8> {
        if self.rng.chance(5) {
            return Vec::new();
        }
        let [types, roles, users, classes] = [255, 15, 15, 31].map(|most| self.rng.range(1, most));
        Policy::new(types, roles, users, classes).encode()
    }

    /// One of so many records, with many nodes or with few.
    fn of_records(&mut self, records: usize) -> Vec<u8> {
        match records {
            0 => Policy::new(1, 1, 1, 1).encode(),
            // the second search's have 39 at the least
            39.. if self.rng.chance(50) => filled(&mut self.rng, landed(), records, 3).encode(),
            _ => with_nodes(&mut self.rng, records).encode(),
        }
    }

    /// Pairs of about as many records together as a policy may have, some with a policy that is damaged.
    fn large(&mut self) -> Vec<Policies> {
        let (some, few) = (self.rng.range(1, MOST_RECORDS as u32 - 1) as usize, self.rng.range(1, 50) as usize);
        let mut drawn = |sort, maker, board| Policies::new(sort, self.of_records(maker), self.of_records(board));
        let mut all = vec![
            drawn("two with just as many records as there may be", some, MOST_RECORDS - some),
            drawn("two with one record too many", some, MOST_RECORDS - some + 1),
            drawn("a policy with no room for records and one without any", MOST_RECORDS, 0),
            drawn("a large policy and a damaged one", MOST_RECORDS, few),
            drawn("a damaged policy and a large one", few, MOST_RECORDS),
        ];
        damage(&mut self.rng, &mut all[3].board, false);
        damage(&mut self.rng, &mut all[4].maker, false);
        all
    }
}

/// A leaf of a constraint.
fn leaf(rng: &mut Rng, policy: &Policy) -> Record {
    let op = rng.range(4, 12);
    let most = match op {
        4..=6 => return Record::node(op, 0, 0, 0),
        7 | 8 => policy.types,
        9 | 10 => policy.roles,
        _ => policy.users,
    };
    Record::node(op, rng.range(1, most), 0, 0)
}

/// A policy of so many records, more than half of them nodes and constraints, the kinds mixed.
pub fn with_nodes(rng: &mut Rng, records: usize) -> Policy {
    let [types, roles, users, classes] = [255, 15, 15, 31].map(|most| rng.range(1, most));
    let mut policy = Policy::new(types, roles, users, classes);
    // nodes that nothing uses yet
    let mut free: Vec<usize> = Vec::new();
    while policy.records.len() < records {
        let unused = free.len();
        let mut used = |rng: &mut Rng| free.swap_remove(rng.range(0, free.len() as u32 - 1) as usize);
        let record = match (rng.range(0, 9), unused) {
            (0, _) => Record::new(1, rng.range(1, types), 0, 0, 0),
            (1, _) => Record::new(2, rng.range(1, classes), 0, 0, rng.next() as u32),
            (2, _) => Record::new(7, rng.range(1, roles), rng.range(1, roles), 0, 0),
            (3, 1..) => Record::node(1, 0, used(rng), 0),
            (4 | 5, 2..) => Record::node(rng.range(2, 3), 0, used(rng), used(rng)),
            (6, 1..) => Record::constraint(rng.range(1, classes), rng.next() as u32, used(rng)),
            _ => leaf(rng, &policy),
        };
        policy.records.push(record);
        if record.kind == 9 {
            free.push(policy.records.len());
        }
    }
    policy
}

/// The pairs of a case: two drawn by the second search; the case's policy with one that repeats records of it, with a damaged one,
/// with an empty one and with itself; and at times large ones. They hang on the case alone, and leave its own choices as they are.
pub fn pairs(case: &Case) -> Vec<Policies> {
    let policy = check_policy_landed(landed(), &case.policy).ok();
    let mut drawer = Drawer { image: &case.policy, policy, rng: Rng(case.rng.0 ^ 0xC) };
    let size = drawer.rng.range(1, 5);
    let (maker, board) = pair(&mut drawer.rng, size, landed());
    let (repeating, damaged, empty) = (drawer.repeating(), drawer.damaged(), drawer.empty());
    let mut all = vec![
        Policies::new("a policy and a board", maker.encode(), board.encode()),
        drawer.either("a policy and one that repeats records of it", repeating),
        drawer.either("a policy and a damaged one", damaged),
        drawer.either("a policy and an empty one", empty),
        drawer.either("a policy and itself", case.policy.clone()),
    ];
    all[1].asked_of = drawer.rng.chance(ASKED_OF);
    if drawer.rng.range(1, LARGE) == 1 {
        all.extend(drawer.large());
    }
    all
}
