//! The images that are measured, made from fixed seeds. Each has as many allow records as its size says; the rest of its
//! records make as many types domains, held by every role, as there is room for.
use flowgoal_calls::MOST_RECORDS;
use second_search::gen::Rng;
use second_search::goal::{Goal, Item, GAMMA};
use second_search::policy::{Policy, Record};

/// The permissions that each allow record has.
#[derive(Clone, Copy, PartialEq, Eq)]
pub enum Masks {
    OneBit,
    /// One to eight bits, as rules of real policies have.
    Few,
    All,
}

/// What the constraints say; the node that says it stands under so many nots.
#[derive(Clone, Copy, PartialEq, Eq)]
pub enum Says {
    /// The same user, or the acting role is the first: half of all pairs pass.
    SameUserOrRole1,
    SameUser,
    SameRole,
    /// The same user, or the same type and role, and neither user is the last: every context is told from every other, and of every type
    /// the last user's contexts are left to the end.
    NotLastUser,
}

impl Says {
    /// How many nodes say it.
    fn nodes(self) -> u32 {
        match self {
            Says::SameUser | Says::SameRole => 1,
            Says::SameUserOrRole1 => 3,
            Says::NotLastUser => 10,
        }
    }
}

/// How the records of an image stand.
#[derive(Clone, Copy, PartialEq, Eq)]
pub enum Order {
    /// As they are made: kind by kind, allows at random.
    Made,
    Random,
    Sorted,
    Reversed,
}

#[derive(Clone, Copy, PartialEq, Eq)]
pub enum Goals {
    /// No path reaches the end, and every context that may be is reached.
    Holds,
    /// Types in a line, with every other allow leading back: the only way to the end is all along it.
    LongPath,
    /// The policy of `Holds`, asked from one context that nothing flows from: each search enters one node.
    OneNode,
}

#[derive(Clone, Copy)]
pub struct Size {
    pub types: u32,
    pub roles: u32,
    pub users: u32,
    pub classes: u32,
    pub allows: u32,
    pub legs: usize,
    pub constraints: u32,
    pub says: Says,
    /// An even number of nots keeps what is said.
    pub nested: u32,
    /// How many types are domains, where that is fixed.
    pub crowd: Option<u32>,
    pub order: Order,
    pub masks: Masks,
    pub goal: Goals,
}

impl Size {
    pub fn contexts(&self) -> usize {
        (self.types * self.roles * self.users) as usize
    }
    pub fn nodes(&self) -> usize {
        self.contexts() << self.legs
    }
    /// The nodes of a constraint: what it says, and the nots above that.
    fn nodes_of_a_constraint(&self) -> u32 {
        self.says.nodes() + self.nested
    }
    fn frame_records(&self) -> u32 {
        3 * self.classes + self.users * (self.roles - 1) + (1 + self.nodes_of_a_constraint()) * self.constraints
    }
    /// About how many times a search without memory that enters so many nodes evaluates a node of an expression: from each of them for
    /// every allow record of its type and every context of the other; for order once, and for events for each way to be in the γ sets.
    pub fn evaluated(&self, entered: usize) -> f64 {
        if self.constraints == 0 {
            return 0.0;
        }
        let targets = 2.0 * self.allows as f64 / self.types as f64 * (self.roles * self.users) as f64;
        let ways = (1.0 + 2f64.powi(self.legs as i32).min(32.0)) / 2.0;
        entered as f64 * targets * ways * self.nodes_of_a_constraint() as f64
    }
    fn domains(&self) -> u32 {
        let room = MOST_RECORDS as u32 - self.allows - self.frame_records();
        let most = (room / (1 + self.roles)).min(self.types - 1);
        self.crowd.map_or(most, |domains| domains.min(most))
    }
    pub fn images(&self, seed: u64) -> (Vec<u8>, Vec<u8>) {
        let mut maker = Maker { size: *self, rng: Rng(seed), records: vec![] };
        maker.frame();
        let end = match self.goal {
            Goals::Holds | Goals::OneNode => maker.all_reached(),
            Goals::LongPath => maker.line(),
        };
        let Size { types, roles, users, classes, .. } = *self;
        let goal = maker.goal(end).encode();
        maker.arrange();
        (Policy { records: maker.records, ..Policy::new(types, roles, users, classes) }.encode(), goal)
    }
}

struct Maker {
    size: Size,
    rng: Rng,
    records: Vec<Record>,
}

/// Even permissions are write-like and odd ones read-like.
const WRITES: u32 = 0x5555_5555;

impl Maker {
    /// Domains are spread evenly over the types; type 1 is one, and the last is none.
    fn is_domain(&self, t: u32) -> bool {
        let (others, domains) = (self.size.types - 1, self.size.domains());
        let before = |t: u32| (t * domains).div_ceil(others);
        t <= others && before(t) != before(t - 1)
    }
    fn add(&mut self, kind: u8, a: u32, b: u32, c: u32, mask: u32) {
        self.records.push(Record::new(kind, a, b, c, mask));
    }

    fn frame(&mut self) {
        let Size { types, roles, users, classes, .. } = self.size;
        for t in (1..=types).filter(|&t| self.is_domain(t)).collect::<Vec<_>>() {
            self.add(1, t, 0, 0, 0);
            (1..=roles).for_each(|r| self.add(5, r, t, 0, 0));
        }
        for u in 1..=users {
            (2..=roles).for_each(|r| self.add(6, u, r, 0, 0));
        }
        for c in 1..=classes {
            self.add(2, c, 0, 0, u32::MAX);
            self.add(3, c, 1, 0, WRITES);
            self.add(3, c, 2, 0, !WRITES);
        }
        for k in 0..self.size.constraints {
            // on one class each
            let root = self.said();
            self.records.push(Record::constraint(k % classes + 1, u32::MAX, root));
        }
    }

    /// The nodes of a constraint, and the number of their root.
    fn said(&mut self) -> usize {
        let at = self.records.len();
        match self.size.says {
            Says::SameUserOrRole1 => {
                self.records.push(Record::node(6, 0, 0, 0));
                self.records.push(Record::node(9, 1, 0, 0));
                self.records.push(Record::node(3, 0, at + 1, at + 2));
            }
            Says::SameUser => self.records.push(Record::node(6, 0, 0, 0)),
            Says::SameRole => self.records.push(Record::node(5, 0, 0, 0)),
            Says::NotLastUser => {
                self.records.push(Record::node(4, 0, 0, 0));
                self.records.push(Record::node(5, 0, 0, 0));
                self.records.push(Record::node(2, 0, at + 1, at + 2));
                self.records.push(Record::node(6, 0, 0, 0));
                self.records.push(Record::node(3, 0, at + 3, at + 4));
                self.records.push(Record::node(11, self.size.users, 0, 0));
                self.records.push(Record::node(12, self.size.users, 0, 0));
                self.records.push(Record::node(3, 0, at + 6, at + 7));
                self.records.push(Record::node(1, 0, at + 8, 0));
                self.records.push(Record::node(2, 0, at + 5, at + 9));
            }
        }
        for _ in 0..self.size.nested {
            let below = self.records.len();
            self.records.push(Record::node(1, 0, below, 0));
        }
        self.records.len()
    }

    /// Puts the allow records into their order; the records of other kinds stay where they are.
    fn arrange(&mut self) {
        let places: Vec<usize> = (0..self.records.len()).filter(|&i| self.records[i].kind == 4).collect();
        let mut allows: Vec<Record> = places.iter().map(|&i| self.records[i]).collect();
        let key = |r: &Record| (r.a, r.b, r.c);
        match self.size.order {
            Order::Made => return,
            Order::Random => (1..allows.len()).rev().for_each(|i| allows.swap(i, self.rng.range(0, i as u32) as usize)),
            Order::Sorted => allows.sort_by_key(key),
            Order::Reversed => {
                allows.sort_by_key(key);
                allows.reverse()
            }
        }
        places.into_iter().zip(allows).for_each(|(i, r)| self.records[i] = r);
    }

    /// An allow that lets information go from one type to the other, where one of them is a domain; a class and permissions at
    /// random. With one bit the direction is that of the bit, with all bits there is flow both ways.
    fn allow(&mut self, from: u32, to: u32) {
        let class = self.rng.range(1, self.size.classes);
        // permission 0 of class 1 is the transition, which asks for more
        let bit = 2 * self.rng.range(1, 15);
        let (source, target, bit) = if self.is_domain(from) { (from, to, bit) } else { (to, from, bit + 1) };
        let mask = match self.size.masks {
            Masks::OneBit => 1 << bit,
            Masks::Few => (0..self.rng.range(0, 7)).fold(1 << bit, |mask, _| mask | 1 << self.rng.range(2, 31)),
            Masks::All => u32::MAX,
        };
        self.add(4, source, target, class, mask);
    }
    /// The first domain from the type on, or from the first type on where there is none.
    fn domain_from(&self, t: u32) -> u32 {
        (t..self.size.types).chain(1..t).find(|&d| self.is_domain(d)).expect("type 1 is a domain")
    }

    /// Every type but the last is reached from every other; nothing reaches the last, which is the end.
    fn all_reached(&mut self) -> u32 {
        let before = self.records.len();
        let end = self.size.types;
        for t in 1..end {
            let next = self.domain_from(t + 1);
            if !self.is_domain(t) {
                self.allow(next, t);
            }
            self.allow(t, next);
        }
        while self.records.len() - before < self.size.allows as usize {
            let (from, to) = (self.rng.range(1, end - 1), self.rng.range(1, end - 1));
            if self.is_domain(from) || self.is_domain(to) {
                self.allow(from, to);
            }
        }
        self.records.truncate(before + self.size.allows as usize);
        end
    }

    /// A line of types from the first one: a domain and another type in turn, and then the domains that are left. Each leads to
    /// the next, and every other allow to one before. Masks have one bit: more would lead both ways. Gives the end of the line.
    fn line(&mut self) -> u32 {
        let (domains, others): (Vec<u32>, Vec<u32>) = (1..=self.size.types).partition(|&t| self.is_domain(t));
        let pairs = domains.len().min(others.len());
        let mut line: Vec<u32> = domains.iter().zip(&others).flat_map(|(&d, &o)| [d, o]).collect();
        line.extend(&domains[pairs..]);
        let before = self.records.len();
        for step in line.windows(2) {
            self.allow(step[0], step[1]);
        }
        let last = line.len() as u32 - 1;
        while self.records.len() - before < self.size.allows as usize {
            let (i, j) = (self.rng.range(0, last), self.rng.range(0, last));
            let (from, to) = (line[i.max(j) as usize], line[i.min(j) as usize]);
            if self.is_domain(from) || self.is_domain(to) {
                self.allow(from, to);
            }
        }
        line[last as usize]
    }

    fn goal(&mut self, end: u32) -> Goal {
        let Size { types, classes, legs, goal, .. } = self.size;
        let mut items = match goal {
            Goals::OneNode => vec![(0, Item::Sigma { t: end, r: 1, u: 1 }), (legs, Item::Sigma { t: 1, r: 0, u: 0 })],
            _ => vec![(0, Item::Sigma { t: 1, r: 0, u: 0 }), (legs, Item::Sigma { t: end, r: 0, u: 0 })],
        };
        // with a long path the set before the end stays empty, so that the path breaks order, or events where there is one leg
        let inner = if goal == Goals::LongPath { legs - 1 } else { legs };
        for i in 1..inner {
            for _ in 0..types / 8 {
                items.push((i, Item::Sigma { t: self.rng.range(1, types - 1), r: 0, u: 0 }));
            }
        }
        for i in 0..if goal != Goals::LongPath || legs > 1 { legs } else { 0 } {
            for c in 1..=classes.min(8) {
                items.push((GAMMA + i, Item::Gamma { c, mask: self.rng.next() as u32 | self.rng.next() as u32 }));
            }
        }
        items.truncate(255);
        Goal { n: legs, flags: (1 << legs) - 1, items }
    }
}
