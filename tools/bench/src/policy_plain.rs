//! What the plain programs that write images share: a policy is read into vectors on the heap and checked there, and a list of records
//! is linked and written out. It is unproved. What it asks is what the library asks: questions 1 to 6 and 14, and 16.
use crate::fast_search::{u16at, u32at};
use flowgoal_calls::{policy_length, MOST_RECORDS};

pub struct Record {
    pub next: usize,
    pub kind: u8,
    /// a to e
    pub fields: [u8; 5],
    pub mask: u32,
}

pub struct Policy {
    /// types, roles, users and classes
    pub counts: [u8; 4],
    heads: [usize; 9],
    pub records: Vec<Record>,
}

/// The number of a question whose answer is no.
pub fn ask(number: u32, yes: bool) -> Result<(), u32> {
    if yes {
        Ok(())
    } else {
        Err(number)
    }
}

fn is(x: u8, most: u8) -> bool {
    1 <= x && x <= most
}

impl Record {
    fn read(bytes: &[u8]) -> Record {
        let fields = [bytes[3], bytes[4], bytes[5], bytes[6], bytes[7]];
        Record { next: u16at(bytes, 0), kind: bytes[2], fields, mask: u32at(bytes, 8) }
    }
    fn left(&self) -> usize {
        self.mask as usize & 0xffff
    }
    fn right(&self) -> usize {
        self.mask as usize >> 16
    }
    fn root(&self) -> usize {
        self.fields[3] as usize + 256 * self.fields[4] as usize
    }
    /// The nodes that it names: the children of a node, or the root of a constraint.
    fn named(&self) -> [Option<usize>; 2] {
        match (self.kind, self.fields[0]) {
            (8, _) => [Some(self.root()), None],
            (9, 1) => [Some(self.left()), None],
            (9, 2 | 3) => [Some(self.left()), Some(self.right())],
            _ => [None, None],
        }
    }
}

impl Policy {
    pub fn read(image: &[u8]) -> Result<Policy, u32> {
        ask(1, image.len() >= policy_length(0))?;
        ask(1, u16at(image, 4) <= MOST_RECORDS && image.len() == policy_length(u16at(image, 4)))?;
        let counts = [image[0], image[1], image[2], image[3]];
        let heads = [1, 2, 3, 4, 5, 6, 7, 8, 9].map(|kind| u16at(image, 4 + 2 * kind));
        let records = image[policy_length(0)..].chunks_exact(12).map(Record::read).collect();
        let policy = Policy { counts, heads, records };
        ask(2, counts.iter().zip([255, 15, 15, 31]).all(|(&count, most)| is(count, most)))?;
        ask(3, policy.links_rise())?;
        ask(4, policy.each_on_its_chain())?;
        ask(5, policy.records.iter().all(|r| policy.fields_fit(r)))?;
        ask(6, policy.nodes_fit())?;
        ask(14, policy.sources_are_domains())?;
        Ok(policy)
    }

    fn links_rise(&self) -> bool {
        let n = self.records.len();
        let rises = |(i, r): (usize, &Record)| r.next == 0 || (r.next > i + 1 && r.next <= n);
        self.heads.iter().all(|&head| head <= n) && self.records.iter().enumerate().all(rises)
    }

    /// The numbers of the records of a kind.
    pub fn chain(&self, kind: usize) -> impl Iterator<Item = usize> + '_ {
        let there = |k: usize| (k != 0).then_some(k);
        std::iter::successors(there(self.heads[kind - 1]), move |&k| there(self.records[k - 1].next))
    }

    fn each_on_its_chain(&self) -> bool {
        let mut met = vec![false; self.records.len()];
        for kind in 1..=9 {
            for k in self.chain(kind) {
                if self.records[k - 1].kind as usize != kind {
                    return false;
                }
                met[k - 1] = true;
            }
        }
        met.iter().all(|&met| met)
    }

    fn fields_fit(&self, r: &Record) -> bool {
        let ([types, roles, users, classes], [a, b, c, d, e]) = (self.counts, r.fields);
        let (rest, empty) = (c == 0 && d == 0 && e == 0, r.mask == 0);
        match r.kind {
            1 => is(a, types) && b == 0 && rest && empty,
            2 => is(a, classes) && b == 0 && rest,
            3 => is(a, classes) && is(b, 3) && rest,
            4 => is(a, types) && b <= types && is(c, classes) && d == 0 && e == 0,
            5 => is(a, roles) && is(b, types) && rest && empty,
            6 => is(a, users) && is(b, roles) && rest && empty,
            7 => is(a, roles) && is(b, roles) && rest && empty,
            8 => is(a, classes) && b == 0 && c == 0,
            _ => rest && self.node_fits(r),
        }
    }

    fn node_fits(&self, r: &Record) -> bool {
        let ([types, roles, users, _], [op, b, ..], empty) = (self.counts, r.fields, r.mask == 0);
        match op {
            1 => b == 0 && r.right() == 0,
            2 | 3 => b == 0,
            4..=6 => b == 0 && empty,
            7 | 8 => is(b, types) && empty,
            9 | 10 => is(b, roles) && empty,
            11 | 12 => is(b, users) && empty,
            _ => false,
        }
    }

    /// Children and roots are nodes, children stand below, and none is used twice.
    fn nodes_fit(&self) -> bool {
        let mut used = vec![false; self.records.len()];
        for (i, r) in self.records.iter().enumerate() {
            let most = if r.kind == 9 { i } else { used.len() };
            for k in r.named().into_iter().flatten() {
                if k == 0 || k > most || self.records[k - 1].kind != 9 || used[k - 1] {
                    return false;
                }
                used[k - 1] = true;
            }
        }
        true
    }

    fn sources_are_domains(&self) -> bool {
        let mut domains = vec![false; 256];
        for r in self.records.iter().filter(|r| r.kind == 1) {
            domains[r.fields[0] as usize] = true;
        }
        self.records.iter().all(|r| r.kind != 4 || domains[r.fields[0] as usize])
    }
}

/// A record with its nodes' new numbers, where `place` has those of its policy.
pub fn moved(r: &Record, place: &[usize]) -> Record {
    let ([a, b, c, d, e], mask) = (r.fields, r.mask);
    let child = |k: usize| if k == 0 { 0 } else { place[k - 1] as u32 };
    let (fields, mask) = match r.kind {
        8 => {
            let root = place[r.root() - 1];
            ([a, b, c, root as u8, (root >> 8) as u8], mask)
        }
        9 => (r.fields, child(r.left()) | child(r.right()) << 16),
        _ => ([a, b, c, d, e], mask),
    };
    Record { next: 0, kind: r.kind, fields, mask }
}

/// Links records whose kinds stand in turn, each kind by itself; gives the heads.
fn link(records: &mut [Record]) -> [usize; 9] {
    let mut heads = [0; 9];
    for i in (0..records.len()).rev() {
        let head = &mut heads[records[i].kind as usize - 1];
        records[i].next = *head;
        *head = i + 1;
    }
    heads
}

/// Writes the policy of these counts and records to the front of the output; gives its length, or 16.
pub fn write(counts: [u8; 4], mut records: Vec<Record>, output: &mut [u8]) -> Result<usize, u32> {
    let heads = link(&mut records);
    let mut image = Vec::with_capacity(policy_length(records.len()));
    image.extend(counts);
    for number in [records.len()].into_iter().chain(heads) {
        image.extend((number as u16).to_le_bytes());
    }
    for r in &records {
        image.extend((r.next as u16).to_le_bytes());
        image.push(r.kind);
        image.extend(r.fields);
        image.extend(r.mask.to_le_bytes());
    }
    ask(16, image.len() <= output.len())?;
    output[..image.len()].copy_from_slice(&image);
    Ok(image.len())
}
