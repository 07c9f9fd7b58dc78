//! What two policies say, compared: their counts, their facts of kinds 1 to 7 as sets, and their lists of constraints and nodes. This is
//! the tool's own reading of what a canonical image keeps (request e of paper 02).
use crate::names::Names;
use crate::text;
use second_search::policy::{Policy, Record};
use std::collections::{BTreeMap, BTreeSet, HashMap};

/// Kind, a, b and c of records that say the same up to their permissions.
type Key = (u8, u32, u32, u32);

/// The facts of kinds 1 to 7, with the permissions of kinds 2 to 4; flow both ways is flow either way.
fn facts(policy: &Policy) -> BTreeMap<Key, u32> {
    let mut facts = BTreeMap::new();
    for record in policy.records.iter().filter(|record| record.kind <= 7) {
        let ways = if (record.kind, record.b) == (3, 3) { vec![1, 2] } else { vec![record.b as u32] };
        // a fact without permissions is there or not: one bit says so
        let mask = if (2..=4).contains(&record.kind) { record.mask } else { 1 };
        for b in ways.into_iter().filter(|_| mask != 0) {
            *facts.entry((record.kind, record.a as u32, b, record.c as u32)).or_default() |= mask;
        }
    }
    facts
}

/// The records of a kind, in their order, with nodes named by their places in the list of nodes.
fn list(policy: &Policy, kind: u8) -> Vec<Record> {
    let place = |node: usize| policy.records[..node].iter().filter(|record| record.kind == 9).count();
    let named = |record: &Record| match (record.kind, record.a) {
        (8, _) => record.with_root(place(record.root())),
        (_, 1) => record.with_children(place(record.left()), 0),
        (_, 2 | 3) => record.with_children(place(record.left()), place(record.right())),
        _ => *record,
    };
    policy.records.iter().filter(|record| record.kind == kind).map(named).collect()
}

/// What one policy says and the other does not.
pub struct Difference {
    /// `-` for what the first has, `+` for what the second has, and the line of the text format.
    pub lines: Vec<(char, String)>,
}

/// Writes records as lines of the text format, each as if it stood alone.
struct Writer<'a> {
    names: &'a Names,
}

impl Writer<'_> {
    fn line(&self, record: Record) -> String {
        let alone = Policy { records: vec![record], ..Policy::new(255, 15, 15, 31) };
        text::record_lines(&alone, self.names).remove(0)
    }

    /// A constraint or a node, with nodes named n1, n2 and so on by their places.
    fn placed(&self, record: Record, place: usize) -> String {
        let line = self.line(record);
        let used = match (record.kind, record.a) {
            (8, _) | (9, 1) => 1,
            (9, 2 | 3) => 2,
            _ => 0,
        };
        let mut words: Vec<String> = line.split(' ').map(str::to_string).collect();
        let first = words.len() - used;
        words[first..].iter_mut().for_each(|word| word.insert(0, 'n'));
        let label = if record.kind == 9 { format!("n{place}: ") } else { String::new() };
        label + &words.join(" ")
    }
}

impl Difference {
    pub fn of(a: &Policy, b: &Policy, names: &Names) -> Difference {
        let mut difference = Difference { lines: vec![] };
        let counts = |p: &Policy| format!("policy {} {} {} {}", p.types, p.roles, p.users, p.classes);
        if counts(a) != counts(b) {
            difference.lines.extend([('-', counts(a)), ('+', counts(b))]);
        }
        let writer = Writer { names };
        difference.add_facts(&writer, &facts(a), &facts(b));
        difference.add_lists(&writer, a, b);
        difference
    }

    fn add_facts(&mut self, writer: &Writer, a: &BTreeMap<Key, u32>, b: &BTreeMap<Key, u32>) {
        let keys: BTreeSet<&Key> = a.keys().chain(b.keys()).collect();
        for key in keys {
            let [ours, theirs] = [a, b].map(|facts| facts.get(key).copied().unwrap_or(0));
            for (sign, mask) in [('-', ours & !theirs), ('+', theirs & !ours)] {
                let &(kind, x, y, z) = key;
                if mask != 0 {
                    let mask = if (2..=4).contains(&kind) { mask } else { 0 };
                    self.lines.push((sign, writer.line(Record::new(kind, x, y, z, mask))));
                }
            }
        }
    }

    /// Constraints and nodes are lists: what is not common to both, compared by the expressions that they state, and where these are
    /// the same, place by place.
    fn add_lists(&mut self, writer: &Writer, a: &Policy, b: &Policy) {
        let lists = |policy: &Policy| [list(policy, 8), list(policy, 9)];
        let (ours, theirs) = (lists(a), lists(b));
        if ours == theirs {
            return;
        }
        let mut known = HashMap::new();
        let (our_ids, their_ids) = (ids(&ours, &mut known), ids(&theirs, &mut known));
        let before = self.lines.len();
        for i in [0, 1] {
            let (removed, added) = uncommon(&our_ids[i], &their_ids[i]);
            self.lines.extend(removed.iter().map(|&at| ('-', writer.placed(ours[i][at], at + 1))));
            self.lines.extend(added.iter().map(|&at| ('+', writer.placed(theirs[i][at], at + 1))));
        }
        if self.lines.len() == before {
            for i in [0, 1] {
                for at in (0..ours[i].len()).filter(|&at| ours[i][at] != theirs[i][at]) {
                    self.lines.extend([('-', writer.placed(ours[i][at], at + 1)), ('+', writer.placed(theirs[i][at], at + 1))]);
                }
            }
        }
    }
}

/// A number for each constraint and each node, the same for those that state the same expression.
fn ids(lists: &[Vec<Record>; 2], known: &mut HashMap<(u8, u16, u16, u32, usize, usize), usize>) -> [Vec<usize>; 2] {
    let mut id = |key| {
        let next = known.len() + 1;
        *known.entry(key).or_insert(next)
    };
    let mut nodes: Vec<usize> = Vec::new();
    for node in &lists[1] {
        // children stand before their node
        let key = match node.a {
            1 => (9, 1, 0, 0, nodes[node.left() - 1], 0),
            2 | 3 => (9, node.a, 0, 0, nodes[node.left() - 1], nodes[node.right() - 1]),
            _ => (9, node.a, node.b, 0, 0, 0),
        };
        nodes.push(id(key));
    }
    let constraints = lists[0].iter().map(|c| id((8, c.a, 0, c.mask, nodes[c.root() - 1], 0))).collect();
    [constraints, nodes]
}

/// The places of each list that are in no longest common part of the two.
fn uncommon(a: &[usize], b: &[usize]) -> (Vec<usize>, Vec<usize>) {
    // how long the longest common part is of what follows each pair of places
    let mut longest = vec![vec![0u16; b.len() + 1]; a.len() + 1];
    for i in (0..a.len()).rev() {
        for j in (0..b.len()).rev() {
            longest[i][j] = if a[i] == b[j] { longest[i + 1][j + 1] + 1 } else { longest[i + 1][j].max(longest[i][j + 1]) };
        }
    }
    let (mut i, mut j, mut removed, mut added) = (0, 0, vec![], vec![]);
    while i < a.len() || j < b.len() {
        if i < a.len() && j < b.len() && a[i] == b[j] {
            (i, j) = (i + 1, j + 1);
        } else if j == b.len() || i < a.len() && longest[i + 1][j] >= longest[i][j + 1] {
            removed.push(i);
            i += 1;
        } else {
            added.push(j);
            j += 1;
        }
    }
    (removed, added)
}
