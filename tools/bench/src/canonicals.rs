//! Canonical images through the static library against the plain program of `canonical_plain.rs`, which asks what the library asks and
//! sorts by the standard sort.
use crate::canonical_plain;
use crate::drawn::{fact, node, CLASSES, ROLES, TYPES, USERS};
use crate::timing::least_times;
use flowgoal_calls::{policy_length, Writing, MOST_RECORDS};
use second_search::gen::Rng;
use second_search::policy::{Policy, Record};

pub const NOTE: &str =
    "canonical: result: the records of the image; unwritten: the same call with an output that is one byte too short, which makes
everything but the image; ratio: proved / plain, where the plain program makes the same checks; below 1 the proved one is faster";

pub fn print_head() {
    println!(
        "{:34} {:>7} {:>7} {:>7} {:>10} {:>12} {:>10} {:>8}",
        "canonical: case", "records", "result", "bytes", "proved ms", "unwritten ms", "plain ms", "ratio"
    );
}

#[derive(Clone, Copy)]
enum Order {
    Sorted,
    Reversed,
    Random,
}

/// What the records of kinds 1 to 7 say.
#[derive(Clone, Copy)]
enum Keys {
    /// anything
    Many,
    /// allows of so few keys, with masks that differ
    Few,
    /// one allow
    One,
    /// flow both ways
    Both,
}

/// A policy of so many records, of which some are nodes and constraints.
#[derive(Clone, Copy)]
pub struct Sizes {
    records: usize,
    nodes: usize,
    order: Order,
    keys: Keys,
}

const ORDERS: [(&str, Order); 3] = [("sorted", Order::Sorted), ("reversed", Order::Reversed), ("random", Order::Random)];

/// Few records, some, and as many as there may be, in every order; and, of the most, on few keys or one, all of them flow both ways, and
/// with a thousand nodes and constraints.
pub fn cases() -> Vec<(String, Sizes)> {
    let mut all = Vec::new();
    for records in [100, 1000, MOST_RECORDS] {
        for (name, order) in ORDERS {
            all.push((format!("canonical, {records}, {name}"), Sizes { records, nodes: 0, order, keys: Keys::Many }));
        }
    }
    for (what, keys) in [("few keys", Keys::Few), ("one key", Keys::One), ("both ways", Keys::Both)] {
        for (name, order) in ORDERS {
            let sizes = Sizes { records: MOST_RECORDS, nodes: 0, order, keys };
            all.push((format!("canonical, {what}, {name}"), sizes));
        }
    }
    for (name, order) in ORDERS {
        let sizes = Sizes { records: MOST_RECORDS, nodes: 1000, order, keys: Keys::Many };
        all.push((format!("canonical, 1000 nodes, {name}"), sizes));
    }
    all
}

/// A record of kinds 1 to 7; the first is a domain.
fn drawn(rng: &mut Rng, keys: Keys, domains: &mut Vec<u32>) -> Record {
    let (mask, domain) = (rng.next() as u32 | 1, domains.first().copied());
    match (keys, domain) {
        (Keys::Many, _) | (_, None) => fact(rng, domains),
        (Keys::Few, Some(t)) => Record::new(4, t, rng.range(0, 7), rng.range(1, CLASSES), mask),
        (Keys::One, Some(t)) => Record::new(4, t, 0, 1, 1),
        (Keys::Both, _) => Record::new(3, rng.range(1, CLASSES), 3, 0, mask),
    }
}

/// In any order, but for nodes and constraints, which stay where they are: nodes name nodes by their numbers.
fn ordered(rng: &mut Rng, order: Order, mut facts: Vec<Record>) -> Vec<Record> {
    facts.sort_by_key(|r| (r.kind, r.a, r.b, r.c));
    match order {
        Order::Sorted => (),
        Order::Reversed => facts.reverse(),
        Order::Random => (1..facts.len()).rev().for_each(|i| facts.swap(i, rng.range(0, i as u32) as usize)),
    }
    facts
}

/// The policy: in random order nodes stand among the facts, else behind them.
fn policy(rng: &mut Rng, sizes: &Sizes) -> Policy {
    let mut policy = Policy::new(TYPES, ROLES, USERS, CLASSES);
    let (mut domains, mut free) = (Vec::new(), Vec::new());
    let facts = (0..sizes.records - sizes.nodes).map(|_| drawn(rng, sizes.keys, &mut domains)).collect();
    let mut facts = ordered(rng, sizes.order, facts).into_iter();
    let share = if let Order::Random = sizes.order { (100 * sizes.nodes / sizes.records) as u32 } else { 0 };
    while policy.records.len() < sizes.records {
        let fact = if rng.chance(share) { None } else { facts.next() };
        let record = fact.unwrap_or_else(|| node(rng, &mut free, policy.records.len()));
        policy.records.push(record);
    }
    policy
}

/// The image, and the output of just the length of its canonical one.
struct Asked {
    image: Vec<u8>,
    output: Vec<u8>,
}

impl Asked {
    fn new(sizes: &Sizes) -> Asked {
        let image = policy(&mut Rng(42), sizes).encode();
        let mut output = vec![0; policy_length(MOST_RECORDS)];
        let bytes = canonical_plain::run(&image, &mut output).unwrap_or_else(|number| panic!("refused {number}"));
        Asked { image, output: vec![0; bytes] }
    }
    fn library(&mut self, bytes: usize) -> Writing {
        let output = &mut self.output[..bytes];
        flowgoal_calls::canonical(&self.image, output).unwrap_or_else(|stray| panic!("{stray}"))
    }
    fn plain(&mut self) -> Result<usize, u32> {
        canonical_plain::run(&self.image, &mut self.output)
    }

    /// Do both programs write the same?
    fn agree(&mut self, name: &str) -> bool {
        let bytes = self.output.len();
        let answer = self.library(bytes);
        let written = std::mem::replace(&mut self.output, vec![0; bytes]);
        let plain = self.plain();
        if answer == Writing::Written(bytes as u32) && plain == Ok(bytes) && written == self.output {
            return true;
        }
        let same = if written == self.output { "the same bytes" } else { "other bytes" };
        println!("{name}: the library says {answer}, the plain program {plain:?}, with {same}");
        false
    }
}

/// One line of the table; false where the answers differ.
pub fn measure(name: &str, sizes: &Sizes) -> bool {
    let mut asked = Asked::new(sizes);
    if !asked.agree(name) {
        return false;
    }
    let bytes = asked.output.len();
    // an output that is too short is refused last
    assert_eq!(asked.library(bytes - 1), Writing::Refused(16));
    let [mut unwritten, mut plainly] = [Asked::new(sizes), Asked::new(sizes)];
    let [proved, made, plain] = least_times([
        &mut || {
            std::hint::black_box(asked.library(bytes));
        },
        &mut || {
            std::hint::black_box(unwritten.library(bytes - 1));
        },
        &mut || {
            std::hint::black_box(plainly.plain().ok());
        },
    ]);
    println!(
        "{name:34} {:7} {:7} {bytes:7} {:10.4} {:12.4} {:10.4} {:8.3}",
        sizes.records,
        (bytes - policy_length(0)) / 12,
        proved * 1e3,
        made * 1e3,
        plain * 1e3,
        proved / plain
    );
    true
}

/// Each program is asked once; false where the answers differ.
pub fn ask_once(name: &str, sizes: &Sizes) -> bool {
    let mut asked = Asked::new(sizes);
    let agreed = asked.agree(name);
    if agreed {
        println!("{name}: {} bytes written", asked.output.len());
    }
    agreed
}
