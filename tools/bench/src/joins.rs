//! Joins through the static library against the plain program of `join_plain.rs`, which asks what the library asks.
use crate::drawn::{fact, node, CLASSES, ROLES, TYPES, USERS};
use crate::join_plain;
use crate::timing::least_times;
use flowgoal_calls::{policy_length, Writing};
use second_search::gen::Rng;
use second_search::join::joined;
use second_search::policy::Policy;

pub const NOTE: &str =
    "join: nodes: nodes and constraints among the records; checks: the same call with an output that is one byte too short;
ratio: proved / plain, where the plain program makes the same checks; below 1 the proved one is faster";

pub fn print_head() {
    println!(
        "{:34} {:>7} {:>7} {:>7} {:>10} {:>10} {:>10} {:>8}",
        "join: case", "records", "nodes", "bytes", "proved ms", "checks ms", "plain ms", "ratio"
    );
}

/// Two policies of so many records.
#[derive(Clone, Copy)]
pub struct Sizes {
    records: [usize; 2],
    /// so many records of a hundred are nodes and constraints
    nodes: u32,
    /// as they come, or each kind by itself
    mixed: bool,
}

/// As a board's additions are, two policies that are alike, and as many records as there may be; with few nodes and with many.
pub fn cases() -> Vec<(String, Sizes)> {
    let mut all = Vec::new();
    for records in [[100, 100], [500, 500], [1000, 1000], [2000, 2000], [4000, 95], [95, 4000]] {
        let name = format!("join, {} + {}", records[0], records[1]);
        all.push((name.clone(), Sizes { records, nodes: 5, mixed: false }));
        all.push((format!("{name}, mixed"), Sizes { records, nodes: 5, mixed: true }));
    }
    for records in [[100, 100], [2047, 2048]] {
        let name = format!("join, {} + {}, nodes", records[0], records[1]);
        all.push((name.clone(), Sizes { records, nodes: 90, mixed: false }));
        all.push((format!("{name}, mixed"), Sizes { records, nodes: 90, mixed: true }));
    }
    all
}

/// A policy of so many records.
fn policy(rng: &mut Rng, records: usize, sizes: &Sizes) -> Policy {
    let mut policy = Policy::new(TYPES, ROLES, USERS, CLASSES);
    let (mut domains, mut free) = (Vec::new(), Vec::new());
    while policy.records.len() < records {
        let record = match rng.chance(sizes.nodes) {
            true => node(rng, &mut free, policy.records.len()),
            false => fact(rng, &mut domains),
        };
        policy.records.push(record);
    }
    // a join puts kinds in turn
    if sizes.mixed {
        policy
    } else {
        joined(&policy, &Policy::new(1, 1, 1, 1))
    }
}

/// The images, the output of just the length, and how many of the records are nodes or constraints.
struct Asked {
    maker: Vec<u8>,
    board: Vec<u8>,
    output: Vec<u8>,
    nodes: usize,
}

impl Asked {
    fn new(sizes: &Sizes) -> Asked {
        let mut rng = Rng(42);
        let [maker, board] = sizes.records.map(|records| policy(&mut rng, records, sizes));
        let nodes = maker.records.iter().chain(&board.records).filter(|r| r.kind >= 8).count();
        let output = vec![0; policy_length(maker.records.len() + board.records.len())];
        Asked { maker: maker.encode(), board: board.encode(), output, nodes }
    }
    fn library(&mut self, bytes: usize) -> Writing {
        let output = &mut self.output[..bytes];
        flowgoal_calls::join(&self.maker, &self.board, output).unwrap_or_else(|stray| panic!("{stray}"))
    }
    fn plain(&mut self) -> Result<usize, u32> {
        join_plain::run(&self.maker, &self.board, &mut self.output)
    }

    /// Do both programs write the same, as many bytes as there must be?
    fn agree(&mut self, name: &str) -> bool {
        let bytes = self.output.len();
        let answer = self.library(bytes);
        let written = std::mem::replace(&mut self.output, vec![0; bytes]);
        let plain = self.plain();
        if answer == Writing::Written(bytes as u32) && plain == Ok(bytes) && written == self.output {
            return true;
        }
        let same = if written == self.output { "the same bytes" } else { "other bytes" };
        println!("{name}: the library says {answer}, the plain program {plain:?}, with {same}");
        false
    }
}

/// One line of the table; false where the answers differ.
pub fn measure(name: &str, sizes: &Sizes) -> bool {
    let mut asked = Asked::new(sizes);
    if !asked.agree(name) {
        return false;
    }
    let bytes = asked.output.len();
    // an output that is too short is refused last, after every check
    assert_eq!(asked.library(bytes - 1), Writing::Refused(16));
    let [mut checked, mut plainly] = [Asked::new(sizes), Asked::new(sizes)];
    let [proved, checks, plain] = least_times([
        &mut || {
            std::hint::black_box(asked.library(bytes));
        },
        &mut || {
            std::hint::black_box(checked.library(bytes - 1));
        },
        &mut || {
            std::hint::black_box(plainly.plain().ok());
        },
    ]);
    println!(
        "{name:34} {:7} {:7} {bytes:7} {:10.4} {:10.4} {:10.4} {:8.3}",
        sizes.records[0] + sizes.records[1],
        asked.nodes,
        proved * 1e3,
        checks * 1e3,
        plain * 1e3,
        proved / plain
    );
    true
}

/// Each program is asked once; false where the answers differ.
pub fn ask_once(name: &str, sizes: &Sizes) -> bool {
    let mut asked = Asked::new(sizes);
    let agreed = asked.agree(name);
    if agreed {
        println!("{name}: {} bytes written", asked.output.len());
    }
    agreed
}
