//! The canonical image by a plain program: the policy is read and checked (`policy_plain.rs`), its facts are sorted by the standard sort
//! and united, and the image is written out. It is unproved. What it asks is what the library asks: questions 1 to 6 and 14, 15 and 16.
use crate::policy_plain::{ask, moved, write, Policy, Record};
use flowgoal_calls::MOST_RECORDS;

/// Kind, a, b and c as one number, and the permissions.
type Fact = (u32, u32);

/// What the records of kinds 1 to 7 say, but for those with an empty mask; flow both ways is two.
fn facts(policy: &Policy) -> Vec<Fact> {
    let mut facts = Vec::with_capacity(2 * policy.records.len());
    for r in &policy.records {
        let [a, b, c, ..] = r.fields;
        let fact = |b| (u32::from_be_bytes([r.kind, a, b, c]), r.mask);
        match (r.kind, b) {
            (8.., _) => (),
            (2..=4, _) if r.mask == 0 => (),
            (3, 3) => facts.extend([fact(1), fact(2)]),
            _ => facts.push(fact(b)),
        }
    }
    facts
}

/// Each key once, rising, with the permissions of all its facts.
fn united(mut facts: Vec<Fact>) -> Vec<Fact> {
    facts.sort_unstable_by_key(|&(key, _)| key);
    facts.dedup_by(|later, kept| {
        let same = later.0 == kept.0;
        if same {
            kept.1 |= later.1;
        }
        same
    });
    facts
}

fn record((key, mask): Fact) -> Record {
    let [kind, a, b, c] = key.to_be_bytes();
    Record { next: 0, kind, fields: [a, b, c, 0, 0], mask }
}

/// Writes the canonical image to the front of the output; gives its length, or the number of the first question whose answer is no.
#[inline(never)]
pub fn run(policy: &[u8], output: &mut [u8]) -> Result<usize, u32> {
    let policy = Policy::read(policy)?;
    let facts = united(facts(&policy));
    let kept: Vec<usize> = policy.chain(8).chain(policy.chain(9)).collect();
    ask(15, facts.len() + kept.len() <= MOST_RECORDS)?;
    let mut place = vec![0; policy.records.len()];
    for (i, &k) in kept.iter().enumerate() {
        place[k - 1] = facts.len() + i + 1;
    }
    let mut records: Vec<Record> = facts.into_iter().map(record).collect();
    records.extend(kept.iter().map(|&k| moved(&policy.records[k - 1], &place)));
    write(policy.counts, records, output)
}
