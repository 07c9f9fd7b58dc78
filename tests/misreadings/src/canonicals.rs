//! What one who misreads the canonical image makes of its parts; with nothing switched on, each is as the second search has it.
use crate::landed::Landed;
use crate::policy::{Policy, Record};
use std::cmp::Reverse;

/// Kind and key.
fn key(r: &Record) -> (u8, u16, u16, u8) {
    (r.kind, r.a, r.b, r.c)
}

/// Does the record carry a mask?
fn masked(r: &Record) -> bool {
    (2..=4).contains(&r.kind)
}

/// The records of kinds 1 to 7 of the policy as they stand, but for those with an empty mask, and flow both ways split.
fn split(policy: &Policy) -> Vec<Record> {
    let facts = policy.records.iter().filter(|r| r.kind <= 7 && (r.mask != 0 || !masked(r)));
    let ways = |r: &Record| if (r.kind, r.b) == (3, 3) { vec![1, 2] } else { vec![r.b] };
    facts.flat_map(|r| ways(r).into_iter().map(|b| Record { b, ..*r })).collect()
}

/// The records of the result with the masks that one makes of those of their keys.
fn remasked(policy: &Policy, mut records: Vec<Record>, of: impl Fn(&[u32]) -> u32) -> Vec<Record> {
    let all = split(policy);
    for r in records.iter_mut().filter(|r| masked(r)) {
        let masks: Vec<u32> = all.iter().filter(|other| key(other) == key(r)).map(|other| other.mask).collect();
        r.mask = of(&masks);
    }
    records
}

/// Those with what flows both ways in records of its own, with b 3.
fn both_put_together(records: Vec<Record>) -> Vec<Record> {
    let mask = |a: u16, b: u16| records.iter().find(|r| key(r) == (3, a, b, 0)).map_or(0, |r| r.mask);
    let mut all = records.clone();
    for r in all.iter_mut().filter(|r| r.kind == 3) {
        r.mask &= !mask(r.a, 3 - r.b);
    }
    let both = |r: &Record| Record { b: 3, mask: mask(r.a, 1) & mask(r.a, 2), ..*r };
    all.extend(records.iter().filter(|r| r.kind == 3 && r.b == 1).map(both));
    all.retain(|r| r.kind != 3 || r.mask != 0);
    all.sort_by_key(key);
    all
}

/// The records of kinds 1 to 7 of the result.
pub fn facts_as_read(policy: &Policy, mut records: Vec<Record>) -> Vec<Record> {
    // where the first record of a key stands
    let first = |r: &Record| split(policy).iter().position(|other| key(other) == key(r));
    match () {
        () if on!(SortedByC) => records.sort_by_key(|r| (r.kind, r.c, r.a, r.b)),
        () if on!(SelfLast) => records.sort_by_key(|r| (r.kind, r.a, if r.b == 0 { u16::MAX } else { r.b }, r.c)),
        () if on!(NotSorted) => records.sort_by_key(|r| (r.kind, first(r))),
        () if on!(SortedDown) => records.sort_by_key(|r| (r.kind, Reverse((r.a, r.b, r.c)))),
        () if on!(MasksNotUnited) => {
            records.retain(|r| !masked(r));
            records.extend(split(policy).into_iter().filter(masked));
            records.sort_by_key(key);
        }
        () if on!(RepeatedRolesStay) => {
            records.retain(|r| r.kind != 5);
            records.extend(policy.records.iter().filter(|r| r.kind == 5));
            records.sort_by_key(key);
        }
        () if on!(SplitNotUnited) => {
            records.retain(|r| r.kind != 3);
            let whole = policy.records.iter().filter(|r| r.kind == 3 && r.b != 3 && r.mask != 0);
            let both = policy.records.iter().filter(|r| r.kind == 3 && r.b == 3 && r.mask != 0);
            records.extend(united(whole.copied()));
            records.extend(united(both.flat_map(|r| [1, 2].map(|b| Record { b, ..*r }))));
            records.sort_by_key(key);
        }
        () if on!(FirstMaskKept) => return remasked(policy, records, |masks| masks[0]),
        () if on!(CommonBitsKept) => {
            let mut common = remasked(policy, records, |masks| masks.iter().fold(u32::MAX, |common, mask| common & mask));
            common.retain(|r| !masked(r) || r.mask != 0);
            return common;
        }
        () if on!(BothPutTogether) => return both_put_together(records),
        () => (),
    }
    records
}

/// One record for each key, with all masks.
fn united(records: impl Iterator<Item = Record>) -> Vec<Record> {
    let mut all: Vec<Record> = Vec::new();
    for r in records {
        match all.iter_mut().find(|other| key(other) == key(&r)) {
            Some(other) => other.mask |= r.mask,
            None => all.push(r),
        }
    }
    all
}

/// The policy of these records.
pub fn policy_as_read(policy: &Policy, mut records: Vec<Record>) -> Policy {
    let largest = |r: &Record| match r.kind {
        1 => r.a,
        4 => r.a.max(r.b),
        5 => r.b,
        _ => 1,
    };
    let types = match on!(CountsMadeSmall) {
        true => records.iter().map(largest).max().unwrap_or(1) as u32,
        false => policy.types,
    };
    let in_turn = |r: &Record| (r.kind, r.a, r.mask);
    match () {
        () if on!(NodesBeforeConstraints) => records.sort_by_key(|r| (r.kind.min(8), Reverse(r.kind))),
        () if on!(ConstraintsSorted) => records.sort_by_key(|r| if r.kind == 8 { in_turn(r) } else { (r.kind, 0, 0) }),
        () if on!(NodesSorted) => records.sort_by_key(|r| if r.kind == 9 { in_turn(r) } else { (r.kind, 0, 0) }),
        () if on!(RepeatedConstraintsOnce) => records.dedup_by(|r, s| r.kind == 8 && in_turn(r) == in_turn(s)),
        () => (),
    }
    Policy { records, types, ..policy.clone() }
}

/// The requests whose questions are asked of the policy.
pub fn asked_as_read(landed: Landed) -> Landed {
    match on!(SourcesNotAsked) {
        true => Landed::parse(&landed.letters().replace('b', "")).expect("letters of requests"),
        false => landed,
    }
}

/// 15, asked before anything is united; nothing is asked here by one who reads it right.
pub fn counted_as_read(policy: &Policy) -> Result<(), u32> {
    let both = policy.records.iter().filter(|r| (r.kind, r.b) == (3, 3)).count();
    if on!(ReadRecordsCounted) && policy.records.len() + both > policy.most_records() {
        return Err(15);
    }
    Ok(())
}
