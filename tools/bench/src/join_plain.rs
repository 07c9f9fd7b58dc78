//! The join by a plain program: both policies are read and checked (`policy_plain.rs`), and the joined list is put together and written
//! out. It is unproved. What it asks is what the library asks: questions 1 to 6 and 14 of each policy, 15 and 16.
use crate::policy_plain::{ask, moved, write, Policy, Record};
use flowgoal_calls::MOST_RECORDS;

/// The records of both, kinds in turn.
fn joined(both: [&Policy; 2]) -> Vec<Record> {
    let mut from = Vec::with_capacity(both[0].records.len() + both[1].records.len());
    let mut place = both.map(|policy| vec![0; policy.records.len()]);
    for kind in 1..=9 {
        for (who, policy) in both.iter().enumerate() {
            for k in policy.chain(kind) {
                from.push((who, k));
                place[who][k - 1] = from.len();
            }
        }
    }
    from.iter().map(|&(who, k)| moved(&both[who].records[k - 1], &place[who])).collect()
}

/// Writes the joined policy to the front of the output; gives its length, or the number of the first question whose answer is no.
#[inline(never)]
pub fn run(maker: &[u8], board: &[u8], output: &mut [u8]) -> Result<usize, u32> {
    let (maker, board) = (Policy::read(maker)?, Policy::read(board)?);
    ask(15, maker.records.len() + board.records.len() <= MOST_RECORDS)?;
    let mut counts = maker.counts;
    counts.iter_mut().zip(board.counts).for_each(|(count, other)| *count = other.max(*count));
    write(counts, joined([&maker, &board]), output)
}
