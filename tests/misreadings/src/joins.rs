//! What one who misreads a join makes of its parts; with nothing switched on, each is as the second search has it.
use crate::landed::Landed;
use crate::policy::{check_policy_landed, u16_at, Policy, Record};

/// Where a record comes from: 0 for the maker and 1 for the board, and its number there.
type From = (usize, usize);

/// A count of the result, by the maker's and the board's.
pub fn count_as_read(maker: u32, board: u32) -> u32 {
    match () {
        () if on!(SmallerCounts) => maker.min(board),
        () if on!(MakersCounts) => maker,
        () => maker.max(board),
    }
}

/// The records of the result in their order.
pub fn records_as_read(both: [&Policy; 2], mut from: Vec<From>) -> Vec<From> {
    let record = |(who, k): From| both[who].records[k - 1];
    if on!(BoardsRecordsFirst) {
        from.sort_by_key(|&(who, k)| (record((who, k)).kind, 1 - who));
    }
    if on!(MakersListFirst) {
        from.sort_by_key(|&(who, _)| who);
    }
    if on!(KindsNotInTurn) {
        from.sort();
    }
    if on!(RepeatedOnce) {
        let mut met: Vec<Record> = Vec::new();
        from.retain(|&at| {
            let new = record(at).kind > 7 || !met.contains(&record(at));
            met.push(record(at));
            new
        });
    }
    if on!(UnusedNodesDropped) {
        from.retain(|&(who, k)| record((who, k)).kind != 9 || uses(both[who], k));
    }
    from
}

/// Does a constraint or a node of the policy use the node?
pub fn uses(policy: &Policy, node: usize) -> bool {
    policy.records.iter().any(|r| match (r.kind, r.a) {
        (8, _) => r.root() == node,
        (9, 1..=3) => r.left() == node || r.right() == node,
        _ => false,
    })
}

/// The records that the header of an image tells of.
fn records_told(image: &[u8]) -> usize {
    if image.len() < 6 {
        0
    } else {
        u16_at(image, 4)
    }
}

/// Both policies, where they pass the checks.
pub fn checked_as_read(landed: Landed, maker: &[u8], board: &[u8]) -> Result<[Policy; 2], u32> {
    if on!(BoardCheckedFirst) {
        check_policy_landed(landed, board)?;
    }
    let maker = check_policy_landed(landed, maker)?;
    if on!(RecordsBeforeBoard) && maker.records.len() + records_told(board) > maker.most_records() {
        return Err(15);
    }
    let of_board = match on!(BoardsSourcesNotAsked) || on!(MakersDomainsServe) {
        true => Landed::parse(&landed.letters().replace('b', "")).expect("letters of requests"),
        false => landed,
    };
    Ok([maker, check_policy_landed(of_board, board)?])
}

/// The image with its links.
pub fn linked_as_read(mut image: Vec<u8>) -> Vec<u8> {
    if on!(HeadsNotSet) {
        image[6..24].fill(0);
    }
    if on!(NextsNotSet) {
        image[24..].chunks_exact_mut(12).for_each(|record| record[..2].fill(0));
    }
    image
}
