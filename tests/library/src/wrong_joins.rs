//! Libraries that are wrong in a join, in one way each.
use crate::calls::{Join, Library, LINKED};
use crate::cases::{Numbered, DAMAGED, GENERATED};
use crate::wrong_libraries::Trial;
use flowgoal_calls::{policy_length, Writing, MOST_RECORDS};

/// Wrong in a join.
const fn join(what: &'static str, says: &'static str, cases: Numbered, join: Join) -> Trial {
    Trial { what, says, cases, library: Library { join, ..LINKED } }
}

/// The linked library's answer to a join, changed; `$maker`, `$board` and `$output` are what it was asked and lent.
macro_rules! answered {
    (|$maker:ident, $board:ident, $output:ident| $($right:pat $(if $when:expr)? => $wrong:expr),*) => {
        |$maker, $board, $output| {
            Ok(match flowgoal_calls::join($maker, $board, $output)? {
                $($right $(if $when)? => $wrong,)*
                other => other,
            })
        }
    };
}

/// The linked library's output, changed where the answer is such a one; `$m` are the bytes of the image, 0 where it is refused.
macro_rules! written {
    ($answer:pat, |$output:ident, $m:ident| $changed:expr) => {
        |maker, board, $output| {
            let answer = flowgoal_calls::join(maker, board, $output)?;
            let $m = if let Writing::Written(m) = answer { m as usize } else { 0 };
            if let ($answer, Some(byte)) = (answer, $changed) {
                *byte = !*byte;
            }
            Ok(answer)
        }
    };
}

/// The records that the header of a policy tells of.
fn records(policy: &[u8]) -> usize {
    policy.get(4..6).map_or(0, |n| n[0] as usize + 256 * n[1] as usize)
}

/// Are there too many records, by the headers alone?
fn too_many(maker: &[u8], board: &[u8]) -> bool {
    records(maker) + records(board) > MOST_RECORDS
}

/// What a join of the two would write, whether it is refused or not, as an answer.
fn as_written(maker: &[u8], board: &[u8]) -> Writing {
    Writing::Written(policy_length(records(maker) + records(board)) as u32)
}

pub const JOIN_TRIALS: [Trial; 20] = [
    join("nothing is joined", "byte 0 of the image is ", GENERATED, |maker, board, output| {
        flowgoal_calls::join(maker, board, &mut output.to_vec())
    }),
    join("a join has a bit too many", "is no answer to a call that writes", GENERATED, |maker, board, output| {
        Writing::from_raw(flowgoal_calls::join(maker, board, output)?.raw() | 128)
    }),
    join("a join tells of a byte too many", "is no answer to a call that writes", GENERATED, |maker, board, output| {
        Writing::from_raw(flowgoal_calls::join(maker, board, output)?.raw() + 256)
    }),
    join(
        "a join tells of the maker's length",
        ", expected written ",
        GENERATED,
        answered!(|maker, _board, _output| Writing::Written(_) => Writing::Written(maker.len() as u32)),
    ),
    join("maker and board change places", "of the image is ", GENERATED, |maker, board, output| {
        flowgoal_calls::join(board, maker, output)
    }),
    join("the board's policy is asked first", ", expected refused ", DAMAGED, |maker, board, output| {
        match (flowgoal_calls::join(maker, board, output)?, flowgoal_calls::join(board, maker, &mut output.to_vec())?) {
            (Writing::Refused(1..=6 | 14), Writing::Refused(k @ (1..=6 | 14))) => Ok(Writing::Refused(k)),
            (answer, _) => Ok(answer),
        }
    }),
    join("the counts are the board's", "byte 0 of the image is ", GENERATED, |maker, board, output| {
        let answer = flowgoal_calls::join(maker, board, output)?;
        if let Writing::Written(_) = answer {
            output[0] = board[0];
        }
        Ok(answer)
    }),
    join(
        "a head is not set",
        "byte 6 of the image is ",
        GENERATED,
        written!(Writing::Written(_), |output, _m| output.get_mut(6)),
    ),
    join(
        "the last byte of the image is not written",
        "of the image is ",
        GENERATED,
        written!(Writing::Written(_), |output, m| output.get_mut(m - 1)),
    ),
    join(
        "the byte behind the image is set",
        "a byte behind the image was changed",
        GENERATED,
        written!(Writing::Written(_), |output, m| output.get_mut(m)),
    ),
    join(
        "the last byte of the output is set",
        "a byte behind the image was changed",
        GENERATED,
        written!(Writing::Written(_), |output, m| output.get_mut(m..).and_then(|rest| rest.last_mut())),
    ),
    join(
        "16 is written into the output",
        "the output was changed with the answer refused 16",
        GENERATED,
        written!(Writing::Refused(16), |output, _m| output.last_mut()),
    ),
    join(
        "15 is written into the output",
        "the output was changed with the answer refused 15",
        GENERATED,
        written!(Writing::Refused(15), |output, _m| output.first_mut()),
    ),
    join(
        "a refused policy is written into the output",
        "the output was changed with the answer refused 1",
        DAMAGED,
        written!(Writing::Refused(1..=6), |output, _m| output.first_mut()),
    ),
    join(
        "16 comes before 15",
        "refused 16, expected refused 15",
        GENERATED,
        answered!(|_maker, _board, output| Writing::Refused(15) if output.len() < 99 => Writing::Refused(16)),
    ),
    join(
        "15 comes before the board's questions",
        "refused 15, expected refused ",
        GENERATED,
        answered!(|maker, board, _output| Writing::Refused(1..=6) if too_many(maker, board) => Writing::Refused(15)),
    ),
    join(
        "15 is not asked",
        "expected refused 15",
        GENERATED,
        answered!(|_maker, _board, _output| Writing::Refused(15) => Writing::Refused(16)),
    ),
    join(
        "4,095 records are too many",
        "refused 15, expected written 49164",
        GENERATED,
        answered!(|_maker, _board, _output| Writing::Written(49_164) => Writing::Refused(15)),
    ),
    join("a byte more than the image is wanted", "refused 16, expected written ", GENERATED, |maker, board, output| {
        let shorter = output.len().saturating_sub(1);
        flowgoal_calls::join(maker, board, &mut output[..shorter])
    }),
    join(
        "14 is not asked before a join",
        "expected refused 14",
        GENERATED,
        answered!(|maker, board, _output| Writing::Refused(14) => as_written(maker, board)),
    ),
];
