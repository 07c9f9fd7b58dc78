//! Libraries that are wrong in a canonical image, in one way each, or in what is asked of one.
use crate::calls::{Canonical, Library, LINKED};
use crate::cases::{Numbered, DAMAGED, GENERATED};
use crate::outputs::ROOM;
use crate::wrong_libraries::Trial;
use flowgoal_calls::{Answer, Outcome, Steps, Writing};

/// Wrong in a canonical image.
const fn canonical(what: &'static str, says: &'static str, cases: Numbered, canonical: Canonical) -> Trial {
    Trial { what, says, cases, library: Library { canonical, ..LINKED } }
}

/// The linked library's answer, changed; `$policy` and `$output` are what it was asked and lent.
macro_rules! answered {
    (|$policy:ident, $output:ident| $($right:pat $(if $when:expr)? => $wrong:expr),*) => {
        |$policy, $output| {
            Ok(match flowgoal_calls::canonical($policy, $output)? {
                $($right $(if $when)? => $wrong,)*
                other => other,
            })
        }
    };
}

/// The linked library's output, changed where the answer is such a one; `$m` are the bytes of the image, 0 where it is refused.
macro_rules! written {
    ($answer:pat, |$policy:ident, $output:ident, $m:ident| $changed:expr) => {
        |$policy, $output| {
            let answer = flowgoal_calls::canonical($policy, $output)?;
            let $m = if let Writing::Written(m) = answer { m as usize } else { 0 };
            if let ($answer, Some(byte)) = (answer, $changed) {
                *byte = !*byte;
            }
            Ok(answer)
        }
    };
}

/// The records that the header of a policy tells of.
fn records(policy: &[u8]) -> usize {
    policy.get(4..6).map_or(0, |n| n[0] as usize + 256 * n[1] as usize)
}

/// Is the policy its own canonical image, with a record at the least?
fn is_canonical(policy: &[u8]) -> bool {
    let mut output = vec![0; ROOM];
    let answer = flowgoal_calls::canonical(policy, &mut output);
    records(policy) > 0 && answer == Ok(Writing::Written(policy.len() as u32)) && output[..policy.len()] == *policy
}

pub const CANONICAL_TRIALS: [Trial; 25] = [
    canonical("nothing is written canonically", "byte 0 of the image is ", GENERATED, |policy, output| {
        flowgoal_calls::canonical(policy, &mut output.to_vec())
    }),
    canonical("a canonical image has a bit too many", "is no answer to a call that writes", GENERATED, |policy, output| {
        Writing::from_raw(flowgoal_calls::canonical(policy, output)?.raw() | 128)
    }),
    canonical(
        "the length of the policy is told",
        ", expected written ",
        GENERATED,
        answered!(
            |policy, _output| Writing::Written(_) => Writing::Written(policy.len() as u32)
        ),
    ),
    canonical("a policy is written as it stands", ", expected written ", GENERATED, |policy, output| {
        match flowgoal_calls::canonical(policy, output)? {
            Writing::Written(_) if policy.len() <= output.len() => {
                output[..policy.len()].copy_from_slice(policy);
                Ok(Writing::Written(policy.len() as u32))
            }
            other => Ok(other),
        }
    }),
    canonical(
        "a head is not set in a canonical image",
        "byte 6 of the image is ",
        GENERATED,
        written!(Writing::Written(_), |_policy, output, _m| output.get_mut(6)),
    ),
    canonical(
        "the last byte of a canonical image is not written",
        "of the image is ",
        GENERATED,
        written!(Writing::Written(_), |_policy, output, m| output.get_mut(m - 1)),
    ),
    canonical(
        "the byte behind a canonical image is set",
        "a byte behind the image was changed",
        GENERATED,
        written!(Writing::Written(_), |_policy, output, m| output.get_mut(m)),
    ),
    canonical(
        "the last byte of the output behind a canonical image is set",
        "a byte behind the image was changed",
        GENERATED,
        written!(Writing::Written(_), |_policy, output, m| output.get_mut(m..).and_then(|rest| rest.last_mut())),
    ),
    canonical(
        "16 of a canonical image is written into the output",
        "the output was changed with the answer refused 16",
        GENERATED,
        written!(Writing::Refused(16), |_policy, output, _m| output.last_mut()),
    ),
    canonical(
        "15 of a canonical image is written into the output",
        "the output was changed with the answer refused 15",
        GENERATED,
        written!(Writing::Refused(15), |_policy, output, _m| output.first_mut()),
    ),
    canonical(
        "a refused policy is written canonically",
        "the output was changed with the answer refused 1",
        DAMAGED,
        written!(Writing::Refused(1..=6), |_policy, output, _m| output.first_mut()),
    ),
    canonical(
        "16 comes before 15 of a canonical image",
        "refused 16, expected refused 15",
        GENERATED,
        answered!(
            |_policy, output| Writing::Refused(15) if output.len() < 99 => Writing::Refused(16)
        ),
    ),
    canonical(
        "15 is not asked of a canonical image",
        "expected refused 15",
        GENERATED,
        answered!(
            |_policy, _output| Writing::Refused(15) => Writing::Refused(16)
        ),
    ),
    canonical(
        "15 counts what is read",
        "refused 15, expected written ",
        GENERATED,
        answered!(
            |policy, _output| Writing::Written(_) if records(policy) == 4095 => Writing::Refused(15)
        ),
    ),
    canonical(
        "15 comes before the questions",
        "refused 15, expected refused ",
        GENERATED,
        answered!(
            |policy, _output| Writing::Refused(1..=6) if records(policy) > 4060 => Writing::Refused(15)
        ),
    ),
    canonical(
        "4,095 records are too many for an image",
        "refused 15, expected written 49164",
        GENERATED,
        answered!(
            |_policy, _output| Writing::Written(49_164) => Writing::Refused(15)
        ),
    ),
    canonical("a byte more than a canonical image is wanted", "refused 16, expected written ", GENERATED, |policy, output| {
        let shorter = output.len().saturating_sub(1);
        flowgoal_calls::canonical(policy, &mut output[..shorter])
    }),
    canonical(
        "14 is not asked before a canonical image",
        "expected refused 14",
        GENERATED,
        answered!(
            |policy, _output| Writing::Refused(14) => Writing::Written(policy.len() as u32)
        ),
    ),
    canonical(
        "an image that is written again changes",
        "written again: another image",
        GENERATED,
        written!(Writing::Written(_), |policy, output, m| output.get_mut(m - 1).filter(|_| is_canonical(policy))),
    ),
    canonical("an image is refused where it is written again", "written again: refused 16", GENERATED, |policy, output| {
        match flowgoal_calls::canonical(policy, output)? {
            Writing::Written(m) if m as usize == output.len() && is_canonical(policy) => Ok(Writing::Refused(16)),
            other => Ok(other),
        }
    }),
    canonical(
        "policies that say the same get other bytes",
        "it says the same, and the library gives another image",
        GENERATED,
        written!(Writing::Written(_), |policy, output, m| output
            .get_mut(m - 1)
            .filter(|_| records(policy) % 2 == 1 && !is_canonical(policy))),
    ),
    canonical(
        "policies that say something else get the same bytes",
        "it says something else, and the library gives the same image",
        GENERATED,
        |policy, output| {
            let answer = flowgoal_calls::canonical(policy, output)?;
            if let Writing::Written(_) = answer {
                // one user, whatever the policy says
                output[2] = 1;
            }
            Ok(answer)
        },
    ),
    Trial {
        what: "a goal is answered otherwise of a canonical image",
        says: "the goal question: holds of the canonical image, ",
        cases: GENERATED,
        library: Library {
            goal_question: |policy, goal, work1, work2, path| match flowgoal_calls::check(policy, goal, work1, work2, path)? {
                Outcome::Order(_) | Outcome::Events(_) if is_canonical(policy) => Ok(Outcome::Holds),
                other => Ok(other),
            },
            ..LINKED
        },
    },
    Trial {
        what: "a bare question is answered otherwise of a canonical image",
        says: ": no of the canonical image, yes of the policy",
        cases: GENERATED,
        library: Library {
            bare_question: |question, policy, x, y, e| match flowgoal_calls::bare(question, policy, x, y, e)? {
                Answer::Yes if is_canonical(policy) => Ok(Answer::No),
                other => Ok(other),
            },
            ..LINKED
        },
    },
    Trial {
        what: "least steps is answered otherwise of a canonical image",
        says: ": none of the canonical image, steps ",
        cases: GENERATED,
        library: Library {
            least_steps: |policy, x, y, work1, work2, path| match flowgoal_calls::least_steps(policy, x, y, work1, work2, path)? {
                Steps::Shown(_) if is_canonical(policy) => Ok(Steps::None),
                other => Ok(other),
            },
            ..LINKED
        },
    },
];
