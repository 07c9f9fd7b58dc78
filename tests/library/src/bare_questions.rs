//! One case of the bare questions: contexts and events of the policy, and some that are out of range.
use crate::asking::Asker;
use crate::cases::{landed, Case};
use crate::tally::Tally;
use flowgoal_calls::{Answer, Bare};
use second_search::answer::bare_question_landed;
use second_search::gen::Rng;
use second_search::policy::{Context, Event};

/// How often each question is asked of one case.
const ASKED: usize = 6;

/// A number from 1 to the count mostly; at times 0, one more than the count, or one that is right in its low byte only.
pub fn near(rng: &mut Rng, count: u32) -> u32 {
    match rng.range(0, 99) {
        0 => 0,
        1 => count + 1,
        2 => 256 + rng.range(1, count),
        3 => u32::MAX - rng.range(0, 300),
        _ => rng.range(1, count),
    }
}

/// What the header's bytes say of the counts, accepted or not.
pub fn counts(policy: &[u8]) -> [u32; 4] {
    [0, 1, 2, 3].map(|i| policy.get(i).map_or(1, |&count| (count as u32).max(1)))
}

/// Types and class of an allow record, so that yes is met too; any types and class where there is none.
fn allowed(rng: &mut Rng, policy: &[u8]) -> Option<[u32; 4]> {
    let records: Vec<&[u8]> = policy.get(24..)?.chunks_exact(12).filter(|r| r[2] == 4 && r[8..] != [0; 4]).collect();
    if records.is_empty() {
        return None;
    }
    let r = records[rng.range(0, records.len() as u32 - 1) as usize];
    let mask = u32::from_le_bytes([r[8], r[9], r[10], r[11]]);
    let target = if r[4] == 0 { r[3] } else { r[4] };
    Some([r[3] as u32, target as u32, r[5] as u32, mask.trailing_zeros()])
}

/// Both contexts and the event that a bare question is asked of.
pub fn arguments(rng: &mut Rng, policy: &[u8]) -> (Context, Context, Event) {
    let [types, roles, users, classes] = counts(policy);
    let context = |rng: &mut Rng| Context { t: near(rng, types), r: near(rng, roles), u: near(rng, users) };
    let (mut x, mut y) = (context(rng), context(rng));
    let permission = if rng.chance(97) { rng.range(0, 3) } else { rng.pick(&[31, 32, 33, 256, u32::MAX]) };
    let mut e = Event { c: near(rng, classes), p: permission };
    if rng.chance(70) {
        if let Some([t1, t2, c, p]) = allowed(rng, policy) {
            (x.t, y.t, e) = (t1, t2, Event { c, p });
        }
        if rng.chance(50) {
            std::mem::swap(&mut x, &mut y);
        }
    }
    (x, y, e)
}

pub fn ask(asker: Asker, case: &mut Case, tally: &mut Tally) -> Result<(), String> {
    for question in [Bare::Authorized, Bare::Flows] {
        for _ in 0..ASKED {
            let (x, y, e) = arguments(&mut case.rng, &case.policy);
            let wanted = match bare_question_landed(landed(), &case.policy, question == Bare::Flows, x, y, e) {
                Ok(true) => Answer::Yes,
                Ok(false) => Answer::No,
                Err(number) => Answer::Refused(number),
            };
            let asked = || format!("{question:?} of {x:?}, {y:?}, {e:?}");
            let answer = asker.library.bare(question, &case.policy, x, y, e);
            asker.say(|| match answer {
                Ok(answer) => format!("{}: the second search says {wanted}, the library {answer}", asked()),
                Err(stray) => format!("{}: the second search says {wanted}, and from the library {stray}", asked()),
            });
            let answer = answer.map_err(|stray| format!("{}: {stray}", asked()))?;
            tally.bare(question, answer);
            if answer != wanted {
                return Err(format!("{}: {answer}, expected {wanted}", asked()));
            }
        }
    }
    Ok(())
}
