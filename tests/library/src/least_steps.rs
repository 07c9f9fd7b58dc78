//! One case of least steps: for pairs of contexts of every sort, the library's answers for every length of the lent slices against
//! the second search's one.
use crate::asking::Asker;
use crate::calls::{Lent, Library};
use crate::cases::{contexts, landed, Case, LIMIT};
use crate::lending::{on_one_line, Asking, Lengths, Question, Shortest};
use crate::pairs::{pairs, Pair};
use crate::tally::Tally;
use flowgoal_calls::{Steps, Stray};
use second_search::gen::Rng;
use second_search::paths::Path;
use second_search::policy::{check_policy_landed, Context};
use second_search::steps::{least_steps, validate_path, Least};

/// The library's answer to each of the pairs of the case.
pub fn ask(asker: Asker, case: &mut Case, limit: usize, tally: &mut Tally) -> Result<Vec<(Pair, Steps)>, String> {
    let pairs = pairs(case);
    let Case { policy, rng, .. } = case;
    let mut answers = Vec::new();
    for pair in pairs {
        let question = OfPair { policy, pair };
        let asked = question.asked();
        let mut asking = Asking { asker, question, tally };
        let answer = ask_pair(&mut asking, limit, rng).map_err(|why| format!("{asked}{why}"))?;
        answers.push((pair, answer));
    }
    Ok(answers)
}

/// The answer in the library's words.
fn steps(least: &Least) -> Steps {
    match *least {
        Least::None => Steps::None,
        Least::Steps(ref path) => Steps::Shown(path.steps() as u32),
        Least::Refused(_, Some(m)) => Steps::NoRoom(m as u32),
        Least::Refused(number, None) => Steps::Refused(number),
    }
}

/// One pair, each work slice being lent as many entries as are needed, or the limit where more are.
fn ask_pair(asking: &mut Asking<OfPair>, limit: usize, rng: &mut Rng) -> Result<Steps, String> {
    let OfPair { policy, pair: [x, y] } = asking.question;
    let checked = check_policy_landed(landed(), policy);
    let need = checked.as_ref().map_or(LIMIT, contexts);
    let lent = need.min(limit);
    let ours = least_steps(landed(), policy, x, y, [lent; 2], &mut vec![0; 2 * lent + 1]);
    asking.asker.say(|| format!("{}the second search says: {}", asking.question.asked(), on_one_line(&ours.print())));
    let wanted = steps(&ours);
    let some = rng.range(1, 9) as usize;
    match (&ours, &checked) {
        (Least::Steps(path), Ok(policy)) => {
            let steps = path.steps();
            let valid = |shown: &[u32]| validate_path(policy, x, y, shown, steps);
            asking.every_length(lent, &Shortest { steps, answer: wanted, validate: &valid })?;
        }
        (Least::None, _) => {
            // no room is asked for
            asking.untouched(Lengths { work: [lent; 2], path: 0 }, wanted)?;
            asking.untouched(Lengths { work: [lent + 5, lent + 1], path: some }, wanted)?;
        }
        _ => asking.untouched(Lengths { work: [lent; 2], path: some }, wanted)?,
    }
    match wanted {
        Steps::None | Steps::Shown(_) => asking.too_little_work(need)?,
        // a refused policy, and a context that is out of range, come before the work slices
        Steps::Refused(1..=6 | 14 | 13) => asking.untouched(Lengths { work: [0, 0], path: 0 }, wanted)?,
        Steps::Refused(_) | Steps::NoRoom(_) => (),
    }
    Ok(wanted)
}

#[derive(Clone, Copy)]
struct OfPair<'a> {
    policy: &'a [u8],
    pair: Pair,
}

impl Question for OfPair<'_> {
    type Answer = Steps;
    const NO_WORK: Steps = Steps::Refused(11);
    fn no_room(steps: u32) -> Steps {
        Steps::NoRoom(steps)
    }
    fn images(&self) -> Vec<&[u8]> {
        vec![self.policy]
    }
    fn call(&self, library: Library, images: &[Vec<u8>], work: &mut [Lent; 2], path: &mut Lent) -> Result<Steps, Stray> {
        library.steps(&images[0], self.pair, work, path)
    }
    fn count(answer: Steps, tally: &mut Tally) {
        tally.steps(answer);
    }
    /// As the second search would print it.
    fn record(answer: Steps, slice: &[u32]) -> String {
        match (answer, slice.get(..2 * answer.count() as usize + 1)) {
            (Steps::Shown(_), Some(path)) => on_one_line(&Least::Steps(Path::from_entries(path)).print()),
            _ => answer.to_string(),
        }
    }
    fn asked(&self) -> String {
        let words = |x: Context| format!("{} {} {}", x.t, x.r, x.u);
        format!("least steps from {} to {}: ", words(self.pair[0]), words(self.pair[1]))
    }
}
