//! One case of the goal question: the library's answers for every length of the lent slices against the second search's one.
use crate::asking::Asker;
use crate::calls::{Lent, Library};
use crate::cases::{landed, nodes, Case, LIMIT};
use crate::lending::{on_one_line, Asking, Lengths, Question, Shortest};
use crate::tally::Tally;
use flowgoal_calls::{Outcome, Stray};
use second_search::answer::{check_both_landed, goal_question_landed, Answer};
use second_search::paths::{validate, Path, Sort};

/// The library's answer to the case, each work slice being lent as many entries as are needed, or the limit where more are.
pub fn ask(asker: Asker, case: &mut Case, limit: usize, tally: &mut Tally) -> Result<Outcome, String> {
    let Case { policy, goal, rng, .. } = case;
    let both = check_both_landed(landed(), policy, goal);
    let need = both.as_ref().map_or(LIMIT, |(p, g)| nodes(p, g));
    let searched = both.is_ok() && need <= limit;
    tally.nodes(if searched { need } else { 0 });
    let lent = need.min(limit);
    let ours = goal_question_landed(landed(), policy, goal, [lent; 2], &mut vec![0; 2 * lent + 1]);
    asker.say(|| format!("the second search says: {}", on_one_line(&ours.print())));
    // the second search has a formula of its own for the number, so that both are held to it
    let wanted = Outcome::from_raw(ours.number()).map_err(|stray| format!("the second search: {stray}"))?;
    let mut asking = Asking { asker, question: OfGoal { policy, goal }, tally };
    match (&ours, &both) {
        (Answer::Broken(sort, path), Ok((p, g))) => {
            let steps = path.steps();
            let valid = |shown: &[u32]| validate(p, g, shown, *sort, steps);
            asking.every_length(lent, &Shortest { steps, answer: wanted, validate: &valid })?;
        }
        _ => {
            let path = rng.range(0, 9) as usize;
            asking.untouched(Lengths { work: [lent; 2], path }, wanted)?;
        }
    }
    if searched {
        asking.too_little_work(need)?;
    } else if both.is_err() {
        // a refused image comes before the work slices
        asking.untouched(Lengths { work: [0, 0], path: 0 }, wanted)?;
    }
    Ok(wanted)
}

struct OfGoal<'a> {
    policy: &'a [u8],
    goal: &'a [u8],
}

impl Question for OfGoal<'_> {
    type Answer = Outcome;
    const NO_WORK: Outcome = Outcome::Refused(11);
    fn no_room(steps: u32) -> Outcome {
        Outcome::NoRoom(steps)
    }
    fn images(&self) -> Vec<&[u8]> {
        vec![self.policy, self.goal]
    }
    fn call(&self, library: Library, images: &[Vec<u8>], work: &mut [Lent; 2], path: &mut Lent) -> Result<Outcome, Stray> {
        library.check(&images[0], &images[1], work, path)
    }
    fn count(outcome: Outcome, tally: &mut Tally) {
        tally.goal(outcome);
    }
    /// As the goal program would print it.
    fn record(outcome: Outcome, slice: &[u32]) -> String {
        let path = slice.get(..2 * outcome.steps() as usize + 1).map(Path::from_entries);
        match (outcome, path) {
            (Outcome::Order(_), Some(path)) => on_one_line(&Answer::Broken(Sort::Order, path).print()),
            (Outcome::Events(_), Some(path)) => on_one_line(&Answer::Broken(Sort::Events, path).print()),
            _ => outcome.to_string(),
        }
    }
    fn asked(&self) -> String {
        String::new()
    }
}
