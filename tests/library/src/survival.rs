//! "Every authorization answer survives the writing": the library is asked the same of a policy and of its canonical image.
use crate::asking::Asker;
use crate::bare_questions::arguments;
use crate::calls::Lent;
use crate::cases::{contexts, landed, nodes, Case, LIMIT};
use crate::pairs::pairs;
use crate::tally::Tally;
use flowgoal_calls::{Bare, Outcome};
use second_search::answer::check_both_landed;
use second_search::paths::{validate, Sort};
use second_search::policy::check_policy_landed;
use std::fmt::Display;

/// How often each bare question is asked.
const ASKED: usize = 6;
/// Entries of the path slices: a longer path is told of by its steps alone.
const PATH: usize = 101;

/// A policy, its canonical image, and who is asked.
struct Both<'a> {
    asker: Asker,
    policy: &'a [u8],
    image: &'a [u8],
}

/// The answer where both give it, counted.
fn same<A: PartialEq + Display>(asked: impl Fn() -> String, answers: [A; 2]) -> Result<A, String> {
    let [of_policy, of_image] = answers;
    match of_policy == of_image {
        true => Ok(of_image),
        false => Err(format!("{}: {of_image} of the canonical image, {of_policy} of the policy", asked())),
    }
}

impl Both<'_> {
    fn goal(&self, goal: &[u8], tally: &mut Tally) -> Result<(), String> {
        let checked = check_both_landed(landed(), self.policy, goal);
        let work = checked.as_ref().map_or(LIMIT, |(p, g)| nodes(p, g)).min(LIMIT);
        let mut path = Lent::new(PATH);
        let mut say = |policy: &[u8]| {
            path = Lent::new(PATH);
            self.asker.library.check(policy, goal, &mut [work; 2].map(Lent::new), &mut path).map_err(|stray| stray.to_string())
        };
        // the path that is left is that of the image
        let outcome = same(|| "the goal question".to_string(), [say(self.policy)?, say(self.image)?])?;
        tally.survived_goal(outcome);
        let sort = match outcome {
            Outcome::Order(_) => Sort::Order,
            Outcome::Events(_) => Sort::Events,
            _ => return Ok(()),
        };
        let (Ok((p, g)), steps) = (&checked, outcome.steps() as usize) else { return Ok(()) };
        let entries = &path.entries()[..2 * steps + 1];
        let wrong = |why| format!("the goal question: the path shown of the canonical image, in the policy: {why}");
        validate(p, g, entries, sort, steps).map_err(wrong)
    }

    fn bare(&self, case: &mut Case, tally: &mut Tally) -> Result<(), String> {
        for question in [Bare::Authorized, Bare::Flows] {
            for _ in 0..ASKED {
                let (x, y, e) = arguments(&mut case.rng, self.policy);
                let say = |policy: &[u8]| self.asker.library.bare(question, policy, x, y, e).map_err(|stray| stray.to_string());
                let asked = || format!("{question:?} of {x:?}, {y:?}, {e:?}");
                tally.survived_bare(question, same(asked, [say(self.policy)?, say(self.image)?])?);
            }
        }
        Ok(())
    }

    fn steps(&self, case: &mut Case, tally: &mut Tally) -> Result<(), String> {
        let work = check_policy_landed(landed(), self.policy).map_or(LIMIT, |policy| contexts(&policy)).min(LIMIT);
        for pair in pairs(case) {
            let say = |policy: &[u8]| {
                let (mut work, mut path) = ([work; 2].map(Lent::new), Lent::new(PATH));
                self.asker.library.steps(policy, pair, &mut work, &mut path).map_err(|stray| stray.to_string())
            };
            let asked = || format!("least steps of {:?}, {:?}", pair[0], pair[1]);
            tally.survived_steps(same(asked, [say(self.policy)?, say(self.image)?])?);
        }
        Ok(())
    }
}

/// All questions of the case, put to its policy and to the canonical image of it.
pub fn ask(asker: Asker, case: &mut Case, image: &[u8], tally: &mut Tally) -> Vec<String> {
    let (policy, goal) = (case.policy.clone(), case.goal.clone());
    let both = Both { asker, policy: &policy, image };
    let asked = [both.goal(&goal, tally), both.bare(case, tally), both.steps(case, tally)];
    asker.say(|| format!("the canonical image: {} of 3 questions are answered as of the policy", asked.iter().flatten().count()));
    asked.into_iter().filter_map(Result::err).collect()
}
