//! All questions of a case, and all cases of a sort.
use crate::calls::Library;
use crate::cases::{Case, Numbered, LIMIT};
use crate::loose::{self, Loose};
use crate::outputs::{self, Question};
use crate::pairs::Pair;
use crate::policies::{self, Policies};
use crate::tally::Tally;
use crate::{bare_questions, canonical, goal_question, least_steps, survival};
use flowgoal_calls::{Outcome, Steps};
use second_search::gen::Rng;

/// Who is asked, and whether what each side says is printed.
#[derive(Clone, Copy)]
pub struct Asker {
    pub library: Library,
    pub aloud: bool,
}

impl Asker {
    pub fn silent(library: Library) -> Asker {
        Asker { library, aloud: false }
    }
    pub fn say(&self, line: impl FnOnce() -> String) {
        if self.aloud {
            println!("{}", line());
        }
    }
}

/// What the library answered to a case.
#[derive(Clone, Debug)]
pub struct Said {
    pub goal: Outcome,
    pub steps: Vec<(Pair, Steps)>,
}

/// All questions of one case: what the library answered, or what was wrong.
pub fn ask(asker: Asker, mut case: Case, limit: usize, tally: &mut Tally) -> Result<Said, Vec<String>> {
    let (pairs, policies) = (policies::pairs(&case), loose::policies(&case));
    let said = ask_policy(asker, &mut case, limit, tally);
    let joins = pairs.iter().filter_map(|pair| ask_joined(asker, &case, pair, tally).err()).flatten();
    let mut wrong: Vec<String> = joins.collect();
    let mut rng = Rng(case.rng.0);
    wrong.extend(policies.iter().flat_map(|loose| ask_canonical(asker, &case, loose, &mut rng, tally)));
    match said {
        Ok(said) if wrong.is_empty() => Ok(said),
        said => Err(said.err().into_iter().flatten().chain(wrong).collect()),
    }
}

/// All questions of the policy of a case.
fn ask_policy(asker: Asker, case: &mut Case, limit: usize, tally: &mut Tally) -> Result<Said, Vec<String>> {
    let goal = goal_question::ask(asker, case, limit, tally);
    let bare = bare_questions::ask(asker, case, tally);
    let steps = least_steps::ask(asker, case, limit, tally);
    match (goal, bare, steps) {
        (Ok(goal), Ok(()), Ok(steps)) => Ok(Said { goal, steps }),
        (goal, bare, steps) => Err(goal.err().into_iter().chain(bare.err()).chain(steps.err()).collect()),
    }
}

/// The join of a pair of policies of the case, and all questions of the joined policy where that is asked for.
fn ask_joined(asker: Asker, case: &Case, pair: &Policies, tally: &mut Tally) -> Result<(), Vec<String>> {
    let image = outputs::ask(asker, pair, &pair.lengths(), tally).map_err(|why| vec![why])?;
    let Some(policy) = image.filter(|_| pair.asked_of) else { return Ok(()) };
    tally.joined();
    let mut joined = Case { name: case.name.clone(), policy, goal: case.goal.clone(), rng: Rng(case.rng.0) };
    let said = ask_policy(asker, &mut joined, LIMIT, tally);
    said.map(|_| ()).map_err(|wrong| wrong.into_iter().map(|why| format!("of the joined policy: {why}")).collect())
}

/// The canonical image of a policy of the case, and whether the answers of all other questions survive, where that is asked for; what was
/// wrong.
fn ask_canonical(asker: Asker, case: &Case, loose: &Loose, rng: &mut Rng, tally: &mut Tally) -> Vec<String> {
    let image = match canonical::ask(asker, loose, rng, tally) {
        Ok(Some(image)) if loose.asked_of => image,
        Ok(_) => return Vec::new(),
        Err(wrong) => return wrong,
    };
    let mut policy = Case { policy: loose.image.clone(), goal: case.goal.clone(), name: case.name.clone(), rng: Rng(case.rng.0) };
    let wrong = survival::ask(asker, &mut policy, &image, tally);
    wrong.into_iter().map(|why| format!("{}: {why}", loose.asked())).collect()
}

/// A numbered case that failed, and what was wrong.
pub struct Failure {
    pub number: u64,
    pub wrong: Vec<String>,
}

/// Numbered cases that were asked: what the library answered to those that did not fail, and what was met.
pub struct Asked {
    pub cases: Numbered,
    pub answers: Vec<Option<Said>>,
    pub failures: Vec<Failure>,
    pub tally: Tally,
}

/// The cases from number 0 on, in threads.
pub fn ask_all(library: Library, cases: Numbered, threads: usize) -> Asked {
    let part = |of: usize| {
        let mut tally = Tally::default();
        let mut one = |k: u64| (k, ask(Asker::silent(library), cases.case(k), LIMIT, &mut tally));
        let said: Vec<_> = (of as u64..cases.count).step_by(threads).map(&mut one).collect();
        (tally, said)
    };
    let mut asked = Asked { cases, answers: vec![None; cases.count as usize], failures: Vec::new(), tally: Tally::default() };
    std::thread::scope(|scope| {
        let parts: Vec<_> = (0..threads).map(|of| scope.spawn(move || part(of))).collect();
        for part in parts {
            let (tally, said) = part.join().expect("a thread of the cases");
            asked.tally.add(&tally);
            for (number, said) in said {
                match said {
                    Ok(answers) => asked.answers[number as usize] = Some(answers),
                    Err(wrong) => asked.failures.push(Failure { number, wrong }),
                }
            }
        }
    });
    asked.failures.sort_by_key(|failure| failure.number);
    asked
}
