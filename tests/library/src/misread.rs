//! Do the cases tell each misreading apart from the library? Cases are gone through in order until enough do.
use crate::asking::{Asked, Said};
use crate::calls::{Lent, LINKED};
use crate::cases::{contexts, landed, nodes, Case, LIMIT};
use crate::loose::{policies, Loose};
use crate::outputs::Question;
use crate::policies::{pairs, Policies};
use misreadings::{canonical_number, join_number, number, steps_number, Misreading};
use misreadings::{OF_CANONICAL, OF_FLOW, OF_GOALS, OF_IMAGES, OF_JOINS, OF_STEPS, OF_WRITING};
use second_search::answer::check_both_landed;
use second_search::policy::check_policy_landed;

/// So many cases must tell a misreading apart.
const WANTED: usize = 20;
/// Cases with more nodes are left out: they take long, and small ones tell as much.
const NODES: usize = 2048;
/// So many cases are gone through at the most for least steps, joins and canonical images, each of which asks several times.
const FOR_SEVERAL: usize = 5000;

/// How the specification is read: with a misreading or with none, and that in words.
struct Read {
    misreading: Option<Misreading>,
    words: &'static str,
}

/// Does one who reads so answer a case in another way than the library?
type Apart = fn(Option<Misreading>, &Case, &Said) -> bool;

fn by_goal(misreading: Option<Misreading>, case: &Case, said: &Said) -> bool {
    number(misreading, &case.policy, &case.goal, LIMIT) != said.goal.raw()
}

fn by_steps(misreading: Option<Misreading>, case: &Case, said: &Said) -> bool {
    let work = check_policy_landed(landed(), &case.policy).map_or(LIMIT, |policy| contexts(&policy));
    said.steps.iter().any(|(pair, steps)| {
        let pair = pair.map(|x| [x.t, x.r, x.u]);
        steps_number(misreading, &case.policy, &case.goal, pair, work) != steps.raw()
    })
}

/// Does one who answers so, and writes into the output, differ from the library? That is asked again: what it wrote is not kept.
fn by_writing<Q: Question>(question: &Q, number: impl Fn(&mut [u8]) -> u64) -> bool {
    let images: Vec<Vec<u8>> = question.images().into_iter().map(<[u8]>::to_vec).collect();
    question.lengths().into_iter().any(|length| {
        let (mut theirs, mut output) = (Lent::new(length), Lent::new(length));
        let number = number(theirs.lend());
        let answer = question.call(LINKED, &images, &mut output);
        answer.map(|answer| answer.raw()) != Ok(number) || theirs.entries() != output.entries()
    })
}

fn by_join(misreading: Option<Misreading>, case: &Case, _: &Said) -> bool {
    let apart = |pair: &Policies| by_writing(pair, |output| join_number(misreading, &pair.maker, &pair.board, output));
    pairs(case).iter().any(apart)
}

fn by_canonical(misreading: Option<Misreading>, case: &Case, _: &Said) -> bool {
    let apart = |loose: &Loose| by_writing(loose, |output| canonical_number(misreading, &loose.image, output));
    policies(case).iter().any(apart)
}

/// The cases that are gone through: small ones, by their numbers.
struct Gone<'a> {
    /// stands before the words of each misreading
    question: &'static str,
    asked: &'a Asked,
    small: Vec<(u64, &'a Said)>,
    apart: Apart,
}

impl Asked {
    /// The cases that are small enough, each with what the library said.
    fn small(&self) -> Vec<(u64, &Said)> {
        let size = |k: u64| {
            let case = self.cases.case(k);
            check_both_landed(landed(), &case.policy, &case.goal).map_or(0, |(p, g)| nodes(&p, &g))
        };
        let known = self.answers.iter().enumerate().filter_map(|(k, said)| said.as_ref().map(|said| (k as u64, said)));
        known.filter(|&(k, _)| size(k) <= NODES).collect()
    }
}

impl Gone<'_> {
    /// How many of the small cases were gone through, and how many of them tell the misreading apart.
    fn told(&self, misreading: Option<Misreading>) -> (usize, usize) {
        let mut apart = 0;
        for (gone, &(k, said)) in self.small.iter().enumerate() {
            apart += (self.apart)(misreading, &self.asked.cases.case(k), said) as usize;
            if apart == WANTED {
                return (gone + 1, apart);
            }
        }
        (self.small.len(), apart)
    }

    /// `told` for each of the misreadings, in threads.
    fn told_all(&self, misreadings: &[Read], threads: usize) -> Vec<(usize, usize)> {
        std::thread::scope(|scope| {
            let part = |of: usize| {
                scope.spawn(move || {
                    let mine = misreadings.iter().enumerate().skip(of).step_by(threads);
                    mine.map(|(i, read)| (i, self.told(read.misreading))).collect::<Vec<_>>()
                })
            };
            let parts: Vec<_> = (0..threads).map(part).collect();
            let mut all: Vec<_> = parts.into_iter().flat_map(|p| p.join().expect("a thread of the table")).collect();
            all.sort();
            all.into_iter().map(|(_, line)| line).collect()
        })
    }

    /// One line for each misreading, after one for none at all; gives how many are told apart as often as they should be, and how
    /// many are not.
    fn table(&self, lists: &[&[(Misreading, &'static str)]], threads: usize) -> (u64, u64) {
        // the copy with nothing switched on must be the second search itself
        let none = Read { misreading: None, words: "nothing misread: no case may tell it apart" };
        let read = lists.concat().into_iter().map(|(misreading, words)| Read { misreading: Some(misreading), words });
        let all: Vec<Read> = [none].into_iter().chain(read).collect();
        let mut counts = (0, 0);
        for (Read { misreading, words }, (gone, apart)) in all.iter().zip(self.told_all(&all, threads)) {
            let right = if misreading.is_some() { apart >= WANTED } else { apart == 0 };
            let (sort, question) = (self.asked.cases.sort, self.question);
            let note = if right { "" } else { "  (FAILED)" };
            println!("{apart:5} of the first {gone:5} {sort} cases: {question}{words}{note}");
            if right {
                counts.0 += 1;
            } else {
                counts.1 += 1;
            }
        }
        counts
    }
}

/// Misreadings of what breaks a goal, of least steps, of joins and of canonical images are for the generated cases to tell apart, those of
/// the images for the damaged ones. Those of flow are for both questions that go by it, and so are those of what is written.
pub fn tables(generated: &Asked, damaged: &Asked, threads: usize) -> [(u64, u64); 5] {
    println!("misreadings that the cases tell apart (at least {WANTED} of the cases must):");
    let small = generated.small();
    let few: Vec<_> = small.iter().copied().take(FOR_SEVERAL).collect();
    let goals = Gone { question: "", asked: generated, small, apart: by_goal };
    let steps = Gone { question: "least steps: ", asked: generated, small: few.clone(), apart: by_steps };
    let images = Gone { question: "", asked: damaged, small: damaged.small(), apart: by_goal };
    let joins = Gone { question: "join: ", asked: generated, small: few.clone(), apart: by_join };
    let canonical = Gone { question: "canonical image: ", asked: generated, small: few, apart: by_canonical };
    [
        goals.table(&[OF_GOALS, OF_FLOW], threads),
        steps.table(&[OF_STEPS, OF_FLOW], threads),
        images.table(&[OF_IMAGES], threads),
        joins.table(&[OF_JOINS, OF_WRITING], threads),
        canonical.table(&[OF_CANONICAL, OF_WRITING], threads),
    ]
}
