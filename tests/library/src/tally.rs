//! How often each answer and each refusal was met.
use crate::retold::{NEAR, SAME};
use flowgoal_calls::{Answer, Bare, Outcome, Steps, Writing};
use std::collections::BTreeMap;

/// Each answer must be met at least so often.
const LEAST: u64 = 10;

/// A question, and an answer to it by its name: m is not part of what is counted.
type Met = (&'static str, String);

#[derive(Default)]
pub struct Tally {
    met: BTreeMap<Met, u64>,
    joined: u64,
    again: u64,
    nodes: usize,
    longest: u32,
    most_joined: u32,
    most_canonical: u32,
}

fn of_goal(outcome: Outcome) -> Met {
    ("goal question", outcome.name())
}

fn of_bare(question: Bare, answer: Answer) -> Met {
    let name = match question {
        Bare::Authorized => "authorized",
        Bare::Flows => "flows",
    };
    (name, answer.to_string())
}

fn of_steps(answer: Steps) -> Met {
    ("least steps", answer.name())
}

fn of_join(answer: Writing) -> Met {
    ("join", answer.name())
}

fn of_canonical(answer: Writing) -> Met {
    ("canonical image", answer.name())
}

/// A policy told in other words.
fn of_told(words: &str, same: bool) -> Met {
    (if same { "the same image, told" } else { "another image, told" }, words.to_string())
}

/// An answer that was the same of a policy and of its canonical image.
fn of_survived((question, answer): Met) -> Met {
    ("as of the policy", format!("{question}: {answer}"))
}

/// Every answer that there is, in the order of the questions.
fn answers() -> Vec<Met> {
    let policy = || (1..=6).chain([14]);
    let mut all: Vec<Met> = [Outcome::Holds, Outcome::Order(0), Outcome::Events(0)].map(of_goal).to_vec();
    all.extend((1..=11).chain([14]).map(|k| of_goal(Outcome::Refused(k))));
    all.push(of_goal(Outcome::NoRoom(0)));
    for question in [Bare::Authorized, Bare::Flows] {
        all.extend([Answer::No, Answer::Yes].map(|answer| of_bare(question, answer)));
        all.extend(policy().chain([13]).map(|k| of_bare(question, Answer::Refused(k))));
    }
    all.extend([Steps::None, Steps::Shown(0)].map(of_steps));
    all.extend(policy().chain([13, 11]).map(|k| of_steps(Steps::Refused(k))));
    all.push(of_steps(Steps::NoRoom(0)));
    for of in [of_join, of_canonical] {
        all.push(of(Writing::Written(0)));
        all.extend(policy().chain([15, 16]).map(|k| of(Writing::Refused(k))));
    }
    all.extend(SAME.iter().map(|way| of_told(way.words, true)));
    all.extend(NEAR.iter().map(|way| of_told(way.words, false)));
    let mut survived = [Outcome::Holds, Outcome::Order(0), Outcome::Events(0)].map(of_goal).to_vec();
    survived.extend([Steps::None, Steps::Shown(0)].map(of_steps));
    for question in [Bare::Authorized, Bare::Flows] {
        survived.extend([Answer::No, Answer::Yes].map(|answer| of_bare(question, answer)));
    }
    all.extend(survived.into_iter().map(of_survived));
    all
}

impl Tally {
    fn count(&mut self, met: Met) {
        *self.met.entry(met).or_default() += 1;
    }
    pub fn goal(&mut self, outcome: Outcome) {
        self.count(of_goal(outcome));
    }
    pub fn bare(&mut self, question: Bare, answer: Answer) {
        self.count(of_bare(question, answer));
    }
    pub fn steps(&mut self, answer: Steps) {
        self.count(of_steps(answer));
        self.longest = self.longest.max(answer.count());
    }
    pub fn join(&mut self, answer: Writing) {
        self.count(of_join(answer));
        if let Writing::Written(bytes) = answer {
            self.most_joined = self.most_joined.max(bytes);
        }
    }
    pub fn canonical(&mut self, answer: Writing) {
        self.count(of_canonical(answer));
        if let Writing::Written(bytes) = answer {
            self.most_canonical = self.most_canonical.max(bytes);
        }
    }
    /// A canonical image was written again.
    pub fn again(&mut self) {
        self.again += 1;
    }
    pub fn all_again(&self) -> u64 {
        self.again
    }
    /// A policy was told in other words, which say the same or something else.
    pub fn told(&mut self, words: &str, same: bool) {
        self.count(of_told(words, same));
    }
    pub fn survived_goal(&mut self, outcome: Outcome) {
        self.count(of_survived(of_goal(outcome)));
    }
    pub fn survived_bare(&mut self, question: Bare, answer: Answer) {
        self.count(of_survived(of_bare(question, answer)));
    }
    pub fn survived_steps(&mut self, answer: Steps) {
        self.count(of_survived(of_steps(answer)));
    }
    /// All other questions are asked of a joined policy.
    pub fn joined(&mut self) {
        self.joined += 1;
    }
    /// The joined policies of which all other questions were asked.
    pub fn all_joined(&self) -> u64 {
        self.joined
    }
    /// The bytes of the largest image that a join wrote, and of the largest canonical image.
    pub fn most_bytes(&self) -> [usize; 2] {
        [self.most_joined as usize, self.most_canonical as usize]
    }
    /// A search went over so many nodes.
    pub fn nodes(&mut self, count: usize) {
        self.nodes = self.nodes.max(count);
    }
    pub fn most_nodes(&self) -> usize {
        self.nodes
    }
    /// The most steps of a least path.
    pub fn longest(&self) -> u32 {
        self.longest
    }
    pub fn add(&mut self, other: &Tally) {
        for (met, times) in &other.met {
            *self.met.entry(met.clone()).or_default() += times;
        }
        self.joined += other.joined;
        self.again += other.again;
        self.nodes = self.nodes.max(other.nodes);
        self.longest = self.longest.max(other.longest);
        self.most_joined = self.most_joined.max(other.most_joined);
        self.most_canonical = self.most_canonical.max(other.most_canonical);
    }

    /// One line for each answer that there is; gives how many were met often enough and how many were not.
    pub fn print(&self) -> (u64, u64) {
        let mut counts = (0, 0);
        for met in answers() {
            let times = self.met.get(&met).copied().unwrap_or(0);
            let enough = times >= LEAST;
            let note = if enough { String::new() } else { format!("  (too few: at least {LEAST} are wanted)") };
            println!("{times:9}  {}: {}{note}", met.0, met.1);
            if enough {
                counts.0 += 1;
            } else {
                counts.1 += 1;
            }
        }
        counts
    }
}
