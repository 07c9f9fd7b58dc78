//! The numbers that the calls give against their names: each number of the specification by itself, and that no other passes.
use flowgoal_calls::{Answer, Outcome, Steps, Stray, Writing};
use std::fmt::Debug;

/// 256m + 4k + answer, worked out by hand.
const OUTCOMES: [(u64, Outcome); 23] = [
    (0, Outcome::Holds),
    (1, Outcome::Order(0)),
    (257, Outcome::Order(1)),
    (30_209, Outcome::Order(118)),
    (2, Outcome::Events(0)),
    (770, Outcome::Events(3)),
    (940_031_746, Outcome::Events(3_671_999)),
    (7, Outcome::Refused(1)),
    (11, Outcome::Refused(2)),
    (15, Outcome::Refused(3)),
    (19, Outcome::Refused(4)),
    (23, Outcome::Refused(5)),
    (27, Outcome::Refused(6)),
    (31, Outcome::Refused(7)),
    (35, Outcome::Refused(8)),
    (39, Outcome::Refused(9)),
    (43, Outcome::Refused(10)),
    (47, Outcome::Refused(11)),
    (59, Outcome::Refused(14)),
    (51, Outcome::NoRoom(0)),
    (307, Outcome::NoRoom(1)),
    (1331, Outcome::NoRoom(5)),
    (524_595, Outcome::NoRoom(2049)),
];

const ANSWERS: [(u64, Answer); 10] = [
    (0, Answer::No),
    (1, Answer::Yes),
    (7, Answer::Refused(1)),
    (11, Answer::Refused(2)),
    (15, Answer::Refused(3)),
    (19, Answer::Refused(4)),
    (23, Answer::Refused(5)),
    (27, Answer::Refused(6)),
    (55, Answer::Refused(13)),
    (59, Answer::Refused(14)),
];

const STEPS: [(u64, Steps); 16] = [
    (0, Steps::None),
    (1, Steps::Shown(0)),
    (769, Steps::Shown(3)),
    (14_687_745, Steps::Shown(57_374)),
    (7, Steps::Refused(1)),
    (11, Steps::Refused(2)),
    (15, Steps::Refused(3)),
    (19, Steps::Refused(4)),
    (23, Steps::Refused(5)),
    (27, Steps::Refused(6)),
    (47, Steps::Refused(11)),
    (55, Steps::Refused(13)),
    (59, Steps::Refused(14)),
    (51, Steps::NoRoom(0)),
    (819, Steps::NoRoom(3)),
    (14_687_795, Steps::NoRoom(57_374)),
];

/// A length is that of a policy image of 0 to 4,095 records.
const WRITINGS: [(u64, Writing); 13] = [
    (6144, Writing::Written(24)),
    (9216, Writing::Written(36)),
    (39_936, Writing::Written(156)),
    (12_585_984, Writing::Written(49_164)),
    (7, Writing::Refused(1)),
    (11, Writing::Refused(2)),
    (15, Writing::Refused(3)),
    (19, Writing::Refused(4)),
    (23, Writing::Refused(5)),
    (27, Writing::Refused(6)),
    (59, Writing::Refused(14)),
    (63, Writing::Refused(15)),
    (67, Writing::Refused(16)),
];

/// Numbers with a bit that has no place in them: a refusal with no number, holds with a number or with steps, order with a number,
/// a refusal other than 12 with steps, one that the question has not, and bits above the 32 of the steps.
const NO_OUTCOME: [u64; 14] = [3, 4, 256, 5, 6, 263, 303, 315, 55, 255, 1 << 40, 1 << 40 | 1, 1 << 63, u64::MAX];

/// The same of the bare questions, which tell of no steps and have no refusal from 7 to 12.
const NO_ANSWER: [u64; 13] = [2, 3, 4, 5, 31, 51, 63, 256, 257, 311, 315, 1 << 63, u64::MAX];

/// The same of least steps, which has no events and no refusal from 7 to 10, and tells of no steps with none, 11, 13 or 14.
const NO_STEPS: [u64; 15] = [2, 3, 4, 5, 31, 43, 63, 256, 258, 303, 311, 315, 1 << 40 | 1, 1 << 63, u64::MAX];

/// The same of a call that writes: besides, one with no length, with one that no policy has, and with one of 4,096 records.
const NO_WRITING: [u64; 17] = [0, 1, 2, 3, 4, 31, 47, 51, 55, 71, 256, 6145, 6400, 6151, 12_589_056, 1 << 40 | 6144, u64::MAX];

/// A number below this is looked at, whatever it is.
const EVERY: u64 = 1 << 16;

/// What a question is answered with: from the number, and back to it.
struct Named<A> {
    from_raw: fn(u64) -> Result<A, Stray>,
    raw: fn(A) -> u64,
}

const OUTCOME: Named<Outcome> = Named { from_raw: Outcome::from_raw, raw: Outcome::raw };
const ANSWER: Named<Answer> = Named { from_raw: Answer::from_raw, raw: Answer::raw };
const LEAST: Named<Steps> = Named { from_raw: Steps::from_raw, raw: Steps::raw };
const WRITING: Named<Writing> = Named { from_raw: Writing::from_raw, raw: Writing::raw };

impl<A: Copy + PartialEq + Debug> Named<A> {
    /// One line for each number that is taken for something else: these are answers, and these are none.
    fn wrong(&self, answers: &[(u64, A)], none: &[u64]) -> Vec<String> {
        let mut wrong = Vec::new();
        for &(raw, answer) in answers {
            let (said, back) = ((self.from_raw)(raw), (self.raw)(answer));
            if said != Ok(answer) || back != raw {
                wrong.push(format!("{raw} is {said:?}, and {answer:?} is {back}"));
            }
        }
        for &raw in none {
            match (self.from_raw)(raw) {
                Err(stray) if stray.number == raw && stray.to_string().contains(&raw.to_string()) => (),
                said => wrong.push(format!("{raw} is no answer, and is taken for {said:?}")),
            }
        }
        wrong
    }

    /// How many of the numbers below `EVERY` are answers, where each gives its own number back.
    fn accepted(&self) -> usize {
        (0..EVERY).filter(|&raw| (self.from_raw)(raw).is_ok_and(|answer| (self.raw)(answer) == raw)).count()
    }
}

pub fn check_all() -> (u64, u64) {
    let mut wrong = OUTCOME.wrong(&OUTCOMES, &NO_OUTCOME);
    wrong.extend(ANSWER.wrong(&ANSWERS, &NO_ANSWER));
    wrong.extend(LEAST.wrong(&STEPS, &NO_STEPS));
    wrong.extend(WRITING.wrong(&WRITINGS, &NO_WRITING));
    // a goal, with no step: holds, order, events and thirteen refusals; with 1 to 255 steps: order, events and 12. Least steps, with
    // no step: none, shown and ten refusals; with 1 to 255: shown and 12. What is written: images of 0 to 19 records, and nine refusals.
    let wanted = [16 + 255 * 3, ANSWERS.len(), 12 + 255 * 2, 20 + 9];
    let accepted = [OUTCOME.accepted(), ANSWER.accepted(), LEAST.accepted(), WRITING.accepted()];
    if accepted != wanted {
        wrong.push(format!("of the numbers below {EVERY}, {accepted:?} are answers, by question; expected {wanted:?}"));
    }
    wrong.iter().for_each(|line| println!("{line}"));
    let answers = OUTCOMES.len() + ANSWERS.len() + STEPS.len() + WRITINGS.len();
    let looked = answers + NO_OUTCOME.len() + NO_ANSWER.len() + NO_STEPS.len() + NO_WRITING.len() + 1;
    println!("{looked} numbers of answers by hand: {} wrong", wrong.len());
    (looked as u64 - wrong.len() as u64, wrong.len() as u64)
}
