//! Libraries that are wrong in one way each: the linked one, with one of its calls changed.
use crate::calls::{BareQuestion, GoalQuestion, LeastSteps, Library, LINKED};
use crate::cases::{Numbered, DAMAGED, GENERATED, LIMIT};
use flowgoal_calls::{Answer, Bare, Outcome, Steps};

/// A library that is wrong in one way, and what the test says of it.
pub struct Trial {
    pub what: &'static str,
    pub says: &'static str,
    pub cases: Numbered,
    pub library: Library,
}

/// Wrong in the goal question.
const fn goal(what: &'static str, says: &'static str, cases: Numbered, goal_question: GoalQuestion) -> Trial {
    Trial { what, says, cases, library: Library { goal_question, ..LINKED } }
}

/// Wrong in a bare question.
const fn bare(what: &'static str, says: &'static str, cases: Numbered, bare_question: BareQuestion) -> Trial {
    Trial { what, says, cases, library: Library { bare_question, ..LINKED } }
}

/// Wrong in least steps.
const fn steps(what: &'static str, says: &'static str, cases: Numbered, least_steps: LeastSteps) -> Trial {
    Trial { what, says, cases, library: Library { least_steps, ..LINKED } }
}

/// The linked library's answer, changed.
macro_rules! answered {
    ($($right:pat => $wrong:expr),*) => {
        |policy, goal, work1, work2, path| {
            Ok(match flowgoal_calls::check(policy, goal, work1, work2, path)? {
                $($right => $wrong,)*
                other => other,
            })
        }
    };
}

/// The linked library's path slice, changed; `m` are the steps of its answer.
macro_rules! written {
    ($answer:pat, $slice:ident, $m:ident, $entry:expr) => {
        |policy, goal, work1, work2, $slice| {
            let outcome = flowgoal_calls::check(policy, goal, work1, work2, $slice)?;
            let $m = outcome.steps() as usize;
            if let ($answer, Some(entry)) = (outcome, $entry) {
                *entry += 256;
            }
            Ok(outcome)
        }
    };
}

/// The linked library's answer to least steps, changed; `$x`, `$y`, `$work1` and `$path` are what it was asked and lent.
macro_rules! counted {
    (|$x:ident, $y:ident, $work1:ident, $path:ident| $($right:pat $(if $when:expr)? => $wrong:expr),*) => {
        |policy, $x, $y, $work1, work2, $path| {
            Ok(match flowgoal_calls::least_steps(policy, $x, $y, $work1, work2, $path)? {
                $($right $(if $when)? => $wrong,)*
                other => other,
            })
        }
    };
}

/// The linked library's path slice after least steps, changed; `m` are the steps of its answer.
macro_rules! drawn {
    ($answer:pat, $slice:ident, $m:ident, $entry:expr) => {
        |policy, x, y, work1, work2, $slice| {
            let answer = flowgoal_calls::least_steps(policy, x, y, work1, work2, $slice)?;
            let $m = answer.count() as usize;
            if let ($answer, Some(entry)) = (answer, $entry) {
                *entry += 256;
            }
            Ok(answer)
        }
    };
}

pub const TRIALS: [Trial; 40] = [
    goal("every goal holds", "holds, expected ", GENERATED, |_, _, _, _, _| Ok(Outcome::Holds)),
    goal("a number has a bit too many", "is no answer to the goal question", GENERATED, |policy, goal, work1, work2, path| {
        Outcome::from_raw(flowgoal_calls::check(policy, goal, work1, work2, path)?.raw() | 128)
    }),
    goal(
        "one step too many is counted",
        ", expected ",
        GENERATED,
        answered!(Outcome::Order(m) => Outcome::Order(m + 1), Outcome::Events(m) => Outcome::Events(m + 1)),
    ),
    goal("order is called events", ", expected order", GENERATED, answered!(Outcome::Order(m) => Outcome::Events(m))),
    goal(
        "12 tells no steps",
        "refused 12 0, expected refused 12 ",
        GENERATED,
        answered!(Outcome::NoRoom(_) => Outcome::NoRoom(0)),
    ),
    goal("one entry of work more is wanted", "refused 11, expected ", GENERATED, |policy, goal, work1, work2, path| {
        let shorter = work1.len().saturating_sub(1);
        flowgoal_calls::check(policy, goal, &mut work1[..shorter], work2, path)
    }),
    goal("the second work slice is not asked", "expected refused 11", GENERATED, |policy, goal, work1, _, path| {
        let mut work2 = vec![0; work1.len()];
        flowgoal_calls::check(policy, goal, work1, &mut work2, path)
    }),
    goal(
        "the path starts elsewhere",
        "the path shown: ",
        GENERATED,
        written!(Outcome::Order(_) | Outcome::Events(_), path, _m, path.first_mut()),
    ),
    goal(
        "the entry behind the path is set",
        "an entry from 2m + 1 on was changed",
        GENERATED,
        written!(Outcome::Order(_) | Outcome::Events(_), path, m, path.get_mut(2 * m + 1)),
    ),
    goal(
        "the path slice is written to with 12",
        "the path slice was changed with the answer refused 12",
        GENERATED,
        written!(Outcome::NoRoom(_), path, _m, path.first_mut()),
    ),
    goal(
        "the questions of the goal are numbered from 8",
        ", expected refused ",
        DAMAGED,
        answered!(Outcome::Refused(k @ 7..=10) => Outcome::Refused(k + 1)),
    ),
    goal("work comes before a refused goal", "refused 11, expected refused ", DAMAGED, |policy, goal, work1, work2, path| {
        match flowgoal_calls::check(policy, goal, work1, work2, path)? {
            Outcome::Refused(7..=10) if work1.is_empty() => Ok(Outcome::Refused(11)),
            other => Ok(other),
        }
    }),
    goal(
        "14 is not asked before a goal",
        "holds, expected refused 14",
        GENERATED,
        answered!(Outcome::Refused(14) => Outcome::Holds),
    ),
    bare("nothing is authorized, and nothing flows", ": no, expected ", GENERATED, |_, _, _, _, _| Ok(Answer::No)),
    bare("flow is taken for authorization", "Flows of ", GENERATED, |_, policy, x, y, e| {
        flowgoal_calls::bare(Bare::Authorized, policy, x, y, e)
    }),
    bare("13 is not asked", ": no, expected refused 13", GENERATED, |question, policy, x, y, e| {
        match flowgoal_calls::bare(question, policy, x, y, e)? {
            Answer::Refused(13) => Ok(Answer::No),
            other => Ok(other),
        }
    }),
    bare("14 is not asked before a bare question", ": no, expected refused 14", GENERATED, |question, policy, x, y, e| {
        match flowgoal_calls::bare(question, policy, x, y, e)? {
            Answer::Refused(14) => Ok(Answer::No),
            other => Ok(other),
        }
    }),
    bare("a bare answer tells of steps", "is no answer to a bare question", GENERATED, |question, policy, x, y, e| {
        Answer::from_raw(flowgoal_calls::bare(question, policy, x, y, e)?.raw() + 256)
    }),
    steps("there is never a path", ": none, expected refused 12 ", GENERATED, |_, _, _, _, _, _| Ok(Steps::None)),
    steps("least steps has a bit too many", "is no answer to least steps", GENERATED, |policy, x, y, work1, work2, path| {
        Steps::from_raw(flowgoal_calls::least_steps(policy, x, y, work1, work2, path)?.raw() | 128)
    }),
    steps(
        "a context that fails rho or mu reaches itself",
        ": steps 0, expected none",
        GENERATED,
        counted!(|x, y, _work1, _path| Steps::None if x == y => Steps::Shown(0)),
    ),
    steps(
        "a context reaches itself by no path",
        ": none, expected steps 0",
        GENERATED,
        counted!(|x, y, _work1, _path| Steps::Shown(_) if x == y => Steps::None),
    ),
    steps(
        "contexts are counted",
        ": refused 12 2, expected refused 12 1",
        GENERATED,
        counted!(|_x, _y, _work1, _path| Steps::Shown(m) => Steps::Shown(m + 1), Steps::NoRoom(m) => Steps::NoRoom(m + 1)),
    ),
    steps("the steps back are counted", ", expected ", GENERATED, |policy, x, y, work1, work2, path| {
        flowgoal_calls::least_steps(policy, y, x, work1, work2, path)
    }),
    steps("the path of the steps back is shown", "the path shown: wrong ends", GENERATED, |policy, x, y, work1, work2, path| {
        match flowgoal_calls::least_steps(policy, x, y, work1, work2, path)? {
            Steps::Shown(_) => flowgoal_calls::least_steps(policy, y, x, work1, work2, path),
            other => Ok(other),
        }
    }),
    steps("work for a leg is wanted", ": refused 11, expected ", GENERATED, |policy, x, y, work1, work2, path| {
        let half = work1.len() / 2;
        flowgoal_calls::least_steps(policy, x, y, &mut work1[..half], work2, path)
    }),
    steps("the second slice of least steps is not asked", ", expected refused 11", GENERATED, |policy, x, y, work1, _, path| {
        let mut work2 = vec![0; work1.len()];
        flowgoal_calls::least_steps(policy, x, y, work1, &mut work2, path)
    }),
    steps("the first slice of least steps is not asked", ", expected refused 11", GENERATED, |policy, x, y, _, work2, path| {
        let mut work1 = vec![0; work2.len()];
        flowgoal_calls::least_steps(policy, x, y, &mut work1, work2, path)
    }),
    steps("none comes before 11", ": none, expected refused 11", GENERATED, |policy, x, y, work1, work2, path| {
        match flowgoal_calls::least_steps(policy, x, y, work1, work2, path)? {
            Steps::Refused(11) => flowgoal_calls::least_steps(policy, x, y, &mut [0; LIMIT], &mut [0; LIMIT], path),
            other => Ok(other),
        }
    }),
    steps(
        "11 comes before 13",
        ": refused 11, expected refused 13",
        GENERATED,
        counted!(|_x, _y, work1, _path| Steps::Refused(13) if work1.is_empty() => Steps::Refused(11)),
    ),
    steps(
        "11 comes before 14",
        ": refused 11, expected refused 14",
        GENERATED,
        counted!(|_x, _y, work1, _path| Steps::Refused(14) if work1.is_empty() => Steps::Refused(11)),
    ),
    steps(
        "14 is not asked before least steps",
        ": none, expected refused 14",
        GENERATED,
        counted!(|_x, _y, _work1, _path| Steps::Refused(14) => Steps::None),
    ),
    steps(
        "13 is asked of the first context alone",
        ": none, expected refused 13",
        GENERATED,
        |policy, x, y, work1, work2, path| match flowgoal_calls::least_steps(policy, x, y, work1, work2, path)? {
            Steps::Refused(13) if flowgoal_calls::least_steps(policy, x, x, work1, work2, path)? != Steps::Refused(13) => {
                Ok(Steps::None)
            }
            other => Ok(other),
        },
    ),
    steps(
        "12 is asked where there is no path",
        ": refused 12 0, expected none",
        GENERATED,
        counted!(|_x, _y, _work1, path| Steps::None if path.is_empty() => Steps::NoRoom(0)),
    ),
    steps(
        "12 of least steps tells no steps",
        ": refused 12 0, expected refused 12 ",
        GENERATED,
        counted!(|_x, _y, _work1, _path| Steps::NoRoom(_) => Steps::NoRoom(0)),
    ),
    steps("2m + 2 entries are wanted", ": refused 12 0, expected steps 0", GENERATED, |policy, x, y, work1, work2, path| {
        let shorter = path.len().saturating_sub(1);
        flowgoal_calls::least_steps(policy, x, y, work1, work2, &mut path[..shorter])
    }),
    steps(
        "none is written into the slice",
        "the path slice was changed with the answer none",
        GENERATED,
        drawn!(Steps::None, path, _m, path.first_mut()),
    ),
    steps(
        "12 of least steps is written into the slice",
        "the path slice was changed with the answer refused 12",
        GENERATED,
        drawn!(Steps::NoRoom(_), path, _m, path.first_mut()),
    ),
    steps(
        "the path of least steps ends elsewhere",
        "the path shown: ",
        GENERATED,
        drawn!(Steps::Shown(_), path, m, path.get_mut(2 * m)),
    ),
    steps(
        "the entry behind the path of least steps is set",
        "an entry from 2m + 1 on was changed",
        GENERATED,
        drawn!(Steps::Shown(_), path, m, path.get_mut(2 * m + 1)),
    ),
];
