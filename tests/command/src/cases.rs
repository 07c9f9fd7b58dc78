//! Cases by the second search's generator, seeded by their numbers.
use second_search::gen::Rng;
use second_search::goal::Goal;
use second_search::landed::Landed;
use second_search::policy::{check_policy_landed, Context, Event, Policy};
use second_search::vary::landed_case;

/// The requests that have landed.
pub fn landed() -> Landed {
    Landed::parse(include_str!("../../landed.txt").trim()).expect("letters of requests")
}

pub struct Case {
    pub number: u64,
    pub policy: Policy,
    pub goal: Goal,
    pub rng: Rng,
}

/// The most types of a case.
const SIZES: [u32; 8] = [2, 3, 4, 5, 6, 8, 10, 14];

/// Cases whose policy is accepted.
pub fn cases(count: u64) -> impl Iterator<Item = Case> {
    let draw = |number: u64| {
        let mut rng = Rng(number.wrapping_mul(7919) + 17);
        let (policy, goal) = landed_case(&mut rng, SIZES[(number % 8) as usize], landed());
        Case { number, policy, goal, rng }
    };
    (0..count).map(draw).filter(|case| check_policy_landed(landed(), &case.policy.encode()).is_ok())
}

pub fn numbers(x: Context) -> [u32; 3] {
    [x.t, x.r, x.u]
}

pub fn event(e: Event) -> [u32; 2] {
    [e.c, e.p]
}
