//! The pairs of contexts that least steps is asked of: of every sort in each case.
use crate::bare_questions::{counts, near};
use crate::cases::{landed, Case};
use second_search::gen::Rng;
use second_search::goal::{check_goal, Goal, Item};
use second_search::policy::{check_policy_landed, Context, Policy};

/// From the first to the second.
pub type Pair = [Context; 2];

/// So many contexts are drawn for one that meets ρ and μ.
const DRAWN: usize = 20;

/// Contexts of a policy, drawn at random.
struct Drawer<'a> {
    policy: &'a Policy,
    goal: Option<&'a Goal>,
    rng: &'a mut Rng,
}

impl Drawer<'_> {
    /// One in range.
    fn any(&mut self) -> Context {
        let Policy { types, roles, users, .. } = *self.policy;
        Context { t: self.rng.range(1, types), r: self.rng.range(1, roles), u: self.rng.range(1, users) }
    }

    /// One that meets ρ and μ, if one is met among some.
    fn valid(&mut self) -> Context {
        let mut x = self.any();
        for _ in 1..DRAWN {
            if self.policy.valid(x) {
                break;
            }
            x = self.any();
        }
        x
    }

    /// One that a record of a σ of the goal names, with what the record leaves open at random; where there is none, a valid one.
    fn named(&mut self, sigma: usize) -> Context {
        let items = self.goal.map_or(&[][..], |goal| &goal.items);
        let named: Vec<Item> = items.iter().filter(|item| item.0 == sigma).map(|item| item.1).collect();
        let valid = self.valid();
        if named.is_empty() {
            return valid;
        }
        match self.rng.pick(&named) {
            Item::Sigma { t, r, u } => {
                let or = |field: u32, drawn: u32| if field == 0 { drawn } else { field };
                let x = Context { t: or(t, valid.t), r: or(r, valid.r), u: or(u, valid.u) };
                // the type may be held by another role
                let others = (1..=self.policy.roles).map(|other| Context { r: or(r, other), ..x });
                [x].into_iter().chain(others).find(|&x| self.policy.valid(x)).unwrap_or(x)
            }
            Item::Gamma { .. } => valid,
        }
    }

    /// The pair with one of its six numbers out of range.
    fn out_of_range(&mut self, mut pair: Pair) -> Pair {
        let Policy { types, roles, users, .. } = *self.policy;
        let x = &mut pair[self.rng.range(0, 1) as usize];
        let (field, count) = match self.rng.range(0, 2) {
            0 => (&mut x.t, types),
            1 => (&mut x.r, roles),
            _ => (&mut x.u, users),
        };
        // right in its low byte or its low half only, at times
        *field = self.rng.pick(&[0, 0, count + 1, 256 + *field, 65536 + *field, u32::MAX, u32::MAX - 299]);
        pair
    }

    fn pairs(&mut self) -> Vec<Pair> {
        let end = self.goal.map_or(1, |goal| goal.n);
        let of_goal = [self.named(0), self.named(end)];
        let valid = [self.valid(), self.valid()];
        let any = [self.any(), self.any()];
        let one = if self.rng.chance(50) { self.any() } else { self.valid() };
        let inside = if self.rng.chance(50) { valid } else { any };
        vec![of_goal, valid, any, [one, one], self.out_of_range(inside)]
    }
}

/// The pairs of a case: those of the goal's start and end, of valid contexts, of any in range, of a context and itself, and one
/// that is out of range. Of a policy that is refused, one pair by what its header says of the counts.
pub fn pairs(case: &mut Case) -> Vec<Pair> {
    let Case { policy, goal, rng, .. } = case;
    match check_policy_landed(landed(), policy) {
        Ok(policy) => {
            let goal = check_goal(goal, &policy).ok();
            Drawer { policy: &policy, goal: goal.as_ref(), rng }.pairs()
        }
        Err(_) => {
            let [types, roles, users, _] = counts(policy);
            let mut context = || Context { t: near(rng, types), r: near(rng, roles), u: near(rng, users) };
            vec![[context(), context()]]
        }
    }
}
