//! The cases: seeded by their numbers, so that a case that fails can be asked again.
use second_search::gen::{damage, Rng};
use second_search::goal::{Goal, Item, SIGMA_E};
use second_search::landed::Landed;
use second_search::policy::{Policy, Record};
use second_search::vary::landed_case;

/// The requests that have landed in the library, by their letters.
const LANDED: &str = include_str!("../../landed.txt");

/// What the second search is asked for: the base, and the requests that have landed.
pub fn landed() -> Landed {
    Landed::parse(LANDED.trim()).expect("letters of requests")
}

/// The entries that the goal program lends in each work slice.
pub const LIMIT: usize = 16384;

/// Cases that are made from their numbers.
#[derive(Clone, Copy)]
pub struct Numbered {
    pub sort: &'static str,
    /// A run asks as many of them, from number 0 on.
    pub count: u64,
    make: fn(u64) -> Case,
}

pub const GENERATED: Numbered = Numbered { sort: "generated", count: 20_000, make: generated };
pub const DAMAGED: Numbered = Numbered { sort: "damaged", count: 20_000, make: damaged };

impl Numbered {
    pub fn case(&self, number: u64) -> Case {
        (self.make)(number)
    }
    /// The first of them alone.
    pub fn first(self, count: u64) -> Numbered {
        Numbered { count, ..self }
    }
}

pub struct Case {
    pub name: String,
    pub policy: Vec<u8>,
    pub goal: Vec<u8>,
    /// where the case's own choices (lengths, arguments) go on from
    pub rng: Rng,
}

/// The entries that each work slice must have for least steps.
pub fn contexts(policy: &Policy) -> usize {
    (policy.types * policy.roles * policy.users) as usize
}

/// The entries that each work slice must have for the goal question.
pub fn nodes(policy: &Policy, goal: &Goal) -> usize {
    contexts(policy) << goal.n
}

/// The most types of a case, by its number: mostly small, one in fifty larger, up to as many as a policy can have.
fn size(number: u64) -> u32 {
    const SMALL: [u32; 12] = [1, 2, 3, 3, 4, 5, 6, 7, 8, 10, 12, 16];
    const LARGE: [u32; 6] = [24, 40, 64, 100, 160, 255];
    match number % 50 {
        49 => LARGE[(number / 50 % 6) as usize],
        small => SMALL[(small % 12) as usize],
    }
}

/// The same policy with counts such that the goal has exactly as many nodes as the program lends entries for.
fn raised_to_limit(mut policy: Policy, goal: &Goal) -> Option<Policy> {
    let counts = [[128, 8, 8], [128, 8, 4], [128, 4, 4], [64, 4, 4], [64, 4, 2], [32, 4, 2]][goal.n - 1];
    let fits = policy.types <= counts[0] && policy.roles <= counts[1] && policy.users <= counts[2];
    [policy.types, policy.roles, policy.users] = counts;
    fits.then_some(policy)
}

/// Many more allows among some of the types, more users, and exceptions that some contexts of a type are in and others not: a
/// search that remembers which types it has been through has much to get wrong there.
fn crowd(policy: &mut Policy, goal: &mut Goal, rng: &mut Rng) {
    policy.users = policy.users.max(rng.range(1, 3));
    let (apart, first) = (rng.range(1, 3), rng.range(1, policy.types));
    let some: Vec<u32> = (first..=policy.types).step_by(apart as usize).collect();
    let mut sources: Vec<u32> = some.iter().copied().filter(|&t| policy.domain(t)).collect();
    if sources.is_empty() {
        sources = (1..=policy.types).filter(|&t| policy.domain(t)).collect();
    }
    for _ in 0..rng.range(5, 20 + 4 * some.len() as u32) {
        let (source, target, class) = (rng.pick(&sources), rng.pick(&some), rng.range(1, policy.classes));
        let (one, few) = (1 << rng.range(0, 3), rng.range(1, 15));
        let mask = rng.pick(&[one, one, few, u32::MAX]);
        policy.records.push(Record::new(4, source, target, class, mask));
    }
    for _ in 0..rng.range(0, 3) {
        let (t, r, u) = (rng.range(0, policy.types), rng.range(0, policy.roles), rng.range(1, policy.users));
        goal.items.push((SIGMA_E, Item::Sigma { t, r, u }));
    }
    goal.items.truncate(255);
}

/// One allow record more, from a type that is no domain, where the policy has one: with permissions or without, on itself or not.
fn from_no_domain(policy: &mut Policy, rng: &mut Rng) {
    let files: Vec<u32> = (1..=policy.types).filter(|&t| !policy.domain(t)).collect();
    if files.is_empty() {
        return;
    }
    let (source, other, class) = (rng.pick(&files), rng.range(1, policy.types), rng.range(1, policy.classes));
    let (target, mask) = (rng.pick(&[0, source, other]), rng.pick(&[0, 1, u32::MAX]));
    policy.records.push(Record::new(4, source, target, class, mask));
}

/// Every sixth case is crowded. Every 40th has an allow from what is no domain. Every 500th is one of the largest that the program has room for, where its counts can be raised
/// to that.
fn generate(number: u64, rng: &mut Rng) -> (Policy, Goal) {
    let (mut policy, mut goal) = landed_case(rng, size(number), landed());
    if number % 40 == 3 {
        from_no_domain(&mut policy, rng);
    }
    if number % 6 == 5 {
        crowd(&mut policy, &mut goal, rng);
    }
    if number % 500 != 7 {
        return (policy, goal);
    }
    match raised_to_limit(policy.clone(), &goal) {
        Some(raised) => (raised, goal),
        None => (policy, goal),
    }
}

fn generated(number: u64) -> Case {
    let mut rng = Rng(number.wrapping_mul(1_000_003).wrapping_add(1));
    let (policy, goal) = generate(number, &mut rng);
    Case { name: format!("generated case {number}"), policy: policy.encode(), goal: goal.encode(), rng }
}

/// A damaged policy, a damaged goal, or both; every fourth policy has an allow from what is no domain besides. Some are still accepted.
fn damaged(number: u64) -> Case {
    let mut rng = Rng(number.wrapping_mul(1_000_003).wrapping_add(2));
    let (mut policy, goal) = landed_case(&mut rng, size(number), landed());
    if number % 4 == 3 {
        from_no_domain(&mut policy, &mut rng);
    }
    let (mut policy, mut goal) = (policy.encode(), goal.encode());
    let hurt = rng.range(0, 9);
    if hurt <= 5 {
        damage(&mut rng, &mut policy, false);
    }
    if hurt >= 5 {
        damage(&mut rng, &mut goal, true);
    }
    Case { name: format!("damaged case {number}"), policy, goal, rng }
}

/// The images of a folder, however large.
pub fn stored(folder: &str) -> Result<Case, String> {
    let read = |image: &str| {
        let file = format!("{folder}/{image}");
        std::fs::read(&file).map_err(|why| format!("{image} cannot be read: {why}"))
    };
    Ok(Case { name: folder.to_string(), policy: read("policy.img")?, goal: read("goal.img")?, rng: Rng(3) })
}
