//! A plain search over contexts: which are reached from some, and which lead to some. It knows no legs and shows no path; it is there to
//! say what an all-clear rests on.
use crate::expression::{self, OfType, Sides};
use crate::policy::Reading;
use second_search::goal::Goal;
use second_search::policy::{Context, Event, Policy, TRANSITION};
use std::collections::{BTreeMap, HashSet};

/// What flows from one type to another by a class, as far as types say: permissions, and who acts.
struct Link {
    from: u32,
    to: u32,
    class: u32,
    mask: u32,
    writes: bool,
}

/// Permissions of a class that more is asked of than types, ρ and μ, of all of them the same.
struct Asked {
    mask: u32,
    /// the role rule
    transition: bool,
    /// the roots of their constraints
    roots: Vec<usize>,
}

/// The contexts of a policy that meet ρ and μ, and what flows between their types.
pub struct Graph<'a> {
    policy: &'a Policy,
    links: Vec<Link>,
    /// By class.
    asked: Vec<Vec<Asked>>,
    /// By the role that acts: the roles that a transition leads to.
    changes: Vec<Vec<bool>>,
    pub valid: Vec<Context>,
}

/// Which way a search goes along the flow.
#[derive(Clone, Copy, PartialEq, Eq)]
pub enum Direction {
    Forward,
    Backward,
}

/// Where a search does not go on. A path of a goal goes on from no context in σn, and where the exceptions are kept from none in σe and by
/// no event in γe. Without a goal it goes everywhere.
#[derive(Clone, Copy)]
pub struct Bounds<'a> {
    pub goal: Option<&'a Goal>,
    pub exceptions: bool,
}

impl Bounds<'_> {
    fn stop(&self, x: Context) -> bool {
        self.goal.is_some_and(|goal| goal.sigma(goal.n, x) || self.exceptions && goal.sigma_e(x))
    }

    fn bar(&self, e: Event) -> bool {
        self.exceptions && self.goal.is_some_and(|goal| goal.gamma_e(e))
    }
}

/// By class, from 0: the permissions of the records of a kind of which something is so.
fn masks(policy: &Policy, kind: u8, is: impl Fn(u16) -> bool) -> Vec<u32> {
    let mut masks = vec![0; policy.classes as usize + 1];
    for record in policy.records.iter().filter(|record| record.kind == kind && is(record.b)) {
        masks[record.a as usize] |= record.mask;
    }
    masks
}

impl<'a> Graph<'a> {
    pub fn new(reading: &'a Reading<'a>) -> Graph<'a> {
        let policy = reading.policy;
        let changes = |r1: u32| (0..=policy.roles).map(|r2| reading.role_rule(r1, r2, TRANSITION).holds()).collect();
        Graph {
            policy,
            links: links(policy),
            asked: (0..=policy.classes).map(|c| asked(reading, c)).collect(),
            changes: (0..=policy.roles).map(changes).collect(),
            valid: reading.valid(),
        }
    }

    /// The contexts that are come to from some, which are among them where they meet ρ and μ.
    pub fn search(&self, direction: Direction, starts: &dyn Fn(Context) -> bool, bounds: Bounds) -> HashSet<Context> {
        let links = self.usable(direction, bounds);
        let mut met: HashSet<Context> = self.valid.iter().copied().filter(|&x| starts(x)).collect();
        // by type, what is not met yet
        let mut left: Vec<Vec<Context>> = vec![vec![]; self.policy.types as usize + 1];
        for &x in self.valid.iter().filter(|x| !met.contains(x)) {
            left[x.t as usize].push(x);
        }
        let mut queue: Vec<Context> = met.iter().copied().collect();
        while let Some(x) = queue.pop() {
            // a path goes on from no context that stops it: forward that is x, backward the one before x
            if direction == Direction::Forward && bounds.stop(x) {
                continue;
            }
            for link in &links[x.t as usize] {
                let sides = link.sides(direction, x);
                let left = &mut left[sides.other as usize];
                if left.is_empty() {
                    continue;
                }
                let across = self.across(link, sides);
                let comes = |y: &Context| across.has(*y) && (direction == Direction::Forward || !bounds.stop(*y));
                let (new, old): (Vec<Context>, Vec<Context>) = left.drain(..).partition(comes);
                *left = old;
                met.extend(&new);
                queue.extend(new);
            }
        }
        met
    }

    /// By type: the links that lead from it, or to it, by events that are not barred.
    fn usable(&self, direction: Direction, bounds: Bounds) -> Vec<Vec<Link>> {
        let mut by_type: Vec<Vec<Link>> = (0..=self.policy.types).map(|_| vec![]).collect();
        for link in &self.links {
            let bits = (0..32).filter(|&p| link.mask >> p & 1 == 1 && !bounds.bar(Event { c: link.class, p }));
            let mask = bits.fold(0, |mask, p| mask | 1 << p);
            if mask != 0 {
                let at = if direction == Direction::Forward { link.from } else { link.to };
                by_type[at as usize].push(Link { mask, ..*link });
            }
        }
        by_type
    }

    /// The contexts on the other side of a link with which one of its permissions flows, all of them meeting ρ and μ.
    fn across(&self, link: &Link, sides: Sides) -> OfType {
        let asked = &self.asked[link.class as usize];
        let special = asked.iter().fold(0, |mask, one| mask | one.mask);
        if link.mask & !special != 0 {
            return OfType::ALL;
        }
        let some = asked.iter().filter(|one| one.mask & link.mask != 0);
        some.fold(OfType::NONE, |met, one| met | self.meeting(one, sides))
    }

    /// Those that meet what is asked.
    fn meeting(&self, asked: &Asked, sides: Sides) -> OfType {
        let by_role = if asked.transition { self.by_role_rule(sides) } else { OfType::ALL };
        asked.roots.iter().fold(by_role, |met, &root| met & expression::others(self.policy, root, sides))
    }

    fn by_role_rule(&self, Sides { one, acts, .. }: Sides) -> OfType {
        let may = |r: &u32| match acts {
            true => self.changes[one.r as usize][*r as usize],
            false => self.changes[*r as usize][one.r as usize],
        };
        (1..=self.policy.roles).filter(may).fold(OfType::NONE, |met, r| met | OfType::role(r))
    }
}

impl Link {
    /// A context at one end, and the type at the other.
    fn sides(&self, direction: Direction, one: Context) -> Sides {
        match direction {
            Direction::Forward => Sides { one, acts: self.writes, other: self.to },
            Direction::Backward => Sides { one, acts: !self.writes, other: self.from },
        }
    }
}

/// What the allow records give, permissions outside Γ and those that make no flow left out.
fn links(policy: &Policy) -> Vec<Link> {
    let gamma = masks(policy, 2, |_| true);
    let (write, read) = (masks(policy, 3, |b| b != 2), masks(policy, 3, |b| b != 1));
    let mut given: BTreeMap<(u32, u32, u32, bool), u32> = BTreeMap::new();
    for allow in policy.records.iter().filter(|record| record.kind == 4) {
        let (source, class) = (allow.a as u32, allow.c as u32);
        let target = if allow.b == 0 { source } else { allow.b as u32 };
        let mask = allow.mask & gamma[class as usize];
        *given.entry((source, target, class, true)).or_default() |= mask & write[class as usize];
        *given.entry((target, source, class, false)).or_default() |= mask & read[class as usize];
    }
    let link = |((from, to, class, writes), mask)| Link { from, to, class, mask, writes };
    given.into_iter().map(link).filter(|link| link.mask != 0).collect()
}

/// The permissions of a class that more is asked of, those of which the same is asked together.
fn asked(reading: &Reading, class: u32) -> Vec<Asked> {
    let root = |k: usize| reading.policy.records[k - 1].root();
    let mut all: Vec<Asked> = Vec::new();
    for p in 0..32 {
        let e = Event { c: class, p };
        let (transition, roots) = (e == TRANSITION, reading.constraints_on(e).into_iter().map(root).collect::<Vec<_>>());
        match all.iter_mut().find(|one| one.transition == transition && one.roots == roots) {
            Some(one) => one.mask |= 1 << p,
            None if transition || !roots.is_empty() => all.push(Asked { mask: 1 << p, transition, roots }),
            None => (),
        }
    }
    all
}
