//! The plain program once more, with what the proved search remembers (docs/DECISIONS.md, D67): the contexts of a type are swept once for
//! each part of a state that a step depends on, and a type's entries are gone through once for each state. Its entries are in
//! one sorted list in place of maps. Like the other it is on the heap, unproved, and takes well formed images.
use crate::fast_search::{allowed, load, u16at, u32at, Ctx, Pol};

/// What a type leads to: class, other type, and the permissions by write-like and by read-like flow.
pub struct Entry {
    pub class: usize,
    pub to: usize,
    pub out: u32,
    pub back: u32,
}

/// The goal's sets, read once.
struct Sets {
    legs: usize,
    repeats: u32,
    /// By context: bits 0 to n for σ0 to σn, bit 7 for σe.
    contexts: Vec<u32>,
    /// By class: the permissions that are not in γe.
    left: Vec<u32>,
    /// By class: the permissions with the same γ sets, as (sets, permissions).
    groups: Vec<Vec<(u32, u32)>>,
}

/// What is made of a policy once; least steps needs no more (`steps_search.rs`).
pub struct PolicyPlan {
    pub policy: Pol,
    pub entries: Vec<Entry>,
    /// By type: where its entries start.
    pub first: Vec<usize>,
    /// By type: its contexts that meet ρ and μ.
    pub held: Vec<Vec<usize>>,
    /// By class: the permissions on which there is a constraint, and the transition.
    pub special: Vec<u32>,
    /// By type: whether an entry of it has such a permission.
    pub guarded: Vec<bool>,
}

struct Plan {
    of_policy: PolicyPlan,
    sets: Sets,
}

pub fn context(policy: &Pol, place: usize) -> Ctx {
    let per_type = policy.r * policy.u;
    (place / per_type + 1, place / policy.u % policy.r + 1, place % policy.u + 1)
}

/// The offsets of the records of a list of the goal, by its head's number.
fn chain(goal: &[u8], head: usize) -> Vec<usize> {
    let mut records = vec![];
    let mut next = u16at(goal, 4 + 2 * head);
    while next != 0 {
        records.push(34 + 8 * (next - 1));
        next = u16at(goal, 34 + 8 * (next - 1));
    }
    records
}

fn sets(policy: &Pol, goal: &[u8]) -> Sets {
    let legs = goal[0] as usize;
    let is = |at: usize, number: usize| goal[at] == 0 || goal[at] as usize == number;
    let has = |list: &[usize], x: Ctx| list.iter().any(|&o| is(o + 2, x.0) && is(o + 3, x.1) && is(o + 4, x.2));
    let mask = |list: &[usize], c: usize| list.iter().filter(|&&o| is(o + 2, c)).fold(0, |m, &o| m | u32at(goal, o + 4));
    let (sigmas, avoided): (Vec<_>, _) = ((0..=legs).map(|i| chain(goal, i)).collect(), chain(goal, 13));
    let contexts = (0..policy.t * policy.r * policy.u).map(|place| {
        let x = context(policy, place);
        let own = sigmas.iter().enumerate().fold(0, |m, (i, list)| m | (has(list, x) as u32) << i);
        own | (has(&avoided, x) as u32) << 7
    });
    let (gammas, forbidden): (Vec<_>, _) = ((0..legs).map(|i| chain(goal, 7 + i)).collect(), chain(goal, 14));
    let left = (0..=policy.c).map(|c| !mask(&forbidden, c)).collect();
    let groups = (0..=policy.c).map(|c| {
        let masks: Vec<u32> = gammas.iter().map(|list| mask(list, c)).collect();
        let mut groups: Vec<(u32, u32)> = vec![];
        for bit in (0..32).map(|b| 1u32 << b) {
            let own = masks.iter().enumerate().fold(0, |s, (i, m)| s | ((m & bit != 0) as u32) << i);
            match groups.iter_mut().find(|g| g.0 == own) {
                Some(group) => group.1 |= bit,
                None => groups.push((own, bit)),
            }
        }
        groups
    });
    Sets { legs, repeats: goal[1] as u32, contexts: contexts.collect(), left, groups: groups.collect() }
}

/// By class: its permissions, and those of them that are write-like and read-like.
pub fn class_masks(policy: &Pol) -> [Vec<u32>; 3] {
    let classes = policy.c + 1;
    let [mut gamma, mut write, mut read] = [vec![0u32; classes], vec![0u32; classes], vec![0u32; classes]];
    for q in &policy.recs {
        match q.kind {
            2 => gamma[q.a] |= q.mask,
            3 => {
                write[q.a] |= if q.b & 1 != 0 { q.mask } else { 0 };
                read[q.a] |= if q.b & 2 != 0 { q.mask } else { 0 };
            }
            _ => {}
        }
    }
    [gamma, write, read]
}

/// The entries of all types, by type, class and other type: sorted, and those of one key united.
fn entries(policy: &Pol, left: &[u32]) -> (Vec<Entry>, Vec<usize>) {
    let [gamma, write, read] = class_masks(policy);
    let key = |own: usize, class: usize, other: usize| (own << 20 | class << 12 | other) as u32;
    let mut halves: Vec<(u32, u32, u32)> = vec![];
    for q in policy.recs.iter().filter(|q| q.kind == 4 && policy.dom[q.a]) {
        let target = if q.b == 0 { q.a } else { q.b };
        let mask = q.mask & gamma[q.c] & left[q.c];
        halves.push((key(q.a, q.c, target), mask & write[q.c], 0));
        halves.push((key(target, q.c, q.a), 0, mask & read[q.c]));
    }
    halves.sort_unstable_by_key(|half| half.0);
    let (mut entries, mut first): (Vec<Entry>, Vec<usize>) = (vec![], vec![]);
    let mut last = u32::MAX;
    for (key, out, back) in halves {
        if key != last {
            first.resize((key >> 20) as usize + 1, entries.len());
            entries.push(Entry { class: (key >> 12 & 255) as usize, to: (key & 4095) as usize, out: 0, back: 0 });
            last = key;
        }
        let entry = entries.last_mut().expect("one was pushed");
        entry.out |= out;
        entry.back |= back;
    }
    first.resize(policy.t + 2, entries.len());
    (entries, first)
}

/// The plan of a policy, of whose permissions those are left that the masks have, by class.
pub fn policy_plan(policy: Pol, left: &[u32]) -> PolicyPlan {
    let (entries, first) = entries(&policy, left);
    let per_type = policy.r * policy.u;
    let is_held = |place: usize| {
        let x = context(&policy, place);
        policy.rho[x.1][x.0] && policy.mu[x.2][x.1]
    };
    let held_by = |t: usize| if t == 0 { 0..0 } else { (t - 1) * per_type..t * per_type };
    let held = (0..=policy.t).map(|t| held_by(t).filter(|&place| is_held(place)).collect()).collect();
    let mut special: Vec<u32> = policy.cons.iter().map(|all| all.iter().fold(0, |m, c| m | c.0)).collect();
    special[1] |= 1;
    let guarded = |t: usize| entries[first[t]..first[t + 1]].iter().any(|e| (e.out | e.back) & special[e.class] != 0);
    let guarded = (0..=policy.t).map(guarded).collect();
    PolicyPlan { policy, entries, first, held, special, guarded }
}

fn plan(policy: &[u8], goal: &[u8]) -> Plan {
    let policy = load(policy);
    let sets = sets(&policy, goal);
    Plan { of_policy: policy_plan(policy, &sets.left), sets }
}

impl Plan {
    /// The state on arrival in a context of the sets `into`, and whether it breaks what is looked for where the context is an end.
    fn arrive(&self, order: bool, kept: u32, into: u32) -> (u32, bool) {
        let last = 1 << self.sets.legs;
        if order {
            let broken = kept & 1 != 0 || into >> 1 & !kept & (last - 2) != 0;
            ((kept & !1) | broken as u32, broken)
        } else {
            let stages = (kept & self.sets.repeats) | (kept << 1 & into);
            (stages & (last - 1), stages & last == 0)
        }
    }

    /// The least number of steps to a bad end.
    fn search(&self, order: bool, entered: &mut usize) -> Option<usize> {
        let Plan { of_policy: PolicyPlan { policy, entries, first, held, special, guarded }, sets } = self;
        let (legs, last) = (sets.legs, 1u32 << sets.legs);
        let inner = if order { last - 2 } else { 0 };
        let mut back = vec![0u32; (policy.t * policy.r * policy.u) << legs];
        let (mut swept, mut spent) = (vec![0u64; policy.t + 1], vec![0u64; policy.t + 1]);
        let mut queue: Vec<u32> = vec![];
        for &place in held.iter().flatten().filter(|&&place| sets.contexts[place] & 1 != 0) {
            let into = sets.contexts[place];
            let (state, bad) = if order { self.arrive(true, 0, into) } else { (1, true) };
            match into & last != 0 {
                true if bad => return Some(0),
                true => {}
                false => {
                    let node = place << legs | state as usize;
                    back[node] = 1;
                    queue.push(node as u32);
                }
            }
        }
        let whole = [(u32::MAX, u32::MAX)];
        let (mut head, mut level_end, mut depth) = (0, queue.len(), 0);
        while head < queue.len() {
            if head == level_end {
                depth += 1;
                level_end = queue.len();
            }
            let node = queue[head];
            head += 1;
            *entered += 1;
            let place = node as usize >> legs;
            let into = sets.contexts[place];
            if into & 128 != 0 {
                continue;
            }
            let x = context(policy, place);
            let state = (node & (last - 1)) | (into & inner);
            let is_spent = spent[x.0] >> state & 1 != 0;
            if is_spent && !guarded[x.0] {
                continue;
            }
            spent[x.0] |= 1 << state;
            for e in &entries[first[x.0]..first[x.0 + 1]] {
                if is_spent && (e.out | e.back) & special[e.class] == 0 {
                    continue;
                }
                for &(by, mask) in if order { &whole[..] } else { &sets.groups[e.class] } {
                    let kept = state & by;
                    if swept[e.to] >> kept & 1 != 0 {
                        continue;
                    }
                    let (out, reads) = (e.out & mask, e.back & mask);
                    if out | reads == 0 {
                        continue;
                    }
                    let free = (out | reads) & !special[e.class] != 0;
                    let mut left_out = false;
                    for &to in &held[e.to] {
                        let into = sets.contexts[to];
                        let (next, bad) = self.arrive(order, kept, into);
                        let number = to << legs | next as usize;
                        let ends = into & last != 0;
                        if if ends { !bad } else { back[number] != 0 } {
                            continue;
                        }
                        if !free {
                            let y = context(policy, to);
                            if allowed(policy, e.class, out, x, y) | allowed(policy, e.class, reads, y, x) == 0 {
                                left_out = true;
                                continue;
                            }
                        }
                        if ends {
                            return Some(depth + 1);
                        }
                        back[number] = node + 1;
                        queue.push(number as u32);
                    }
                    if !left_out {
                        swept[e.to] |= 1 << kept;
                    }
                }
            }
        }
        None
    }
}

/// The answer as 0 holds, 1 order, 2 events; the least number of steps; and how many nodes were entered.
#[inline(never)]
pub fn run(policy: &[u8], goal: &[u8]) -> (u8, usize, usize) {
    let plan = plan(policy, goal);
    let mut entered = 0;
    let (order, events) = (plan.search(true, &mut entered), plan.search(false, &mut entered));
    match (order, events) {
        (Some(a), Some(b)) if b < a => (2, b, entered),
        (Some(a), _) => (1, a, entered),
        (None, Some(b)) => (2, b, entered),
        (None, None) => (0, 0, entered),
    }
}
