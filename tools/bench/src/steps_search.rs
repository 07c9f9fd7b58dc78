//! Least steps by two plain programs, breadth-first over contexts: one with adjacency lists as `fast_search.rs` has them, and one
//! with what the proved search remembers, on the plan of `memory_search.rs`. Both are on the heap and unproved, take well formed
//! images and write no path.
use crate::fast_search::{allowed, load, Pol};
use crate::memory_search::{class_masks, context, policy_plan, Entry, PolicyPlan};
use std::collections::HashMap;

/// What a search came to: the steps to the end, if it was reached, and the contexts that were taken up.
pub type Found = (Option<usize>, usize);

/// A context as a place: by type, then role, then user.
pub fn place(policy: &Pol, [t, r, u]: [u32; 3]) -> usize {
    ((t as usize - 1) * policy.r + r as usize - 1) * policy.u + u as usize - 1
}

/// Contexts in the order in which they were reached, with the one before each.
struct Queue {
    /// By place: the place before it, plus one; 0 while it is not reached.
    back: Vec<u32>,
    order: Vec<u32>,
    /// The next to be taken up, where its level ends, and how many steps that is from the start.
    head: usize,
    level_end: usize,
    depth: usize,
}

impl Queue {
    fn new(contexts: usize, start: usize) -> Queue {
        let mut back = vec![0; contexts];
        back[start] = start as u32 + 1;
        Queue { back, order: vec![start as u32], head: 0, level_end: 1, depth: 0 }
    }
    fn next(&mut self) -> Option<usize> {
        let place = *self.order.get(self.head)?;
        if self.head == self.level_end {
            self.depth += 1;
            self.level_end = self.order.len();
        }
        self.head += 1;
        Some(place as usize)
    }
    fn has(&self, place: usize) -> bool {
        self.back[place] != 0
    }
    fn reach(&mut self, place: usize, from: usize) {
        self.back[place] = from as u32 + 1;
        self.order.push(place as u32);
    }
}

/// Where information goes from a type: class, other type, permissions by write-like and by read-like flow.
struct Edge {
    class: usize,
    to: usize,
    out: u32,
    back: u32,
}

/// By type: its edges.
fn adjacency(policy: &Pol) -> Vec<Vec<Edge>> {
    let [gamma, write, read] = class_masks(policy);
    let mut masks = vec![HashMap::<(usize, usize), (u32, u32)>::new(); policy.t + 1];
    for q in policy.recs.iter().filter(|q| q.kind == 4 && policy.dom[q.a]) {
        let target = if q.b == 0 { q.a } else { q.b };
        let mask = q.mask & gamma[q.c];
        masks[q.a].entry((q.c, target)).or_default().0 |= mask & write[q.c];
        masks[target].entry((q.c, q.a)).or_default().1 |= mask & read[q.c];
    }
    let edges = |of_type: HashMap<(usize, usize), (u32, u32)>| {
        let flows = of_type.into_iter().filter(|(_, (out, back))| out | back != 0);
        let mut edges: Vec<Edge> = flows.map(|((class, to), (out, back))| Edge { class, to, out, back }).collect();
        edges.sort_by_key(|e| (e.class, e.to));
        edges
    };
    masks.into_iter().map(edges).collect()
}

/// The plain program: from a context to another, each as type, role and user.
#[inline(never)]
pub fn run(policy: &[u8], x: [u32; 3], y: [u32; 3]) -> Found {
    let policy = load(policy);
    let adjacency = adjacency(&policy);
    let per_type = policy.r * policy.u;
    let valid = |place: usize| {
        let x = context(&policy, place);
        policy.rho[x.1][x.0] && policy.mu[x.2][x.1]
    };
    let of_type = |t: usize| (t.max(1) - 1) * per_type..t * per_type;
    let held: Vec<Vec<usize>> = (0..=policy.t).map(|t| of_type(t).filter(|&place| valid(place)).collect()).collect();
    let (start, end) = (place(&policy, x), place(&policy, y));
    if !valid(start) || start == end {
        return (valid(start).then_some(0), 0);
    }
    let mut queue = Queue::new(policy.t * per_type, start);
    while let Some(from) = queue.next() {
        let x = context(&policy, from);
        for e in &adjacency[x.0] {
            let free = policy.cons[e.class].is_empty() && !(e.class == 1 && (e.out | e.back) & 1 != 0);
            for &to in &held[e.to] {
                if queue.has(to) {
                    continue;
                }
                if !free {
                    let y = context(&policy, to);
                    if allowed(&policy, e.class, e.out, x, y) | allowed(&policy, e.class, e.back, y, x) == 0 {
                        continue;
                    }
                }
                if to == end {
                    return (Some(queue.depth + 1), queue.head);
                }
                queue.reach(to, from);
            }
        }
    }
    (None, queue.head)
}

/// The plain program with memory: the contexts of a type are swept no more once all are reached, and the entries of a type that
/// no constraint is on are gone through once.
#[inline(never)]
pub fn run_with_memory(policy: &[u8], x: [u32; 3], y: [u32; 3]) -> Found {
    let policy = load(policy);
    let left = vec![u32::MAX; policy.c + 1];
    let (start, end) = (place(&policy, x), place(&policy, y));
    let plan = policy_plan(policy, &left);
    if !plan.held[x[0] as usize].contains(&start) {
        return (None, 0);
    }
    if start == end {
        return (Some(0), 0);
    }
    search(&plan, start, Some(end)).0
}

/// The search with memory, to an end or over all that is reached; gives what it came to, and the queue's order.
fn search(plan: &PolicyPlan, start: usize, end: Option<usize>) -> (Found, Vec<u32>) {
    let PolicyPlan { policy, entries, first, held, special, guarded } = plan;
    let (mut swept, mut spent) = (vec![false; policy.t + 1], vec![false; policy.t + 1]);
    let mut queue = Queue::new(policy.t * policy.r * policy.u, start);
    while let Some(from) = queue.next() {
        let x = context(policy, from);
        let is_spent = spent[x.0];
        if is_spent && !guarded[x.0] {
            continue;
        }
        spent[x.0] = true;
        for e in &entries[first[x.0]..first[x.0 + 1]] {
            let is_special = |mask: u32| mask & special[e.class] != 0;
            if swept[e.to] || e.out | e.back == 0 || is_spent && !is_special(e.out | e.back) {
                continue;
            }
            let free = (e.out | e.back) & !special[e.class] != 0;
            let mut left_out = false;
            for &to in &held[e.to] {
                if queue.has(to) {
                    continue;
                }
                if !free {
                    let y = context(policy, to);
                    if allowed(policy, e.class, e.out, x, y) | allowed(policy, e.class, e.back, y, x) == 0 {
                        left_out = true;
                        continue;
                    }
                }
                if Some(to) == end {
                    return ((Some(queue.depth + 1), queue.head), queue.order);
                }
                queue.reach(to, from);
            }
            swept[e.to] |= !left_out;
        }
    }
    ((None, queue.head), queue.order)
}

/// No context reaches more than this: those of the types that an entry leads to, and itself, where none leads to its type.
fn most_reached(plan: &PolicyPlan) -> usize {
    let PolicyPlan { policy, entries, first, held, .. } = plan;
    let flows = |e: &Entry| e.out | e.back != 0;
    let mut led_to = vec![false; policy.t + 1];
    entries.iter().filter(|e| flows(e)).for_each(|e| led_to[e.to] = true);
    let starts = |t: usize| !held[t].is_empty() && !led_to[t] && entries[first[t]..first[t + 1]].iter().any(flows);
    let of_types: usize = (1..=policy.t).filter(|&t| led_to[t]).map(|t| held[t].len()).sum();
    of_types + (1..=policy.t).any(starts) as usize
}

/// The two contexts that are asked about: the one that reaches most, the first of several; and one that meets ρ and μ and that
/// it does not reach, so that all that it reaches is gone through, or the last that it reaches where it reaches all.
pub fn farthest(policy: &[u8]) -> [[u32; 3]; 2] {
    let policy = load(policy);
    let left = vec![u32::MAX; policy.c + 1];
    let plan = policy_plan(policy, &left);
    let all: Vec<usize> = plan.held.concat();
    let most = most_reached(&plan);
    let mut best = (0, Vec::new());
    for &start in &all {
        let reached = search(&plan, start, None).1;
        if reached.len() > best.1.len() {
            best = (start, reached);
        }
        if best.1.len() >= most {
            break;
        }
    }
    let (start, reached) = best;
    let mut is_reached = vec![false; plan.policy.t * plan.policy.r * plan.policy.u];
    reached.iter().for_each(|&place| is_reached[place as usize] = true);
    let missed = all.into_iter().find(|&place| !is_reached[place]);
    let end = missed.unwrap_or_else(|| *reached.last().expect("the start") as usize);
    [start, end].map(|place| {
        let x = context(&plan.policy, place);
        [x.0 as u32, x.1 as u32, x.2 as u32]
    })
}
