// The speed a plain program reaches at the goal question: unverified, on the heap, with
// adjacency lists built first. It reads the images of document 01 and assumes that they are well formed.
// usage: fast_search policy.img goal.img [repeats]   prints the answer, m, nodes entered, and ns per run.
use std::time::Instant;

pub fn u16at(b: &[u8], i: usize) -> usize { b[i] as usize | (b[i + 1] as usize) << 8 }
pub fn u32at(b: &[u8], i: usize) -> u32 { u32::from_le_bytes([b[i], b[i + 1], b[i + 2], b[i + 3]]) }

pub struct Rec { pub kind: u8, pub a: usize, pub b: usize, pub c: usize, d: usize, e: usize, pub mask: u32 }
pub struct Pol { pub t: usize, pub r: usize, pub u: usize, pub c: usize, pub recs: Vec<Rec>, pub dom: Vec<bool>,
    pub rho: Vec<Vec<bool>>, pub mu: Vec<Vec<bool>>, trans: Vec<Vec<bool>>, pub cons: Vec<Vec<(u32, usize)>> }

pub fn load(b: &[u8]) -> Pol {
    let (t, r, u, c) = (b[0] as usize, b[1] as usize, b[2] as usize, b[3] as usize);
    let n = u16at(b, 4);
    let mut recs = vec![Rec { kind: 0, a: 0, b: 0, c: 0, d: 0, e: 0, mask: 0 }];
    for k in 0..n { let o = 24 + 12 * k;
        recs.push(Rec { kind: b[o + 2], a: b[o + 3] as usize, b: b[o + 4] as usize, c: b[o + 5] as usize, d: b[o + 6] as usize, e: b[o + 7] as usize, mask: u32at(b, o + 8) }); }
    let mut p = Pol { t, r, u, c, recs, dom: vec![false; t + 1], rho: vec![vec![false; t + 1]; r + 1], mu: vec![vec![false; r + 1]; u + 1],
        trans: vec![vec![false; r + 1]; r + 1], cons: vec![vec![]; c + 1] };
    for q in &p.recs { if q.kind == 1 { p.dom[q.a] = true; } }
    for k in 1..=n { let q = &p.recs[k]; match q.kind {
        5 => p.rho[q.a][q.b] = true, 6 => p.mu[q.a][q.b] = true, 7 => p.trans[q.a][q.b] = true,
        8 => p.cons[q.a].push((q.mask, q.d + 256 * q.e)), _ => {} } }
    for ty in 1..=t { if !p.dom[ty] { p.rho[1][ty] = true; } }
    for us in 1..=u { p.mu[us][1] = true; }
    for ro in 1..=r { p.trans[ro][ro] = true; }
    p
}
pub type Ctx = (usize, usize, usize);
fn eval(p: &Pol, k: usize, x: Ctx, y: Ctx) -> bool {
    let q = &p.recs[k]; let (l, r) = ((q.mask & 0xffff) as usize, (q.mask >> 16) as usize);
    match q.a { 1 => !eval(p, l, x, y), 2 => eval(p, l, x, y) && eval(p, r, x, y), 3 => eval(p, l, x, y) || eval(p, r, x, y),
        4 => x.0 == y.0, 5 => x.1 == y.1, 6 => x.2 == y.2, 7 => x.0 == q.b, 8 => y.0 == q.b, 9 => x.1 == q.b, 10 => y.1 == q.b, 11 => x.2 == q.b, _ => y.2 == q.b }
}
pub fn allowed(p: &Pol, c: usize, mut m: u32, x: Ctx, y: Ctx) -> u32 {
    for &(cm, root) in &p.cons[c] { if m & cm != 0 && !eval(p, root, x, y) { m &= !cm; } }
    if c == 1 && m & 1 != 0 && !p.trans[x.1][y.1] { m &= !1; }
    m
}
// where information goes from a type: class, other type, permissions by write-like and by read-like flow
struct Edge { c: usize, to: usize, w: u32, r: u32 }
#[allow(dead_code)]
fn main() {
    let a: Vec<String> = std::env::args().collect();
    let (pb, gb) = (std::fs::read(&a[1]).unwrap(), std::fs::read(&a[2]).unwrap());
    let reps: u32 = a.get(3).map_or(1, |s| s.parse().unwrap());
    let start = Instant::now();
    let mut out = (0u8, 0usize, 0usize);
    for _ in 0..reps { out = run(&pb, &gb); }
    let ns = start.elapsed().as_nanos() / reps as u128;
    println!("{} m={} nodes={} ns={}", ["holds", "order", "events"][out.0 as usize], out.1, out.2, ns);
}
#[inline(never)]
pub fn run(pb: &[u8], gb: &[u8]) -> (u8, usize, usize) {
    let p = load(pb);
    let (n, rep) = (gb[0] as usize, gb[1] as u32);
    let chain = |i: usize| { let mut v = vec![]; let mut k = u16at(gb, 4 + 2 * i); while k != 0 { v.push(34 + 8 * (k - 1)); k = u16at(gb, 34 + 8 * (k - 1)); } v };
    let insig = |ch: &Vec<usize>, x: Ctx| ch.iter().any(|&o| (gb[o + 2] == 0 || gb[o + 2] as usize == x.0) && (gb[o + 3] == 0 || gb[o + 3] as usize == x.1) && (gb[o + 4] == 0 || gb[o + 4] as usize == x.2));
    let sig: Vec<Vec<usize>> = (0..7).map(|i| chain(i)).collect();
    let (se, ge) = (chain(13), chain(14));
    let mask_of = |ch: &Vec<usize>, c: usize| ch.iter().filter(|&&o| gb[o + 2] == 0 || gb[o + 2] as usize == c).fold(0u32, |m, &o| m | u32at(gb, o + 4));
    let gam: Vec<Vec<u32>> = (0..n).map(|i| { let ch = chain(7 + i); (0..=p.c).map(|c| mask_of(&ch, c)).collect() }).collect();
    let bad: Vec<u32> = (0..=p.c).map(|c| mask_of(&ge, c)).collect();
    let (mut gma, mut wl, mut rl) = (vec![0u32; p.c + 1], vec![0u32; p.c + 1], vec![0u32; p.c + 1]);
    for q in &p.recs { match q.kind { 2 => gma[q.a] |= q.mask, 3 => { if q.b & 1 != 0 { wl[q.a] |= q.mask } if q.b & 2 != 0 { rl[q.a] |= q.mask } } _ => {} } }
    let mut tab = vec![std::collections::HashMap::<(usize, usize), (u32, u32)>::new(); p.t + 1];
    for q in &p.recs { if q.kind == 4 && p.dom[q.a] { let b = if q.b == 0 { q.a } else { q.b }; let m = q.mask & gma[q.c] & !bad[q.c];
        tab[q.a].entry((q.c, b)).or_default().0 |= m & wl[q.c]; tab[b].entry((q.c, q.a)).or_default().1 |= m & rl[q.c]; } }
    let adj: Vec<Vec<Edge>> = tab.iter().map(|h| { let mut v: Vec<Edge> = h.iter().filter(|(_, m)| m.0 | m.1 != 0).map(|(k, m)| Edge { c: k.0, to: k.1, w: m.0, r: m.1 }).collect(); v.sort_by_key(|e| (e.c, e.to)); v }).collect();
    let ctx = |i: usize| (i / (p.r * p.u) + 1, i / p.u % p.r + 1, i % p.u + 1);
    let k = p.t * p.r * p.u;
    let valid: Vec<bool> = (0..k).map(|i| { let x = ctx(i); p.rho[x.1][x.0] && p.mu[x.2][x.1] }).collect();
    let ofty: Vec<Vec<usize>> = (0..=p.t).map(|t| if t == 0 { vec![] } else { ((t - 1) * p.r * p.u..t * p.r * p.u).filter(|&i| valid[i]).collect() }).collect();
    // bits 0..n of the sets that a context is in; bit 7: an exception
    let member: Vec<u32> = (0..k).map(|i| { let x = ctx(i); (0..=n).fold(0, |m, j| m | (insig(&sig[j], x) as u32) << j) | (insig(&se, x) as u32) << 7 }).collect();
    // permissions of a class grouped by the legs that they are in: one of each group stands for all
    let groups: Vec<Vec<(u32, u32)>> = (0..=p.c).map(|c| { let mut v: Vec<(u32, u32)> = vec![]; for b in 0..32 { let s = (0..n).fold(0, |m, i| m | (gam[i][c] >> b & 1) << i);
        match v.iter_mut().find(|g| g.0 == s) { Some(g) => g.1 |= 1 << b, None => v.push((s, 1 << b)) } } v }).collect();
    let one: Vec<Vec<(u32, u32)>> = (0..=p.c).map(|_| vec![(0, !0)]).collect();
    let last = 1u32 << n;
    let search = |order: bool, entered: &mut usize| -> Option<usize> {
        let full = if order { (1u32 << n) - 2 } else { 0 };
        // order: bits 1..n-1 seen before, bit 0 broken; events: live stages 0..n-1
        let broke = |s: u32, mem: u32| -> bool { (mem >> 1 & !s & full & ((1 << n) - 1)) != 0 };
        let mut back = vec![0u32; k << n]; let mut q: Vec<u32> = Vec::new();
        for i in 0..k { if valid[i] && member[i] & 1 != 0 {
            if member[i] & last != 0 { if !order || broke(0, member[i]) { return Some(0); } continue; }
            let s = if order { broke(0, member[i]) as u32 } else { 1 }; let v = i << n | s as usize; if back[v] == 0 { back[v] = 1; q.push(v as u32); } } }
        let (mut head, mut end, mut d) = (0, q.len(), 0);
        while head < q.len() {
            if head == end { d += 1; end = q.len(); }
            let v = q[head] as usize; head += 1; *entered += 1;
            let (i, s) = (v >> n, (v & ((1 << n) - 1)) as u32);
            if member[i] & 128 != 0 { continue; }
            let x = ctx(i); let s1 = if order { s | (member[i] & full) } else { s };
            for e in &adj[x.0] { for (gs, gm) in if order { &one[e.c] } else { &groups[e.c] } {
                let (w, r) = (e.w & gm, e.r & gm); if w | r == 0 { continue; }
                let free = p.cons[e.c].is_empty() && !(e.c == 1 && (w | r) & 1 != 0);
                for &j in &ofty[e.to] {
                    if !free { let y = ctx(j); if allowed(&p, e.c, w, x, y) | allowed(&p, e.c, r, y, x) == 0 { continue; } }
                    let mem = member[j];
                    let (s2, isbad) = if order { let b = s & 1 != 0 || broke(s1, mem); ((s1 & !1) | b as u32, b) }
                        else { let m = s & gs; let z = (m & rep) | (m << 1 & mem); (z & (last - 1), z & last == 0) };
                    if mem & last != 0 { if isbad { return Some(d + 1); } continue; }
                    let nv = j << n | s2 as usize; if back[nv] == 0 { back[nv] = v as u32 + 1; q.push(nv as u32); }
                } } }
        }
        None
    };
    let mut nodes = 0;
    let (o, e) = (search(true, &mut nodes), search(false, &mut nodes));
    match (o, e) { (Some(a), Some(b)) if b < a => (2, b, nodes), (Some(a), _) => (1, a, nodes), (None, Some(b)) => (2, b, nodes), _ => (0, 0, nodes) }
}
