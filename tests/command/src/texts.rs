//! `text`, `image`, `difference`, `canonical` and `join` on generated policies: texts with names and without them say the image that they
//! were made of, and a difference leads from the facts of one policy to those of the other.
use crate::cases::{cases, landed};
use crate::tool::{Results, Tool};
use second_search::canonical::{canonical, facts};
use second_search::join::join;
use second_search::landed::Landed;
use second_search::policy::{check_policy_landed, Policy};
use second_search::text::assemble;
use second_search::vary::{pair, rewrite, tweak};

/// Names for every number, in lines that no image has.
pub fn names() -> String {
    let mut lines = vec!["# names of everything".to_string()];
    lines.extend((1..=255).map(|n| format!("type {n} type-{n}_t\r")));
    lines.extend((1..=15).flat_map(|n| [format!("role {n} r{n}_r"), format!("\tuser {n} u{n}_u # a user")]));
    for class in 1..=31 {
        lines.push(format!("class {class} class.{class}"));
        lines.extend((0..32).map(|p| format!("permission {class} {p} can_{p}")));
    }
    lines.join("\n")
}

pub fn test(tool: &Tool, results: &mut Results) {
    tool.write("all-names.txt", names().as_bytes());
    for mut case in cases(250) {
        tool.write("policy.img", &case.policy.encode());
        tool.write("goal.img", &case.goal.encode());
        let name = format!("case {}", case.number);
        for image in ["policy.img", "goal.img"] {
            back(tool, &format!("{name}, {image}"), image, results);
        }
        let other = if case.number % 2 == 0 { rewrite(&mut case.rng, &case.policy) } else { tweak(&mut case.rng, &case.policy) };
        differs(tool, &name, &case.policy, &other, results);
        let board = pair(&mut case.rng, 6, landed()).1;
        written(tool, &name, &case.policy, &board, results);
    }
}

/// An image to text and back, without names and with them.
fn back(tool: &Tool, name: &str, image: &str, results: &mut Results) {
    for names in [&[][..], &["--names", "all-names.txt"]] {
        let there = tool.run(&[&["text", image, "again.txt", "--overwrite"], names].concat());
        let here = tool.run(&[&["image", "again.txt", "again.img", "--overwrite"], names].concat());
        let same = tool.read("again.img") == tool.read(image);
        results.claim(same && there.status == 0 && here.status == 0, || {
            format!("{name}: there and back {names:?}: {there:?} {here:?}")
        });
    }
    let text = String::from_utf8(tool.read("again.txt")).unwrap_or_default();
    let numbered =
        text.lines().find(|line| ["domain 1", "role 1 ", "user 1 ", "trans 1 "].iter().any(|word| line.starts_with(word)));
    results.claim(numbered.is_none(), || format!("{name}: a number is left in the text with names: {numbered:?}"));
}

/// The lines of one sign as facts: what is about lists, and counts, is left out.
fn said(lines: &str, sign: char) -> Policy {
    let facts = lines.lines().filter_map(|line| line.strip_prefix(sign)).map(str::trim);
    let plain = facts.filter(|line| !["policy", "constrain", "n"].iter().any(|word| line.starts_with(word)));
    let text = ["policy 255 15 15 31"].into_iter().chain(plain).collect::<Vec<_>>().join("\n");
    let image = assemble(&text).expect("lines of the text format");
    check_policy_landed(Landed::BASE, &image).expect("facts")
}

/// The facts of A without those that A alone has, and with those that B alone has, are the facts of B.
fn differs(tool: &Tool, name: &str, a: &Policy, b: &Policy, results: &mut Results) {
    tool.write("other.img", &b.encode());
    let ran = tool.run(&["difference", "policy.img", "other.img"]);
    let mut image = vec![0; 1 << 16];
    let mut written = |policy: &Policy| canonical(landed(), &policy.encode(), &mut image).map(|n| image[..n].to_vec());
    let (Ok(first), Ok(second)) = (written(a), written(b)) else {
        results.claim(ran.status == 2 && ran.said.starts_with("refused 15\n"), || format!("{name}: difference: {ran:?}"));
        return;
    };
    let same = first == second;
    results.claim(ran.status == !same as i32 && ran.said.is_empty() == same, || format!("{name}: difference: {ran:?}"));
    let (gone, come) = (facts(&said(&ran.said, '-')), facts(&said(&ran.said, '+')));
    let ours = facts(a);
    let theirs: std::collections::BTreeSet<_> = ours.difference(&gone).chain(&come).copied().collect();
    let exact = gone.is_subset(&ours) && come.is_disjoint(&ours);
    results.claim(exact && theirs == facts(b), || {
        format!("{name}: the difference does not lead from one to the other:\n{}", ran.said)
    });
}

/// What join and canonical write is what the second search writes, and what is refused says whose policy is.
fn written(tool: &Tool, name: &str, policy: &Policy, board: &Policy, results: &mut Results) {
    let mut image = vec![0; 1 << 16];
    tool.write("board.img", &board.encode());
    let joined = join(landed(), &policy.encode(), &board.encode(), &mut image).map(|n| image[..n].to_vec());
    let ran = tool.run(&["join", "policy.img", "board.img", "result.img", "--overwrite"]);
    let right = match joined {
        Ok(wanted) => ran.status == 0 && ran.said == format!("written {}\n", wanted.len()) && tool.read("result.img") == wanted,
        Err(k) => ran.status == 2 && ran.said.starts_with(&format!("refused {k}\n\nthe board's policy, board.img: ")),
    };
    results.claim(right, || format!("{name}: join: {ran:?}"));
    let wanted = canonical(landed(), &policy.encode(), &mut image).map(|n| image[..n].to_vec());
    let ran = tool.run(&["canonical", "policy.img", "result.img", "--overwrite"]);
    let right = match wanted {
        Ok(wanted) => ran.status == 0 && ran.said == format!("written {}\n", wanted.len()) && tool.read("result.img") == wanted,
        Err(k) => ran.status == 2 && ran.said.starts_with(&format!("refused {k}\n")),
    };
    results.claim(right, || format!("{name}: canonical: {ran:?}"));
}
