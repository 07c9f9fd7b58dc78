//! `check --dot`: what is written is the dot language, with a node for each set of the goal and each context of the path.
use crate::cases::cases;
use crate::dot;
use crate::tool::{Results, Tool};
use second_search::goal::{GAMMA_E, SIGMA_E};

pub fn test(tool: &Tool, results: &mut Results) {
    for case in cases(200) {
        tool.write("policy.img", &case.policy.encode());
        tool.write("goal.img", &case.goal.encode());
        let ran = tool.run(&[
            "check",
            "policy.img",
            "goal.img",
            "--plain",
            "--dot",
            "picture.dot",
            "--overwrite",
            "--names",
            "all-names.txt",
        ]);
        let text = String::from_utf8(tool.read("picture.dot")).unwrap_or_default();
        let name = format!("case {}: the picture", case.number);
        match dot::parse(&text) {
            Err(why) => results.claim(false, || format!("{name}: {why}")),
            Ok(picture) => {
                // a path of m steps is printed on 2m + 1 lines after the answer
                let contexts = ran.said.lines().count() / 2;
                let excepted =
                    [SIGMA_E, GAMMA_E].iter().filter(|&&chain| case.goal.items.iter().any(|&(of, _)| of == chain)).count();
                let nodes = case.goal.n + 1 + excepted + contexts;
                let edges = case.goal.n + contexts.saturating_sub(1);
                let counts = (picture.nodes.len(), picture.edges.len());
                results.claim(counts == (nodes, edges), || format!("{name}: {counts:?}, not {:?}", (nodes, edges)));
            }
        }
    }
}
