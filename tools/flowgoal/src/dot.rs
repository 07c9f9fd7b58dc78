//! A picture of an answer for Graphviz: the goal's legs, and the path with the sets that its contexts are in.
use crate::check::{Checked, Found};
use crate::policy::Way;
use crate::sets;
use crate::walk::{Break, Step};
use second_search::goal::{Goal, Item, GAMMA, GAMMA_E, SIGMA_E};
use second_search::paths::Path;

/// A string of the dot language; `\n` in it is a new line.
fn quoted(text: &str) -> String {
    format!("\"{}\"", text.replace('\\', "\\\\").replace('"', "\\\"").replace('\n', "\\n"))
}

pub fn picture(checked: &Checked) -> String {
    let title = match &checked.ground {
        Found::Nothing(_) => format!("{}: no path breaks the goal", checked.outcome),
        Found::Path { path, broken, .. } => {
            format!("{}: {}", checked.outcome, broken.words(checked.goal, path, checked.reading.names))
        }
    };
    let mut said =
        format!("digraph flowgoal {{\n  label={};\n  labelloc=t;\n  rankdir=LR;\n  fontname=\"Helvetica\";\n", quoted(&title));
    said += "  node [shape=box, fontname=\"Helvetica\"];\n  edge [fontname=\"Helvetica\"];\n";
    said += &legs(checked);
    if let Found::Path { path, steps, broken, .. } = &checked.ground {
        said += &walked(checked, path, steps, broken);
    }
    said + "}\n"
}

/// What a set of the goal holds, a record a line.
fn set(checked: &Checked, chain: usize) -> String {
    let names = checked.reading.names;
    let items = checked.goal.items.iter().filter(|(of, _)| *of == chain);
    let any = |n: u32, name: String| if n == 0 { "*".to_string() } else { name };
    let line = |(_, item): &(usize, Item)| {
        use crate::names::Sort::{Class, Role, Type, User};
        match *item {
            Item::Sigma { t, r, u } => {
                let parts = [any(u, names.short(User, u)), any(r, names.short(Role, r)), any(t, names.short(Type, t))];
                parts.join(":")
            }
            Item::Gamma { c, mask } => format!("{} {}", any(c, names.short(Class, c)), names.mask(c, mask)),
        }
    };
    let lines: Vec<String> = items.map(line).collect();
    if lines.is_empty() {
        "empty".to_string()
    } else {
        lines.join("\n")
    }
}

/// The sets of the goal and its legs from one to the next; the exceptions stand by themselves, dashed.
fn legs(checked: &Checked) -> String {
    let goal: &Goal = checked.goal;
    let mut said = "  subgraph cluster_goal {\n    label=\"the goal\";\n".to_string();
    for i in 0..=goal.n {
        said += &format!("    s{i} [shape=ellipse, label={}];\n", quoted(&format!("σ{i}\n{}", set(checked, i))));
    }
    for i in 0..goal.n {
        let how = if goal.repeated(i) { "repeated" } else { "one step" };
        let label = format!("leg {i}, {how}\n{}", set(checked, GAMMA + i));
        said += &format!("    s{i} -> s{} [label={}];\n", i + 1, quoted(&label));
    }
    for (chain, name) in [(SIGMA_E, "σe"), (GAMMA_E, "γe")] {
        if goal.items.iter().any(|(of, _)| *of == chain) {
            let label = quoted(&format!("{name}, excepted\n{}", set(checked, chain)));
            said += &format!("    e{chain} [shape=ellipse, style=dashed, label={label}];\n");
        }
    }
    said + "  }\n"
}

/// The contexts and steps of a path; what breaks the goal is red, what is excepted is dashed.
fn walked(checked: &Checked, path: &Path, steps: &[Step], broken: &Break) -> String {
    let (names, goal) = (checked.reading.names, checked.goal);
    let mut said = "  subgraph cluster_path {\n    label=\"the path\";\n".to_string();
    for (j, &x) in path.xs.iter().enumerate() {
        let mut lines = vec![names.context(x)];
        lines.extend(Some(sets::of_context(goal, x).join(" ")).filter(|sets| !sets.is_empty()));
        let style = if goal.sigma_e(x) { ", style=dashed" } else { "" };
        let color = if broken.at() == j { ", color=red" } else { "" };
        said += &format!("    x{j} [label={}{style}{color}];\n", quoted(&lines.join("\n")));
    }
    for (j, step) in steps.iter().enumerate() {
        let sets = sets::of_event(goal, step.event).join(" ");
        let lines = [vec![names.event(step.event)], vec![sets], step.ways.iter().map(way).collect()].concat();
        let label = lines.into_iter().filter(|line| !line.is_empty()).collect::<Vec<_>>().join("\n");
        let color = if broken.at() == j + 1 { ", color=red" } else { "" };
        said += &format!("    x{j} -> x{} [label={}{color}];\n", j + 1, quoted(&label));
    }
    said + "  }\n"
}

/// A way with the numbers of its allow records.
fn way(way: &Way) -> String {
    let allows = way.clauses.iter().filter(|clause| clause.name == "allow").flat_map(|clause| &clause.records);
    format!("{}, record {}", way.name, sets::listed(&allows.collect::<Vec<_>>()))
}
