//! The two readers refuse what is damaged: else they would say nothing of what they accept.
use crate::tool::Results;
use crate::{dot, json};

pub fn test(results: &mut Results) {
    of_json(results);
    of_pictures(results);
}

fn of_json(results: &mut Results) {
    let good = ["{\"a\":[1,-2.5e3,true,null,\"\\u03c3\\n\"],\"b\":{}}\n", " [ ] ", "0", "\"σ0\""];
    let bad = [
        "",
        "{",
        "[1,]",
        "{\"a\":1,}",
        "{a:1}",
        "{\"a\" 1}",
        "01",
        "1.",
        ".5",
        "+1",
        "\"a\nb\"",
        "\"\\x\"",
        "\"\\u12\"",
        "[1] 2",
        "{\"a\":1,\"a\":2}",
        "'a'",
        "nul",
        "\"a",
    ];
    for text in good {
        results.claim(json::parse(text).is_ok(), || format!("{text:?} is JSON: {:?}", json::parse(text)));
    }
    for text in bad {
        results.claim(json::parse(text).is_err(), || format!("{text:?} is no JSON"));
    }
}

fn of_pictures(results: &mut Results) {
    let graph = "digraph g { label=\"a \\\"b\\\" σ\\n\"; node [shape=box, color=red]; subgraph cluster_a { x; y [label=\"z\"]; x -> y [color=red]; } }";
    results.claim(dot::parse(graph).is_ok_and(|picture| picture.nodes.len() == 2 && picture.edges.len() == 1), || {
        "a picture".to_string()
    });
    for (from, to) in [
        ("digraph", "graph"),
        ("; }", " }"),
        ("x;", "z;"),
        ("\"z\"", "\"z"),
        ("=red]", "red]"),
        ("-> y", "-> 9"),
        ("} }", "}"),
        ("x -> y", "x - y"),
    ] {
        let damaged = graph.replacen(from, to, 1);
        results.claim(dot::parse(&damaged).is_err(), || format!("{damaged} is no picture"));
    }
}
