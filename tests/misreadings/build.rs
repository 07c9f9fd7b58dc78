//! Writes the copy of the second search in which each misreading can be switched on: its sources as they are, with every
//! place of `places.rs` replaced. A place that does not stand in its file exactly once stops the build.
mod places;

use places::PLACES;
use std::{env, fs, path::Path};

const SOURCE: &str = "../second-search/src";
const FILES: [&str; 9] =
    ["landed.rs", "policy.rs", "goal.rs", "paths.rs", "layers.rs", "answer.rs", "steps.rs", "join.rs", "canonical.rs"];

/// Inner doc comments may not stand in an included file.
fn without_inner_docs(text: &str) -> String {
    text.lines().filter(|line| !line.starts_with("//!")).map(|line| format!("{line}\n")).collect()
}

fn switched(file: &str, mut text: String) -> String {
    for place in PLACES.iter().filter(|place| place.file == file) {
        let met = text.matches(place.reads).count();
        assert!(met == 1, "{file}: the text {:?} of a misreading is met {met} times", place.reads);
        text = text.replace(place.reads, place.switched);
    }
    text
}

fn main() {
    let out = env::var("OUT_DIR").expect("cargo sets OUT_DIR");
    for file in FILES {
        let source = Path::new(SOURCE).join(file);
        println!("cargo:rerun-if-changed={}", source.display());
        let text = fs::read_to_string(&source).unwrap_or_else(|e| panic!("{}: {e}", source.display()));
        let text = switched(file, without_inner_docs(&text));
        fs::write(Path::new(&out).join(file), text).unwrap_or_else(|e| panic!("{file}: {e}"));
    }
    println!("cargo:rerun-if-changed=places.rs");
}
