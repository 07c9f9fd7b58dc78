//! The command ./flowgoal on generated cases, held to the second search and to the library that it asks. Called by tests/command/run with the
//! program and a folder to work in; its last line is 'N passed, M failed'. With `json FILE` or `dot FILE` it reads that file and says what is
//! wrong with it.
mod cases;
mod dot;
mod json;
mod pictures;
mod places;
mod questions;
mod readers;
mod records;
mod texts;
mod tool;
mod walks;

use std::path::{Path, PathBuf};
use tool::{Results, Tool};

fn main() {
    let words: Vec<PathBuf> = std::env::args_os().skip(1).map(PathBuf::from).collect();
    let right = match &words[..] {
        [what, file] if what.as_os_str() == "json" => reads(file, |text| json::parse(text).map(|_| ())),
        [what, file] if what.as_os_str() == "dot" => reads(file, |text| dot::parse(text).map(|_| ())),
        [program, work] => test(program, work),
        _ => {
            eprintln!("usage: command-test PROGRAM FOLDER, command-test json FILE, command-test dot FILE");
            std::process::exit(2)
        }
    };
    std::process::exit(if right { 0 } else { 1 })
}

/// Is the file what the reader takes?
fn reads(file: &Path, reader: impl Fn(&str) -> Result<(), String>) -> bool {
    let text = std::fs::read_to_string(file).map_err(|why| why.to_string());
    let read = text.and_then(|text| reader(&text));
    read.map_err(|why| eprintln!("{}: {why}", file.display())).is_ok()
}

fn test(program: &Path, work: &Path) -> bool {
    std::fs::create_dir_all(work).expect("a folder to work in");
    let tool = Tool { program: program.to_path_buf(), work: work.to_path_buf() };
    let mut results = Results::default();
    readers::test(&mut results);
    texts::test(&tool, &mut results);
    questions::test(&tool, &mut results);
    walks::test(&tool, &mut results);
    pictures::test(&tool, &mut results);
    results.met_enough();
    println!("{} passed, {} failed", results.passed, results.failed);
    results.failed == 0
}
