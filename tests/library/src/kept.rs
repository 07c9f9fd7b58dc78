//! What is told of the cases that failed, and their images, which are kept so that they can be looked at.
use crate::asking::{Asked, Failure};
use crate::cases::{Case, Numbered};
use crate::loose::policies;
use crate::policies::pairs;
use std::path::{Path, PathBuf};
use std::{fs, io};

/// Cases that failed and are told of.
const TOLD: usize = 10;

/// The images of a case, with the names of their files: those of the pairs that are joined are numbered in their order, and so are the
/// policies that are written canonically.
pub fn images(case: &Case) -> Vec<(String, Vec<u8>)> {
    let mut all = vec![("policy.img".to_string(), case.policy.clone()), ("goal.img".to_string(), case.goal.clone())];
    for (i, pair) in pairs(case).into_iter().enumerate() {
        all.push((format!("maker-{}.img", i + 1), pair.maker));
        all.push((format!("board-{}.img", i + 1), pair.board));
    }
    let loose = policies(case).into_iter().enumerate();
    all.extend(loose.map(|(i, policy)| (format!("loose-{}.img", i + 1), policy.image)));
    all
}

/// Writes the images of a case to a folder of its own; gives the folder.
fn keep(cases: &Numbered, number: u64, kept: &Path) -> io::Result<PathBuf> {
    let folder = kept.join(format!("{}-{number}", cases.sort));
    fs::create_dir_all(&folder)?;
    for (image, bytes) in images(&cases.case(number)) {
        fs::write(folder.join(image), bytes)?;
    }
    Ok(folder)
}

/// Keeps the images of a case, and says where they are.
pub fn kept_in(cases: &Numbered, number: u64, kept: &Path) -> String {
    match keep(cases, number, kept) {
        Ok(folder) => format!("its images are in {}", folder.display()),
        Err(why) => format!("its images cannot be written to {}: {why}", kept.display()),
    }
}

/// The words that ask a case again.
pub fn again(cases: &Numbered, number: u64) -> String {
    format!("tests/library/run {} {number}", cases.sort)
}

/// The lines on the first of the cases that failed: what was wrong, where the images are, and how to ask again.
pub fn told(asked: &Asked, kept: &Path) -> Vec<String> {
    let mut lines = Vec::new();
    for Failure { number, wrong } in asked.failures.iter().take(TOLD) {
        let name = asked.cases.case(*number).name;
        lines.extend(wrong.iter().map(|why| format!("{name}: {why}")));
        lines.push(format!("  {}; to ask it again: {}", kept_in(&asked.cases, *number, kept), again(&asked.cases, *number)));
    }
    lines
}
