//! The static library's outward calls against the second search, on generated and on damaged cases; or on one of them alone; or,
//! given folders with images, on those. Its last line is 'N passed, M failed'.
mod asking;
mod bare_questions;
mod calls;
mod canonical;
mod cases;
mod goal_question;
mod joins;
mod kept;
mod least_steps;
mod lending;
mod loose;
mod meaning;
mod misread;
mod numbers;
mod outputs;
mod pairs;
mod policies;
mod retold;
mod survival;
mod tally;
mod trials;
mod wrong_canonicals;
mod wrong_joins;
mod wrong_libraries;

use asking::{ask, ask_all, Asked, Asker};
use calls::LINKED;
use cases::{stored, Numbered, DAMAGED, GENERATED, LIMIT};
use flowgoal_calls::{policy_length, MOST_RECORDS};
use std::path::{Path, PathBuf};
use tally::Tally;

const USAGE: &str = "usage: tests/library/run [generated NUMBER | damaged NUMBER | FOLDER..]
Each FOLDER has policy.img and goal.img. (The program itself is first given the folder for the images that it keeps.)";

/// How many passed and how many failed, of one thing that is tested.
fn result(passed: bool) -> (u64, u64) {
    (passed as u64, !passed as u64)
}

fn report(asked: &Asked, kept: &Path) -> (u64, u64) {
    kept::told(asked, kept).iter().for_each(|line| println!("{line}"));
    println!("{} {} cases: {} failed", asked.cases.count, asked.cases.sort, asked.failures.len());
    result(asked.failures.is_empty())
}

/// Generated and damaged cases, what they met, the misreadings that they tell apart, and the wrong libraries.
fn ask_numbered(kept: &Path) -> Vec<(u64, u64)> {
    let threads = std::thread::available_parallelism().map_or(2, |n| n.get());
    println!("the library against the second search, {} generated cases and {} damaged ones ..", GENERATED.count, DAMAGED.count);
    let mut results = vec![numbers::check_all()];
    let whole = ask_all(LINKED, GENERATED, threads);
    results.push(report(&whole, kept));
    let hurt = ask_all(LINKED, DAMAGED, threads);
    results.push(report(&hurt, kept));
    let mut tally = Tally::default();
    tally.add(&whole.tally);
    tally.add(&hurt.tally);
    results.push(tally.print());
    println!("the largest search went over {} nodes; the program has room for {LIMIT}", tally.most_nodes());
    results.push(result(tally.most_nodes() == LIMIT));
    println!("the longest least path had {} steps", tally.longest());
    println!("{} joined policies went through the other questions", tally.all_joined());
    println!("{} canonical images were written again", tally.all_again());
    let largest = tally.most_bytes();
    println!("the largest join wrote {} bytes, the largest canonical image has {}", largest[0], largest[1]);
    results.extend(largest.map(|bytes| result(bytes == policy_length(MOST_RECORDS))));
    results.extend(misread::tables(&whole, &hurt, threads));
    results.push(trials::check_all(kept, threads));
    results
}

/// One case by its number, with what each side says.
fn ask_one(cases: Numbered, number: u64, kept: &Path) -> Vec<(u64, u64)> {
    let case = cases.case(number);
    println!("{}: {}", case.name, kept::kept_in(&cases, number, kept));
    let asked = ask(Asker { library: LINKED, aloud: true }, case, LIMIT, &mut Tally::default());
    for why in asked.as_ref().err().into_iter().flatten() {
        println!("FAILED: {why}");
    }
    vec![result(asked.is_ok())]
}

/// The cases of the folders, one result each.
fn ask_stored(folders: &[String]) -> Vec<(u64, u64)> {
    let one = |folder: &String| {
        let asked = match stored(folder) {
            Ok(case) => ask(Asker::silent(LINKED), case, usize::MAX, &mut Tally::default()),
            Err(why) => Err(vec![why]),
        };
        for why in asked.as_ref().err().into_iter().flatten() {
            println!("{folder}: {why}");
        }
        result(asked.is_ok())
    };
    folders.iter().map(one).collect()
}

fn usage() -> ! {
    eprintln!("{USAGE}");
    std::process::exit(2)
}

fn main() {
    let arguments: Vec<String> = std::env::args().skip(1).collect();
    let Some((kept, asked)) = arguments.split_first() else { usage() };
    let kept = PathBuf::from(kept);
    let cases = asked.first().and_then(|sort| [GENERATED, DAMAGED].into_iter().find(|cases| cases.sort == sort));
    let results = match (cases, asked) {
        (Some(cases), [_, number]) => ask_one(cases, number.parse().unwrap_or_else(|_| usage()), &kept),
        (Some(_), _) => usage(),
        (None, []) => ask_numbered(&kept),
        (None, folders) => ask_stored(folders),
    };
    let (passed, failed) = results.iter().fold((0, 0), |sum, part| (sum.0 + part.0, sum.1 + part.1));
    println!("{passed} passed, {failed} failed");
    std::process::exit((failed > 0) as i32);
}
