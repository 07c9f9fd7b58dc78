//! Wrong libraries, each of which must be noticed: a test that could not fail would say nothing. And what a person gets of a case
//! that fails: its images, and the words that ask it again.
use crate::asking::{ask, ask_all, Asker, Failure};
use crate::cases::{landed, Case, Numbered, DAMAGED, GENERATED, LIMIT};
use crate::kept::{again, images, told};
use crate::tally::Tally;
use crate::wrong_canonicals::CANONICAL_TRIALS;
use crate::wrong_joins::JOIN_TRIALS;
use crate::wrong_libraries::{Trial, TRIALS};
use second_search::answer::goal_question_landed;
use std::path::Path;
use std::process::Command;
use std::{env, fs};

/// Cases that a wrong library is tried on.
const TRIED: u64 = 300;

/// Nothing where some case fails for the reason that the library is wrong.
fn unnoticed(trial: &Trial) -> Option<String> {
    let mut first = None;
    for number in 0..TRIED {
        let asked = ask(Asker::silent(trial.library), trial.cases.case(number), LIMIT, &mut Tally::default());
        let wrong = asked.err().unwrap_or_default();
        if wrong.iter().any(|why| why.contains(trial.says)) {
            return None;
        }
        first = first.or(wrong.into_iter().next());
    }
    Some(format!("no case says {:?}; the first says {first:?}", trial.says))
}

/// The first image of the case that is not in the folder.
fn lost(case: &Case, folder: &Path) -> Option<String> {
    let kept = |image: &String| fs::read(folder.join(image)).ok();
    images(case).into_iter().find(|(image, bytes)| kept(image).as_ref() != Some(bytes)).map(|(image, _)| image)
}

/// Nothing where the images of a case that fails are where the lines on it say, and the case fails again when it is asked alone.
fn unkept(kept: &Path, threads: usize) -> Option<String> {
    let library = TRIALS[0].library;
    let asked = ask_all(library, GENERATED.first(TRIED), threads);
    let lines = told(&asked, kept);
    let Some(Failure { number, wrong }) = asked.failures.first() else { return Some("no case failed".to_string()) };
    let (case, folder) = (GENERATED.case(*number), kept.join(format!("generated-{number}")));
    if let Some(image) = lost(&case, &folder) {
        return Some(format!("{} is not the image of case {number}", folder.join(image).display()));
    }
    let kept = format!("  its images are in {}; to ask it again: tests/library/run generated {number}", folder.display());
    let wanted: Vec<String> = wrong.iter().map(|why| format!("generated case {number}: {why}")).chain([kept]).collect();
    if !lines.starts_with(&wanted) {
        return Some(format!("of case {number} is told {lines:#?}, expected {wanted:#?}"));
    }
    let alone = ask(Asker::silent(library), case, LIMIT, &mut Tally::default());
    if alone.as_ref().err() != Some(wrong) {
        return Some(format!("case {number} says {alone:?} when it is asked alone, and {wrong:?} among the others"));
    }
    None
}

/// This program with the arguments: its exit status, and the lines that it prints.
fn run(arguments: &[&str]) -> (Option<i32>, Vec<String>) {
    let program = env::current_exe().expect("this program has a name");
    let output = Command::new(program).args(arguments).output().expect("this program runs again");
    (output.status.code(), String::from_utf8_lossy(&output.stdout).lines().map(str::to_string).collect())
}

/// Nothing where both sides are heard of a case that is asked alone by its number, and its images are kept.
fn unheard(cases: &Numbered, number: u64, kept: &Path) -> Option<String> {
    let words = again(cases, number);
    let place = kept.display().to_string();
    let arguments: Vec<&str> = [place.as_str()].into_iter().chain(words.split(' ').skip(1)).collect();
    let (status, lines) = run(&arguments);
    let case = cases.case(number);
    let ours = goal_question_landed(landed(), &case.policy, &case.goal, [LIMIT; 2], &mut vec![0; 2 * LIMIT + 1]);
    let folder = kept.join(format!("{}-{number}", cases.sort));
    let wanted = [
        format!("{}: its images are in {}", case.name, folder.display()),
        format!("the second search says: {}", ours.print().trim_end().replace('\n', "; ")),
    ];
    let heard = |start: &str, end: &str| lines.iter().any(|line| line.starts_with(start) && line.contains(end));
    let library = heard("the library says, with work slices ", &format!(": {}", ours.first_line()));
    let written = ["join of a policy and itself, output ", "canonical image of a policy, output "];
    let others = ["Authorized of ", "Flows of ", "least steps from "].into_iter().chain(written);
    let others = others.into_iter().all(|start| heard(start, ": the second search says"));
    let told =
        [", written again: the library gives the same image", ", told in all of these ways: it says the same, and the library"];
    let told = told.iter().all(|end| heard("canonical image of ", end)) && heard("the canonical image: 3 of 3 questions", "");
    let last = lines.last().map(String::as_str);
    let all = lines.starts_with(&wanted) && library && others && told;
    if status != Some(0) || !all || last != Some("1 passed, 0 failed") {
        return Some(format!("{words} ended with {status:?} and printed {lines:#?}"));
    }
    lost(&case, &folder).map(|image| format!("{} has not {image} of {words}", folder.display()))
}

/// Nothing where words that ask for no case are answered with the usage.
fn unrefused(arguments: &[&str]) -> Option<String> {
    let (status, lines) = run(arguments);
    (status != Some(2) || !lines.is_empty()).then(|| format!("{arguments:?} ended with {status:?} and printed {lines:?}"))
}

pub fn check_all(kept: &Path, threads: usize) -> (u64, u64) {
    println!("libraries that are wrong, and a case that is asked again ..");
    let kept = &kept.join("trials");
    // what an earlier run has left there would be taken for this one's
    let _ = fs::remove_dir_all(kept);
    let trials = TRIALS.iter().chain(&JOIN_TRIALS).chain(&CANONICAL_TRIALS);
    let mut tried: Vec<(String, Option<String>)> =
        trials.map(|trial| (format!("noticed: {}", trial.what), unnoticed(trial))).collect();
    let mut add = |what: &str, wrong| tried.push((what.to_string(), wrong));
    add("the images of a case that fails are kept, with how to ask it again", unkept(kept, threads));
    add("a generated case that is asked again by its number", unheard(&GENERATED, 1235, kept));
    add("a damaged case that is asked again by its number", unheard(&DAMAGED, 19_992, kept));
    add("a number that is none", unrefused(&["kept", "generated", "one"]));
    add("no number", unrefused(&["kept", "damaged"]));
    add("no folder for what is kept", unrefused(&[]));
    for (what, wrong) in &tried {
        println!("{what}{}", wrong.as_ref().map_or(String::new(), |wrong| format!(": FAILED: {wrong}")));
    }
    let failed = tried.iter().filter(|(_, wrong)| wrong.is_some()).count() as u64;
    if failed == 0 {
        let _ = fs::remove_dir_all(kept);
    }
    (tried.len() as u64 - failed, failed)
}
