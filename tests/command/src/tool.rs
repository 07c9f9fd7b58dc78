//! The command that is tested, what it says, and what is counted.
use crate::json::{self, Value};
use std::collections::BTreeMap;
use std::path::PathBuf;
use std::process::Command;

/// The program, and a folder that it may write to, without a file of names.
pub struct Tool {
    pub program: PathBuf,
    pub work: PathBuf,
}

/// What a run of it came to.
#[derive(Debug)]
pub struct Ran {
    pub status: i32,
    pub said: String,
    pub errors: String,
}

/// What is known of a test: how many of its claims hold, and what is said of those that do not.
#[derive(Default)]
pub struct Results {
    pub passed: usize,
    pub failed: usize,
    /// What the cases must meet, and how often they did.
    met: BTreeMap<&'static str, usize>,
}

/// What must be met at least so often, so that something is said of it.
const ENOUGH: usize = 20;
pub const HOLDS: &str = "holds";
pub const ORDER: &str = "order";
pub const EVENTS: &str = "events";
pub const YES: &str = "yes";
pub const NO: &str = "no";
pub const EQUAL_ROLES: &str = "a transition between equal roles, of which kind 7 says nothing";
pub const CHANGED_ROLE: &str = "a transition between different roles, by a record of kind 7";
pub const STOPPED_ROLE: &str = "a transition between different roles that kind 7 alone stops";
const WANTED: [&str; 8] = [HOLDS, ORDER, EVENTS, YES, NO, EQUAL_ROLES, CHANGED_ROLE, STOPPED_ROLE];

impl Results {
    pub fn claim(&mut self, holds: bool, what: impl Fn() -> String) {
        if holds {
            self.passed += 1;
        } else {
            self.failed += 1;
            println!("FAILED: {}", what());
        }
    }

    pub fn meet(&mut self, what: &'static str) {
        *self.met.entry(what).or_default() += 1;
    }

    /// Says how often each thing was met, which must be often enough.
    pub fn met_enough(&mut self) {
        for what in WANTED {
            let times = self.met.get(what).copied().unwrap_or(0);
            println!("  met {times} times: {what}");
            self.claim(times >= ENOUGH, || format!("too few cases have {what}"));
        }
    }
}

impl Tool {
    pub fn run(&self, words: &[&str]) -> Ran {
        let run = Command::new(&self.program).args(words).current_dir(&self.work).output().expect("the command can be run");
        let text = |bytes: Vec<u8>| String::from_utf8(bytes).expect("it prints UTF-8");
        Ran { status: run.status.code().unwrap_or(-1), said: text(run.stdout), errors: text(run.stderr) }
    }

    /// The object that a run prints.
    pub fn json(&self, words: &[&str]) -> Result<(Ran, Value), String> {
        let ran = self.run(words);
        let value = json::parse(&ran.said).map_err(|why| format!("{why}, in: {:.200}{}", ran.said, ran.errors))?;
        Ok((ran, value))
    }

    pub fn write(&self, file: &str, bytes: &[u8]) {
        std::fs::write(self.work.join(file), bytes).expect("a file can be written");
    }

    pub fn read(&self, file: &str) -> Vec<u8> {
        std::fs::read(self.work.join(file)).unwrap_or_default()
    }
}

/// Three numbers as a context is given, and two as an event.
pub fn words<const N: usize>(numbers: [u32; N]) -> String {
    numbers.map(|number| number.to_string()).join(" ")
}
