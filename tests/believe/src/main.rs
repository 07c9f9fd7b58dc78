//! What has to be believed for the outward promises, and what the theorems beside them say, computed from the files, and whether the files and
//! `docs/BELIEVE.md` are in step with it. Only the names of the outward crates and of the theorems are written down here.
mod closure;
mod modules;
mod page;
mod page_rules;
mod rattle_file;
mod rules;
mod scope;
mod spec_file;
mod theorems;
mod tokens;
mod tree;

use closure::Closure;
use std::path::Path;
use std::process::exit;
use tree::Tree;

const USAGE: &str = "usage: believe [--print] [ROOT]
  Without --print: checks the files below ROOT and ends with the line 'N passed, M failed'.
  With --print: prints the tables of docs/BELIEVE.md as they should be.";

/// One line for each rule that does not hold, and below it what is wrong; gives how many hold and how many do not.
fn report(tree: &Tree, closure: &Closure, stated: &Closure) -> (usize, usize) {
    let rules = rules::all(tree, closure, stated);
    for rule in rules.iter().filter(|rule| !rule.wrong.is_empty()) {
        println!("not so: {}", rule.says);
        for line in &rule.wrong {
            println!("  {line}");
        }
    }
    let failed = rules.iter().filter(|rule| !rule.wrong.is_empty()).count();
    (rules.len() - failed, failed)
}

fn main() {
    let mut arguments: Vec<String> = std::env::args().skip(1).collect();
    let print = arguments.iter().position(|a| a == "--print").map(|at| arguments.remove(at)).is_some();
    if arguments.len() > 1 || arguments.iter().any(|a| a.starts_with('-')) {
        eprintln!("{USAGE}");
        exit(2);
    }
    let tree = Tree::read(Path::new(arguments.first().map_or(".", String::as_str)));
    let (closure, stated) = (Closure::of(&tree), theorems::closure(&tree));
    if print {
        return page::print(&tree, &closure, &stated);
    }
    let (passed, failed) = report(&tree, &closure, &stated);
    println!("{passed} passed, {failed} failed");
    exit((failed > 0) as i32)
}
