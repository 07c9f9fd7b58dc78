//! `./bench`: the goal question, least steps, joins and canonical images through the static library, each against plain programs on the
//! same images, in one run; and where it is asked for, the slowest images that were found.
mod canonical_plain;
mod canonicals;
mod drawn;
#[allow(clippy::all)]
#[rustfmt::skip]
mod fast_search;
mod goals;
mod join_plain;
mod joins;
mod memory_search;
mod policy_plain;
mod sizes;
mod slowest;
mod steps;
mod steps_search;
mod timing;

use sizes::{Goals, Masks, Order, Says, Size};

const PROGRAM: Size = Size {
    types: 64,
    roles: 4,
    users: 4,
    classes: 4,
    allows: 1500,
    legs: 4,
    constraints: 0,
    says: Says::SameUserOrRole1,
    nested: 0,
    crowd: None,
    order: Order::Made,
    masks: Masks::OneBit,
    goal: Goals::Holds,
};
const STATION: Size = Size { types: 255, classes: 8, allows: 3000, legs: 2, ..PROGRAM };
const SIX_LEGS: Size = Size { legs: 6, ..STATION };
const LARGEST: Size = Size { roles: 15, users: 15, classes: 31, ..SIX_LEGS };

/// Few domains with many rules, as real policies have them.
const CROWDED: Size =
    Size { types: 255, classes: 18, allows: 3000, crowd: Some(10), legs: 2, masks: Masks::Few, order: Order::Random, ..PROGRAM };
/// Every permission is constrained.
const CONSTRAINED: Size = Size { allows: 1000, constraints: 4, says: Says::SameUser, nested: 4, masks: Masks::All, ..PROGRAM };

/// The shapes of real policies: few domains, and constraints that let little through.
fn shapes() -> Vec<(String, Size)> {
    let few = Size { types: 130, crowd: Some(20), allows: 3750, ..CROWDED };
    let mut all = Vec::new();
    for (order, name) in [(Order::Random, "random"), (Order::Sorted, "sorted"), (Order::Reversed, "reversed")] {
        all.push((format!("crowded, 10 of 255 types, {name}"), Size { order, ..CROWDED }));
        all.push((format!("crowded, 20 of 130 types, {name}"), Size { order, ..few }));
    }
    for (types, size) in [("10 of 255", CROWDED), ("20 of 130", few)] {
        all.push((format!("crowded, {types} types, two nodes"), Size { goal: Goals::OneNode, ..size }));
    }
    let many_users = Size { users: 15, classes: 2, constraints: 2, legs: 2, nested: 10, ..CONSTRAINED };
    let both = Size { roles: 15, allows: 500, ..many_users };
    for (says, name) in
        [(Says::SameUser, "same user"), (Says::SameRole, "same role"), (Says::SameUserOrRole1, "same user or role 1")]
    {
        all.push((format!("{name}, 4 nested"), Size { says, ..CONSTRAINED }));
        all.push((format!("{name}, 400 nested"), Size { says, nested: 400, ..CONSTRAINED }));
        all.push((format!("{name}, 4 roles, 15 users"), Size { says, ..many_users }));
        all.push((format!("{name}, 15 roles, 15 users"), Size { says, ..both }));
        all.push((format!("{name}, station, 300 nested"), Size { says, types: 255, allows: 1500, nested: 300, ..both }));
    }
    all.push(("same user, 1,500 nested".to_string(), Size { classes: 1, constraints: 1, nested: 1500, ..both }));
    all
}

/// The sizes, from the limit of the goal program to the largest policy and goal, each with masks of one bit and of 32, and what else is to be measured.
fn cases() -> Vec<(String, Size)> {
    let mut all = Vec::new();
    let sizes = [
        ("program's limit", PROGRAM),
        ("with constraints", Size { constraints: 4, ..PROGRAM }),
        ("station", STATION),
        ("station with constraints", Size { constraints: 8, ..STATION }),
        ("station, one leg", Size { legs: 1, ..STATION }),
        ("six legs", SIX_LEGS),
        ("largest", LARGEST),
    ];
    for (name, size) in sizes {
        all.push((format!("{name}, 1 bit"), size));
        all.push((format!("{name}, 32 bits"), Size { masks: Masks::All, ..size }));
    }
    for (name, size) in sizes {
        if size.constraints == 0 {
            all.push((format!("{name}, long path"), Size { goal: Goals::LongPath, ..size }));
        }
    }
    for allows in [375, 750, 1500, 3000] {
        all.push((format!("growth, {allows} allows"), Size { types: 128, allows, ..STATION }));
    }
    for (roles, users) in [(1, 1), (2, 2), (4, 4), (8, 8), (15, 15)] {
        let size = Size { roles, users, types: 128, allows: 1500, ..STATION };
        all.push((format!("growth, {} contexts", size.contexts()), size));
    }
    all.extend(shapes());
    all
}

/// Those that least steps is asked of: for nested constraints it would take hours to find the two contexts that are asked about.
fn steps_cases() -> Vec<(String, Size)> {
    cases().into_iter().filter(|(_, size)| size.nested == 0).collect()
}

const USAGE: &str =
    "usage: ./bench [--list] [--once] [--question goal|steps|join|canonical|slowest] [--only TEXT].. [--leave-out TEXT]..
TEXT is a part of a case's name; --list prints the names; --once asks each program once and times nothing; --question asks one
alone, the goal question, least steps, joins or canonical images, or the goal question on the slowest images that were found,
which are asked for by name alone.";

fn usage() -> ! {
    eprintln!("{USAGE}");
    std::process::exit(2)
}

/// A question with its table: a line for each case. What measures a case, or asks it once, gives false where the answers differ.
struct Table<C> {
    question: &'static str,
    cases: fn() -> Vec<(String, C)>,
    print_head: fn(),
    measure: fn(&str, &C) -> bool,
    ask_once: fn(&str, &C) -> bool,
    note: &'static str,
}

const GOALS: Table<Size> = Table {
    question: "goal",
    cases,
    print_head: goals::print_head,
    measure: goals::measure,
    ask_once: goals::ask_once,
    note: goals::NOTE,
};
const STEPS: Table<Size> = Table {
    question: "steps",
    cases: steps_cases,
    print_head: steps::print_head,
    measure: steps::measure,
    ask_once: steps::ask_once,
    note: steps::NOTE,
};
const JOINS: Table<joins::Sizes> = Table {
    question: "join",
    cases: joins::cases,
    print_head: joins::print_head,
    measure: joins::measure,
    ask_once: joins::ask_once,
    note: joins::NOTE,
};
const CANONICALS: Table<canonicals::Sizes> = Table {
    question: "canonical",
    cases: canonicals::cases,
    print_head: canonicals::print_head,
    measure: canonicals::measure,
    ask_once: canonicals::ask_once,
    note: canonicals::NOTE,
};
const SLOWEST: Table<Size> = Table {
    question: "slowest",
    cases: slowest::cases,
    print_head: slowest::print_head,
    measure: slowest::measure,
    ask_once: slowest::ask_once,
    note: slowest::NOTE,
};

#[derive(Default)]
struct Options {
    /// Parts of names.
    only: Vec<String>,
    left_out: Vec<String>,
    list: bool,
    /// For a tool that counts instructions: no rounds.
    once: bool,
    question: Option<String>,
}

fn options(mut args: std::env::Args) -> Options {
    let mut options = Options::default();
    args.next();
    while let Some(word) = args.next() {
        let mut part = || args.next().unwrap_or_else(|| usage());
        match word.as_str() {
            "--list" => options.list = true,
            "--once" => options.once = true,
            "--only" => options.only.push(part()),
            "--leave-out" => options.left_out.push(part()),
            "--question" => options.question = Some(part()),
            _ => usage(),
        }
    }
    options
}

fn names_one(parts: &[String], name: &str) -> bool {
    parts.iter().any(|part| name.contains(part.as_str()))
}

impl<C> Table<C> {
    /// The question is named; or none is, and it is one of those that are asked then.
    fn is_asked(&self, options: &Options, unnamed: bool) -> bool {
        options.question.as_ref().map_or(unnamed, |question| question == self.question)
    }

    /// The lines of the cases that are asked for; false where the answers to one differ.
    fn run(&self, options: &Options) -> bool {
        let (asked, others): (Vec<_>, Vec<_>) =
            (self.cases)().into_iter().partition(|(name, _)| options.only.is_empty() || names_one(&options.only, name));
        if asked.is_empty() {
            println!("{}: all cases left out, as asked", self.question);
            return true;
        }
        if !options.once {
            (self.print_head)();
        }
        let mut agreed = true;
        for (name, size) in asked {
            match names_one(&options.left_out, &name) {
                true => println!("{name:40} left out, as asked"),
                false if options.once => agreed &= (self.ask_once)(&name, &size),
                false => agreed &= (self.measure)(&name, &size),
            }
        }
        if !others.is_empty() {
            println!("{} other cases left out, as asked", others.len());
        }
        if !options.once {
            println!("{}", self.note);
        }
        agreed
    }
}

/// The names of the cases: those of least steps are some of the goal question's.
fn names() -> Vec<String> {
    fn of<C>(cases: Vec<(String, C)>) -> impl Iterator<Item = String> {
        cases.into_iter().map(|(name, _)| name)
    }
    of(cases()).chain(of(joins::cases())).chain(of(canonicals::cases())).chain(of(slowest::cases())).collect()
}

fn main() {
    let options = options(std::env::args());
    if options.list {
        return names().iter().for_each(|name| println!("{name}"));
    }
    type Run<'a> = (bool, &'a dyn Fn() -> bool);
    let runs: [Run; 5] = [
        (GOALS.is_asked(&options, true), &|| GOALS.run(&options)),
        (STEPS.is_asked(&options, true), &|| STEPS.run(&options)),
        (JOINS.is_asked(&options, true), &|| JOINS.run(&options)),
        (CANONICALS.is_asked(&options, true), &|| CANONICALS.run(&options)),
        (SLOWEST.is_asked(&options, false), &|| SLOWEST.run(&options)),
    ];
    if runs.iter().all(|(is_asked, _)| !is_asked) {
        usage()
    }
    // every table is printed, also after one where answers differ
    let differ = runs.iter().filter(|(is_asked, run)| *is_asked && !run()).count();
    std::process::exit((differ > 0) as i32);
}
