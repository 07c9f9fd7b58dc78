//! The slowest accepted images that were found, of some sizes: the goal question through the static library alone, since a plain program
//! would take hours. Every permission is constrained, by an expression that tells every context from every other, so that what was asked
//! before rarely helps, and that never lets the last user's contexts be reached, so that no type is ever done with. All records that are
//! left are shared out between allow records and nested nots: a constraint is asked for each of the first, and evaluated node by node.
use crate::goals::Ours;
use crate::sizes::{Masks, Says, Size};
use crate::timing::timed;
use crate::PROGRAM;
use flowgoal_calls::Outcome;

pub const NOTE: &str =
    "slowest: each is asked once, of the proved program alone; nested: the nodes above what the constraint says";

/// How the records are shared out takes longest of what was tried.
pub fn cases() -> Vec<(String, Size)> {
    let slow = Size { classes: 1, constraints: 1, says: Says::NotLastUser, masks: Masks::All, ..PROGRAM };
    let both = Size { roles: 15, users: 15, allows: 1400, nested: 1300, ..slow };
    let station = Size { types: 255, ..slow };
    let sizes = [
        Size { allows: 1800, nested: 1900, ..slow },
        Size { legs: 2, ..both },
        Size { legs: 2, allows: 1400, nested: 1300, ..station },
        Size { legs: 6, allows: 1400, nested: 1300, ..station },
    ];
    let name = |s: &Size| format!("slowest, {} {} {}, {} legs", s.types, s.roles, s.users, s.legs);
    sizes.into_iter().map(|size| (name(&size), size)).collect()
}

pub fn print_head() {
    println!(
        "{:40} {:14} {:>6} {:>6} {:>4} {:>9} {:>7} {:10} {:>10}",
        "slowest: case", "T R U C", "allows", "nested", "legs", "nodes", "bytes", "answer", "proved s"
    );
}

/// One line of the table; false where the goal does not hold, and not everything is searched.
pub fn measure(name: &str, size: &Size) -> bool {
    let (policy, goal) = size.images(42);
    let mut ours = Ours::new(size.nodes());
    let (outcome, seconds) = timed(|| ours.ask(&policy, &goal));
    let Size { types, roles, users, classes, allows, nested, legs, .. } = size;
    println!(
        "{name:40} {:14} {allows:6} {nested:6} {legs:4} {:9} {:7} {:10} {seconds:10.3}",
        format!("{types} {roles} {users} {classes}"),
        size.nodes(),
        policy.len(),
        outcome.to_string(),
    );
    outcome == Outcome::Holds
}

/// The program is asked once; false where the goal does not hold.
pub fn ask_once(name: &str, size: &Size) -> bool {
    let (policy, goal) = size.images(42);
    let outcome = Ours::new(size.nodes()).ask(&policy, &goal);
    println!("{name}: {outcome}");
    outcome == Outcome::Holds
}
