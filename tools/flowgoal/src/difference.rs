//! `difference A B`: what one policy says and the other does not.
use crate::args::{Args, Usage};
use crate::asked::{Refusal, Subject};
use crate::check::Form;
use crate::ending::{bug, End, Run};
use crate::facts::Difference;
use crate::input::{image, What};
use crate::names::Names;
use crate::{library, output};
use flowgoal_calls::Writing;

pub const USAGE: Usage = Usage {
    name: "difference",
    words: "A B [--names FILE]",
    flags: &[],
    values: &["--names"],
    help: "What the policies A and B say differently, whatever the order of their records: lines of the text format, with - for what A alone
says and + for what B alone says. Nothing is printed where they say the same. Constraints and their nodes are lists: n1, n2 and
so on are nodes by their places.

  --names FILE  names of types, roles, users, classes and permissions (names.txt beside A, where it is there; where B's text uses
                names, those beside B)

Exit status: 0 they say the same, 1 they do not, 2 refused, 3 it could not be asked.",
};

pub fn run(mut args: Args) -> Run<End> {
    let files = [args.file("A")?, args.file("B")?];
    args.end()?;
    let names = Names::choose(args.value("--names"), &files[0])?;
    let mut canonical = Vec::new();
    let mut policies = Vec::new();
    for (who, file) in ["policy A", "policy B"].into_iter().zip(files) {
        let own = Names::choose(args.value("--names"), &file)?;
        let image = image(&file, What::Policy, &own)?;
        match library::canonical(&image)? {
            (Writing::Refused(k), _) => {
                return Refusal::of("flowgoal_canonical", k, Subject::Image(who, file)).print(Form::Explained)
            }
            (Writing::Written(_), written) => canonical.push(written),
        }
        policies.push(library::policy(&image)?);
    }
    let difference = Difference::of(&policies[0], &policies[1], &names);
    let same = difference.lines.is_empty();
    if same != (canonical[0] == canonical[1]) {
        let says = if same { "the same" } else { "different things" };
        return Err(bug(format!("the facts of the policies are {says}, and the library's canonical images say otherwise")));
    }
    output::print(&difference.lines.iter().map(|(sign, line)| format!("{sign} {line}\n")).collect::<String>())?;
    Ok(if same { End::Yes } else { End::No })
}
