//! `join` and `canonical`: policies that the library writes.
use crate::args::{Args, Usage};
use crate::asked::{Refusal, Subject};
use crate::check::Form;
use crate::ending::{bug, End, Run};
use crate::input::{image, What};
use crate::names::Names;
use crate::{library, output};
use flowgoal_calls::Writing;

pub const JOIN: Usage = Usage {
    name: "join",
    words: "MAKER BOARD RESULT [--overwrite] [--names FILE]",
    flags: &["--overwrite"],
    values: &["--names"],
    help: "Writes the one policy that the maker's and the board's make together to RESULT, as an image, and prints written n, for its n
bytes, or refused k and whose policy that is said of.

  --overwrite   RESULT may be there already
  --names FILE  names that a text uses (names.txt beside it, where it is there)

Exit status: 0 written, 2 refused, 3 a file could not be read or written.",
};

pub const CANONICAL: Usage = Usage {
    name: "canonical",
    words: "POLICY RESULT [--overwrite] [--names FILE]",
    flags: &["--overwrite"],
    values: &["--names"],
    help: "Writes the canonical image of the policy to RESULT, and prints written n, for its n bytes, or refused k. Two policies have the
same canonical image exactly when they say the same.

  --overwrite   RESULT may be there already
  --names FILE  names that a text uses (names.txt beside it, where it is there)

Exit status: 0 written, 2 refused, 3 a file could not be read or written.",
};

pub fn join(mut args: Args) -> Run<End> {
    let (maker, board, to) = (args.file("MAKER")?, args.file("BOARD")?, args.file("RESULT")?);
    args.end()?;
    let read = |file: &str| image(file, What::Policy, &Names::choose(args.value("--names"), file)?);
    let [maker_image, board_image] = [read(&maker)?, read(&board)?];
    for (who, file, image) in [("the maker's policy", &maker, &maker_image), ("the board's policy", &board, &board_image)] {
        if let Some(k) = library::policy_refusal(image)? {
            return Refusal::of("flowgoal_join", k, Subject::Image(who, file.clone())).print(Form::Explained);
        }
    }
    let both = format!("{maker} and {board}");
    written("flowgoal_join", library::join(&maker_image, &board_image)?, both, &to, args.flag("--overwrite"))
}

pub fn canonical(mut args: Args) -> Run<End> {
    let (file, to) = (args.file("POLICY")?, args.file("RESULT")?);
    args.end()?;
    let names = Names::choose(args.value("--names"), &file)?;
    let image = image(&file, What::Policy, &names)?;
    if let Some(k) = library::policy_refusal(&image)? {
        return Refusal::of("flowgoal_canonical", k, Subject::Image("the policy", file)).print(Form::Explained);
    }
    written("flowgoal_canonical", library::canonical(&image)?, file, &to, args.flag("--overwrite"))
}

/// Writes what a call wrote. Of images that are accepted it can be refused with 15 alone: there is room for every policy.
fn written(call: &str, (writing, image): (Writing, Vec<u8>), of: String, to: &str, overwrite: bool) -> Run<End> {
    match writing {
        Writing::Written(_) => {
            output::write(to, &image, overwrite)?;
            output::print(&format!("{writing}\n"))?;
            Ok(End::Yes)
        }
        Writing::Refused(15) => Refusal::of(call, 15, Subject::Numbers(of)).print(Form::Explained),
        Writing::Refused(_) => Err(bug(format!("the library says \"{writing}\" to policies that are accepted"))),
    }
}
