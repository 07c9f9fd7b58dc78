//! `text` and `image`: texts of images, and images of texts.
use crate::args::{Args, Usage};
use crate::ending::{unasked, End, Fault, Run};
use crate::input::{self, What};
use crate::names::Names;
use crate::refusals::meaning;
use crate::{library, output, text};

pub const TEXT: Usage = Usage {
    name: "text",
    words: "IMAGE [TEXT [--overwrite]] [--names FILE]",
    flags: &["--overwrite"],
    values: &["--names"],
    help: "The text of an accepted image, of a policy or of a goal: printed, or written to TEXT.

  --overwrite   TEXT may be there already
  --names FILE  names to write it with (names.txt beside the image, where it is there)

Exit status: 0, 2 the image is refused, 3 it could not be read or written.",
};

pub const IMAGE: Usage = Usage {
    name: "image",
    words: "TEXT IMAGE [--overwrite] [--names FILE]",
    flags: &["--overwrite"],
    values: &["--names"],
    help: "The image that a text says; docs/TOOLS.md has the format. An error names the line. Values are held to the bytes that they must
fit into and not to the questions of the specification: where the checker will refuse the image, that is said, and it is written.

  --overwrite   IMAGE may be there already
  --names FILE  names that the text uses (names.txt beside the text, where it is there)

Exit status: 0, 3 the text says no image, or a file could not be read or written.",
};

pub fn to_text(mut args: Args) -> Run<End> {
    let file = args.file("IMAGE")?;
    let to = if args.is_empty() { None } else { Some(args.file("TEXT")?) };
    args.end()?;
    let names = Names::choose(args.value("--names"), &file)?;
    let image = input::any_image(&file, &names)?;
    let text = text_of(&file, &image, &names)?;
    match to {
        Some(to) => output::write(&to, text.as_bytes(), args.flag("--overwrite"))?,
        None => output::print(&text)?,
    }
    Ok(End::Yes)
}

/// The text of an image that is a policy or a goal: none is both, since a goal has a 0 where a policy has its classes.
fn text_of(file: &str, image: &[u8], names: &Names) -> Run<String> {
    let Some(of_policy) = library::policy_refusal(image)? else {
        return Ok(text::policy_text(&library::policy(image)?, names));
    };
    // a goal by itself is read against the widest counts: it does not name its policy's
    let widest = library::widest();
    let Some(of_goal) = library::goal_refusal(&widest.encode(), image)? else {
        return Ok(text::goal_text(&library::goal(image, &widest)?, names));
    };
    let [policy, goal] = [of_policy, of_goal].map(|k| meaning("flowgoal_check", k));
    let why = format!("{file} is refused as a policy ({of_policy}: {policy}) and as a goal ({of_goal}: {goal})");
    Err(Fault { end: End::Refused, why })
}

pub fn to_image(mut args: Args) -> Run<End> {
    let (from, to) = (args.file("TEXT")?, args.file("IMAGE")?);
    args.end()?;
    let names = Names::choose(args.value("--names"), &from)?;
    let bytes = input::read(&from)?;
    if !input::is_text(&bytes) && std::str::from_utf8(&bytes).is_ok() {
        return Err(unasked(format!("{from} is no text")));
    }
    let (image, what) = text::assemble(&from, &input::utf8(&from, bytes)?, &names)?;
    output::write(&to, &image, args.flag("--overwrite"))?;
    // damaged images can be wanted, so this is no error
    let refused = match what {
        What::Policy => library::policy_refusal(&image)?,
        What::Goal => library::goal_refusal(&library::widest().encode(), &image)?,
    };
    if let Some(k) = refused {
        output::note(&format!("{to} was written; the checker will refuse it with {k}: {}", meaning("flowgoal_check", k)));
    }
    Ok(End::Yes)
}
