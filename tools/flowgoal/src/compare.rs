//! `compare`: two instruments on the same images, what is proved and the second search. Do their answers agree?
use crate::args::{Args, Usage};
use crate::ending::{unasked, End, Run};
use crate::input::{image, What};
use crate::names::Names;
use crate::{library, output};
use flowgoal_calls::Writing;
use second_search::answer::{goal_question_landed, validate_output_landed};
use second_search::policy::Context;
use second_search::steps::{least_steps, validate_steps};
use second_search::{canonical, join};
use std::path::Path;
use std::process::{Command, Stdio};

pub const USAGE: Usage = Usage {
    name: "compare",
    words: "DIR.. | steps POLICY FROM TO | join MAKER BOARD | canonical POLICY [--program PROGRAM] [--names FILE]",
    flags: &[],
    values: &["--program", "--names"],
    help: "Asks the proved library and the second search, a reference by other hands, and says whether they agree.

  compare DIR..                 the goal question of each folder's policy.img and goal.img, or of their texts
  compare steps POLICY FROM TO  least steps from one context to another
  compare join MAKER BOARD      the maker's policy and the board's as one
  compare canonical POLICY      the canonical image of a policy

They agree where the answer and the number of steps are the same and the path that is shown is one, which need not be the second
search's own; of an image that is written, where the answers and all bytes are the same.

  --program PROGRAM  what a program prints, in place of the library's answer. It is run in DIR as the goal program is; or with the
                     words POLICY T R U T R U; or with the words MAKER BOARD RESULT or POLICY RESULT, and then writes RESULT too
  --names FILE       names that texts and contexts use (names.txt beside the policy, where it is there)

Exit status: 0 all agree, 1 some do not, 3 something could not be compared.",
};

/// Enough for every policy and goal: the nodes of the largest, and a path through them all.
const WORK: usize = (255 * 15 * 15) << 6;
const PATH: usize = 2 * WORK + 1;
/// Longer than any image that is written.
const IMAGE: usize = 1 << 16;

/// What is compared, and how many agree.
#[derive(Default)]
struct Tally {
    said: String,
    compared: usize,
    agreed: usize,
    /// Something could not be compared.
    failed: bool,
}

/// Whose answers are compared with the second search's: the library's, or those of a program.
struct Compared<'a> {
    program: Option<&'a str>,
    names: Option<&'a str>,
}

/// A record as it is shown: its answer, and its path on one line.
fn shown(lines: &str) -> String {
    let (first, path) = lines.split_once('\n').unwrap_or((lines, ""));
    match path.trim_end() {
        "" => first.to_string(),
        path => format!("{first}\n    {}", path.replace('\n', "; ")),
    }
}

impl Tally {
    /// Adds two records, and what the second search has against the first.
    fn add(&mut self, what: &str, who: &str, records: [&str; 2], against: Result<(), String>) {
        let [first, second] = records.map(shown);
        self.said += &format!("{what}\n  {:<15} {first}\n  {:<15} {second}\n", format!("{who}:"), "second search:");
        self.compared += 1;
        match against {
            Ok(()) => {
                self.agreed += 1;
                self.said += "  they agree\n";
            }
            Err(why) => self.said += &format!("  THEY DO NOT AGREE: of the {who}'s record, the second search says: {why}\n"),
        }
    }

    fn end(self) -> Run<End> {
        output::print(&format!("{}{} compared, {} agree\n", self.said, self.compared, self.agreed))?;
        Ok(match self {
            Tally { failed: true, .. } => End::Unasked,
            Tally { compared, agreed, .. } if compared == agreed => End::Yes,
            _ => End::No,
        })
    }
}

/// What a program prints that is run in a folder with some words.
fn printed(program: &str, folder: &str, words: &[String]) -> Run<String> {
    let cannot = |why: std::io::Error| unasked(format!("{program} cannot be run: {why}"));
    let whole = std::fs::canonicalize(program).map_err(cannot)?;
    let run = Command::new(whole).args(words).current_dir(folder).stdin(Stdio::null()).stderr(Stdio::inherit()).output();
    let run = run.map_err(cannot)?;
    match run.status.success() {
        true => Ok(String::from_utf8_lossy(&run.stdout).into_owned()),
        false => Err(unasked(format!("{program} ended with an error ({})", run.status))),
    }
}

/// The file of a folder that is an image, or else its text.
fn in_folder(folder: &str, what: What) -> Run<String> {
    let place = |end: &str| Path::new(folder).join(format!("{}.{end}", what.word()));
    let found = ["img", "txt"].iter().map(|end| place(end)).find(|file| file.is_file());
    found.map(|file| file.to_string_lossy().into_owned()).ok_or_else(|| unasked(format!("{folder} has no {}.img", what.word())))
}

impl Compared<'_> {
    fn who(&self) -> &'static str {
        if self.program.is_some() {
            "program"
        } else {
            "proved library"
        }
    }

    fn image(&self, file: &str, what: What) -> Run<Vec<u8>> {
        image(file, what, &Names::choose(self.names, file)?)
    }

    /// The goal question of a folder.
    fn folder(&self, tally: &mut Tally, folder: &str) -> Run<()> {
        let policy = self.image(&in_folder(folder, What::Policy)?, What::Policy)?;
        let goal = self.image(&in_folder(folder, What::Goal)?, What::Goal)?;
        let first = match self.program {
            Some(program) => printed(program, folder, &[])?,
            None => goal_lines(&policy, &goal)?,
        };
        let landed = library::landed();
        let second = goal_question_landed(landed, &policy, &goal, [WORK; 2], &mut vec![0; PATH]).print();
        let against = validate_output_landed(landed, &policy, &goal, WORK, PATH, &first);
        tally.add(folder, self.who(), [&first, &second], against);
        Ok(())
    }

    /// Least steps of a policy.
    fn steps(&self, tally: &mut Tally, file: &str, [x, y]: [Context; 2]) -> Run<()> {
        let policy = self.image(file, What::Policy)?;
        let numbers = [x.t, x.r, x.u, y.t, y.r, y.u].map(|number| number.to_string());
        let first = match self.program {
            Some(program) => printed(program, ".", &[&[file.to_string()][..], &numbers].concat())?,
            None => steps_lines(&policy, [x, y])?,
        };
        let landed = library::landed();
        let second = least_steps(landed, &policy, x, y, [WORK; 2], &mut vec![0; PATH]).print();
        let against = validate_steps(landed, &policy, x, y, WORK, PATH, &first);
        let what = format!("{file}, from {} to {}", numbers[..3].join(" "), numbers[3..].join(" "));
        tally.add(&what, self.who(), [&first, &second], against);
        Ok(())
    }

    /// The image that is written of two policies, or of one.
    fn written(&self, tally: &mut Tally, files: &[String]) -> Run<()> {
        let images = files.iter().map(|file| self.image(file, What::Policy)).collect::<Run<Vec<_>>>()?;
        let (first, ours) = match (self.program, &images[..]) {
            (Some(program), _) => written_by(program, files)?,
            (None, [maker, board]) => answered(library::join(maker, board)?),
            (None, images) => answered(library::canonical(&images[0])?),
        };
        let (landed, mut output) = (library::landed(), vec![0; IMAGE]);
        let second = match &images[..] {
            [maker, board] => join::join(landed, maker, board, &mut output),
            images => canonical::canonical(landed, &images[0], &mut output),
        };
        let second =
            second.map_or_else(|k| (format!("refused {k}\n"), vec![]), |n| (format!("written {n}\n"), output[..n].to_vec()));
        tally.add(&files.join(" and "), self.who(), [&first, &second.0], same_image((&first, &ours), (&second.0, &second.1)));
        Ok(())
    }
}

/// The library's answer to the goal question, in the goal program's lines.
fn goal_lines(policy: &[u8], goal: &[u8]) -> Run<String> {
    if let Some(k) = library::goal_refusal(policy, goal)? {
        return Ok(format!("refused {k}\n"));
    }
    let (outcome, path) = library::check(policy, goal)?;
    Ok(format!("{outcome}\n{}", path.map_or(String::new(), |path| path.lines())))
}

fn steps_lines(policy: &[u8], [x, y]: [Context; 2]) -> Run<String> {
    if let Some(k) = library::policy_refusal(policy)? {
        return Ok(format!("refused {k}\n"));
    }
    let (steps, path) = library::least_steps(policy, x, y)?;
    Ok(format!("{steps}\n{}", path.map_or(String::new(), |path| path.lines())))
}

fn answered((writing, image): (Writing, Vec<u8>)) -> (String, Vec<u8>) {
    (format!("{writing}\n"), image)
}

/// What a program prints that writes an image, and the image.
fn written_by(program: &str, files: &[String]) -> Run<(String, Vec<u8>)> {
    let result = std::env::temp_dir().join(format!("flowgoal-compare-{}.img", std::process::id()));
    let words = [files, &[result.to_string_lossy().into_owned()]].concat();
    let said = printed(program, ".", &words);
    let image = std::fs::read(&result).unwrap_or_default();
    let _ = std::fs::remove_file(&result);
    Ok((said?, image))
}

/// Is the answer the second search's, and the image, where one is written?
fn same_image((first, ours): (&str, &[u8]), (second, theirs): (&str, &[u8])) -> Result<(), String> {
    if first != second {
        return Err(format!("the answer is {:?}, not {:?}", first.trim_end(), second.trim_end()));
    }
    match (0..ours.len().max(theirs.len())).find(|&at| ours.get(at) != theirs.get(at)) {
        Some(at) if second.starts_with("written") => Err(format!("the image is another one from byte {at} on")),
        _ => Ok(()),
    }
}

pub fn run(mut args: Args) -> Run<End> {
    let [program, chosen] = ["--program", "--names"].map(|name| args.value(name).map(str::to_string));
    let compared = Compared { program: program.as_deref(), names: chosen.as_deref() };
    let mut tally = Tally::default();
    if args.takes("steps") {
        let file = args.file("POLICY")?;
        let names = Names::choose(compared.names, &file)?;
        args.split();
        let ends = [args.context("FROM", &names)?, args.context("TO", &names)?];
        args.end()?;
        compared.steps(&mut tally, &file, ends)?;
    } else if args.takes("join") {
        let files = [args.file("MAKER")?, args.file("BOARD")?];
        args.end()?;
        compared.written(&mut tally, &files)?;
    } else if args.takes("canonical") {
        let files = [args.file("POLICY")?];
        args.end()?;
        compared.written(&mut tally, &files)?;
    } else {
        loop {
            // a folder that cannot be compared does not keep the others from it
            if let Err(fault) = compared.folder(&mut tally, &args.file("DIR")?) {
                output::note(&fault.why);
                tally.failed = true;
            }
            if args.is_empty() {
                break;
            }
        }
    }
    tally.end()
}
