//! What each refusal says. The words are those of the lists in include/flowgoal.h, and stand nowhere else.

const HEADER: &str = include_str!("../../../include/flowgoal.h");

/// A line of a list in the header's comments: the number and the words behind it.
fn item(line: &str) -> Option<(u32, &str)> {
    let (number, words) = line.strip_prefix(" *   ")?.split_once("  ")?;
    Some((number.parse().ok()?, words.trim()))
}

/// The comment before a call.
fn comment(call: &str) -> &str {
    let before = HEADER.split(&format!("uint64_t {call}(")).next().expect("split gives a first part");
    before.rsplit("\n/*").next().expect("rsplit gives a last part")
}

/// The words of a number in a comment, which may go on for some lines, set in further than the number.
fn words(comment: &str, number: u32) -> Option<String> {
    let mut lines = comment.lines().skip_while(|line| item(line).is_none_or(|(listed, _)| listed != number));
    let (_, first) = item(lines.next()?)?;
    let more = lines.map_while(|line| line.strip_prefix(" *       ")).map(str::trim);
    Some([first].into_iter().chain(more).collect::<Vec<_>>().join(" "))
}

/// What a refusal by this call says. The numbers of a policy are listed with `flowgoal_authorized` alone.
pub fn meaning(call: &str, number: u32) -> String {
    let said = words(comment(call), number).or_else(|| words(comment("flowgoal_authorized"), number));
    said.expect("the header lists every refusal")
}
