//! The index: its table has a line for each page, with the rows of the page and how many they are.
use crate::pages::{Page, Unit};
use crate::rows::Number;
use std::collections::BTreeSet;
use std::path::Path;

pub const INDEX: &str = "docs/TRACE.md";

/// The files that links of a text lead to.
fn links(text: &str) -> Vec<&str> {
    let targets = text.split("](").skip(1).filter_map(|rest| rest.split_once(')')).map(|(target, _)| target);
    targets.filter(|target| !target.contains("://")).map(|target| target.split('#').next().unwrap_or(target)).collect()
}

/// Links of a page that lead nowhere.
pub fn dead(page: &Page, unit: &Unit, root: &Path) -> Vec<String> {
    let folder = root.join(&page.name).parent().map(Path::to_path_buf).unwrap_or_default();
    let targets = unit.parts.iter().flat_map(|part| links(&part.text));
    targets.filter(|target| !folder.join(target).exists()).map(|target| format!("the link to {target} leads nowhere")).collect()
}

/// `P1 to P47` as its two ends; several are parted by commas.
fn ranges(cell: &str) -> Vec<(Number, Number)> {
    let ends = |part: &str| {
        let (first, last) = part.split_once(" to ")?;
        Some((Number::parse(first.trim())?, Number::parse(last.trim())?))
    };
    cell.split(',').filter_map(ends).collect()
}

/// Whether a row can come right after another: by the next number, or by the next clause of the same one.
fn follows(before: &Number, after: &Number) -> bool {
    let is_first = matches!(after.clause, None | Some('a'));
    let is_clause = before.clause.zip(after.clause).is_some_and(|(one, next)| one as u32 + 1 == next as u32);
    (after.number == before.number + 1 && is_first) || (after.number == before.number && is_clause)
}

/// What a line of the index says of its page that is not so.
fn untrue(cells: &[&str], page: &Page) -> Vec<String> {
    let rows: BTreeSet<Number> = page.rows().filter_map(|row| Number::parse(&row.at)).collect();
    let ranges = ranges(cells.get(1).unwrap_or(&""));
    let count = cells.get(2).unwrap_or(&"").parse().unwrap_or(0);
    let mut wrong = Vec::new();
    if count != rows.len() {
        wrong.push(format!("{}: it has {} rows, and the index says {count}", page.name, rows.len()));
    }
    for end in ranges.iter().flat_map(|(first, last)| [first, last]).filter(|end| !rows.contains(end)) {
        wrong.push(format!("{}: it has no row {}, with which the index has its rows begin or end", page.name, end.written()));
    }
    for (before, after) in rows.iter().zip(rows.iter().skip(1)).filter(|(before, after)| before.letters == after.letters) {
        if !follows(before, after) {
            wrong.push(format!("{}: a row between {} and {} is gone", page.name, before.written(), after.written()));
        }
    }
    for row in rows.iter().filter(|row| !ranges.iter().any(|(first, last)| (first..=last).contains(row))) {
        wrong.push(format!("{}: row {} is in no range of the index", page.name, row.written()));
    }
    wrong
}

/// Pages that the index does not have, and what it says of the others that is not so.
pub fn stale(pages: &[Page]) -> Vec<String> {
    let Some(index) = pages.iter().find(|page| page.name == INDEX) else {
        return vec![format!("{INDEX} is not there")];
    };
    let mut wrong = Vec::new();
    for page in pages.iter().filter(|page| page.name != INDEX) {
        let link = page.name.strip_prefix("docs/").unwrap_or(&page.name);
        let line = index.units.iter().find(|unit| unit.parts.first().is_some_and(|cell| links(&cell.text) == [link]));
        match line {
            Some(unit) => {
                let cells: Vec<&str> = unit.parts.iter().map(|part| part.text.as_str()).collect();
                wrong.extend(untrue(&cells, page));
            }
            None => wrong.push(format!("{INDEX}: no line of its table leads to {}", page.name)),
        }
    }
    wrong
}
