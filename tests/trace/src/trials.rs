//! Damaged pages and edits, each of which must be noticed: a test that could not fail would say nothing.
use crate::names::CASES;

/// A way to damage a text, and what it stands for.
pub struct Trial {
    pub what: &'static str,
    pub damage: fn(&str) -> String,
}

/// Of a page.
pub const TRIALS: [Trial; 10] = [
    Trial { what: "a path that is not there", damage: |page| added(page, "`base/specs/Stale.antt`") },
    Trial { what: "a name that its file does not have", damage: |page| added(page, &format!("`{CASES}` `stale`")) },
    Trial { what: "a name that no file of its row has", damage: |page| added(page, "`stale-case`") },
    Trial { what: "a proof of no function", damage: |page| added(page, "proof of `stale`") },
    Trial { what: "a label of no edit", damage: |page| added(page, "`base/stale`") },
    Trial { what: "a decision that was not taken", damage: |page| added(page, "as D9999 says") },
    Trial { what: "a row that there is not", damage: |page| added(page, "as P9999") },
    Trial { what: "a link that leads nowhere", damage: |page| added(page, "[here](stale.md)") },
    Trial { what: "a row that stands twice", damage: |page| format!("{page}\n### {}", last_row(page)) },
    Trial { what: "a row that is gone", damage: without_last },
];

/// Of a page of prose.
pub const PROSE_TRIALS: [Trial; 6] = [
    Trial { what: "a path of prose that is not there", damage: |page| added(page, "`base/specs/Stale.antt`") },
    Trial { what: "a name of prose that no file has", damage: |page| added(page, &format!("`{}`", ["stale", "prose"].join("_"))) },
    Trial { what: "a name that the file after it does not have", damage: |page| added(page, &format!("`accepted`, `has_bit` in `{CASES}`")) },
    Trial { what: "a name that the file in brackets does not have", damage: |page| added(page, &format!("`has_bit` (`{CASES}`)")) },
    Trial { what: "a decision of prose that was not taken", damage: |page| added(page, "as D9999 says") },
    Trial { what: "a link of prose that leads nowhere", damage: |page| added(page, "[here](stale.md)") },
];

/// Of the glossary.
pub const WORD_TRIALS: [Trial; 2] = [
    Trial { what: "a word that stands for what is not there", damage: |page| format!("{page}| stale | is gone | `{CASES}` `stale` |\n") },
    Trial { what: "a word that stands twice", damage: |page| format!("{page}{}\n", page.lines().last().unwrap_or("")) },
];

/// Of a must-fail edit.
pub const EDIT_TRIALS: [Trial; 4] = [
    Trial { what: "an edit that does not say why", damage: |edit| split(edit).1.to_string() },
    Trial { what: "an edit that says why with no words", damage: |edit| format!("why: \n{}", split(edit).1) },
    Trial { what: "an edit that says why with a label", damage: |edit| format!("why: wrong\n{}", split(edit).1) },
    Trial { what: "an edit that says why at its end", damage: |edit| format!("{}{}\n", split(edit).1, split(edit).0) },
];

/// The first line of an edit, and the rest.
fn split(edit: &str) -> (&str, &str) {
    edit.split_once('\n').unwrap_or((edit, ""))
}

/// The page with more in the last line of its last row.
fn added(page: &str, text: &str) -> String {
    format!("{}; {text}\n", page.trim_end())
}

/// The last row, from its number on.
fn last_row(page: &str) -> &str {
    page.rsplit("\n### ").next().unwrap_or(page)
}

fn without_last(page: &str) -> String {
    page.rsplit_once("\n### ").map_or(page, |(rest, _)| rest).to_string()
}
