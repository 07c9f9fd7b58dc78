//! A page cut into what is checked together: the rows, and outside them each paragraph, list item and table line.

/// A line of a row (`- says: ..`), a table cell, or a paragraph; `key` is what stands before the colon of a row's line.
pub struct Part {
    pub key: String,
    pub text: String,
}

pub struct Unit {
    /// the number or label in the heading of a row; of anything else the line where it begins
    pub at: String,
    /// how many headings above the rows stand before it
    pub section: usize,
    pub is_row: bool,
    pub is_quoting: bool,
    pub parts: Vec<Part>,
}

pub struct Page {
    pub name: String,
    pub units: Vec<Unit>,
    sections: usize,
}

/// What a line of a page begins, by its first characters.
enum Line<'a> {
    Blank,
    Title,
    Row(&'a str),
    Quote,
    Item(&'a str),
    Cells(Vec<&'a str>),
    Text(&'a str),
}

fn kind(line: &str) -> Line<'_> {
    if let Some(number) = line.strip_prefix("### ") {
        Line::Row(number.trim())
    } else if line.starts_with('#') {
        Line::Title
    } else if line.starts_with('>') {
        Line::Quote
    } else if let Some(item) = line.strip_prefix("- ") {
        Line::Item(item)
    } else if line.starts_with('|') {
        Line::Cells(cells(line))
    } else if line.trim().is_empty() {
        Line::Blank
    } else {
        Line::Text(line)
    }
}

/// The cells of a table line; a bar that is part of one stands behind a backslash.
fn cells(line: &str) -> Vec<&str> {
    let bars = line.match_indices('|').map(|(at, _)| at).filter(|at| !line[..*at].ends_with('\\'));
    let bars: Vec<usize> = bars.chain([line.len()]).collect();
    bars.windows(2).map(|pair| line[pair[0] + 1..pair[1]].trim()).filter(|cell| !cell.is_empty()).collect()
}

impl Page {
    pub fn read(name: &str, text: &str) -> Page {
        let mut page = Page { name: name.to_string(), units: Vec::new(), sections: 0 };
        // whether the unit before is a row that is not ended, and whether its last part goes on in the next line
        let (mut in_row, mut goes_on) = (false, false);
        for (line, number) in text.lines().zip(1..) {
            let here = format!("line {number}");
            match kind(line) {
                Line::Blank => goes_on = false,
                Line::Title => {
                    page.sections += 1;
                    (in_row, goes_on) = (false, false);
                }
                Line::Row(at) => {
                    page.begin(at, true);
                    (in_row, goes_on) = (true, false);
                }
                // what is quoted is not ours to check
                Line::Quote => {
                    if let (true, Some(row)) = (in_row, page.units.last_mut()) {
                        row.is_quoting = true;
                    }
                    goes_on = false;
                }
                Line::Item(item) => {
                    if !in_row {
                        page.begin(&here, false);
                    }
                    let (key, text) = item.split_once(": ").filter(|_| in_row).unwrap_or(("", item));
                    page.add(key, text);
                    goes_on = true;
                }
                Line::Cells(cells) => {
                    page.begin(&here, false);
                    cells.iter().for_each(|cell| page.add("", cell));
                    (in_row, goes_on) = (false, false);
                }
                Line::Text(text) if goes_on => page.go_on(text.trim()),
                // an example is set in by four
                Line::Text(text) if text.starts_with("    ") => (),
                Line::Text(text) => {
                    if !in_row {
                        page.begin(&here, false);
                    }
                    page.add("", text.trim());
                    goes_on = true;
                }
            }
        }
        page
    }

    fn begin(&mut self, at: &str, is_row: bool) {
        let section = self.sections;
        self.units.push(Unit { at: at.to_string(), section, is_row, is_quoting: false, parts: Vec::new() });
    }

    fn add(&mut self, key: &str, text: &str) {
        let part = Part { key: key.to_string(), text: text.to_string() };
        self.units.last_mut().expect("a unit has begun").parts.push(part);
    }

    fn go_on(&mut self, text: &str) {
        let part = self.units.last_mut().and_then(|unit| unit.parts.last_mut()).expect("a part has begun");
        part.text.push(' ');
        part.text.push_str(text);
    }

    /// Whose files a unit may name things of without naming the file: a row its own, anything else those of its section.
    pub fn near<'a>(&'a self, unit: &'a Unit) -> Vec<&'a Unit> {
        let is_near = |other: &&Unit| !other.is_row && other.section == unit.section;
        if unit.is_row {
            vec![unit]
        } else {
            self.units.iter().filter(is_near).collect()
        }
    }

    pub fn rows(&self) -> impl Iterator<Item = &Unit> {
        self.units.iter().filter(|unit| unit.is_row)
    }
}
