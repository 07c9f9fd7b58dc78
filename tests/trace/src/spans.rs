//! Text with spans in backquotes.

/// A span, and the text between it and the span before it.
pub struct Span<'a> {
    pub before: &'a str,
    pub code: &'a str,
}

/// The spans of a text, in order.
pub fn spans(text: &str) -> Vec<Span<'_>> {
    let pieces: Vec<&str> = text.split('`').collect();
    pieces.chunks_exact(2).map(|pair| Span { before: pair[0], code: pair[1] }).collect()
}

/// Whether every span that opens is closed.
pub fn is_closed(text: &str) -> bool {
    text.split('`').count() % 2 == 1
}

/// The text outside the spans.
pub fn plain(text: &str) -> String {
    text.split('`').step_by(2).collect::<Vec<_>>().join(" ")
}

/// The text cut at its semicolons, but for those in spans and in brackets.
pub fn segments(text: &str) -> Vec<&str> {
    let (mut depth, mut in_span, mut from) = (0, false, 0);
    let mut cut = Vec::new();
    for (at, c) in text.char_indices() {
        match c {
            '`' => in_span = !in_span,
            '(' if !in_span => depth += 1,
            ')' if !in_span => depth -= 1,
            ';' if !in_span && depth == 0 => {
                cut.push(&text[from..at]);
                from = at + 1;
            }
            _ => (),
        }
    }
    cut.push(&text[from..]);
    cut
}
