//! Lines of a page, none much longer than others, so that a change of the page is easy to see.

const WIDTH: usize = 120;

/// The words of a text; a span in backquotes is one word, with what is written up to it.
fn words(text: &str) -> Vec<String> {
    let (mut words, mut word, mut in_span) = (Vec::new(), String::new(), false);
    for c in text.chars() {
        in_span ^= c == '`';
        if c == ' ' && !in_span {
            words.push(std::mem::take(&mut word));
        } else {
            word.push(c);
        }
    }
    words.push(word);
    words.retain(|word| !word.is_empty());
    words
}

/// Whether a line that begins so would be taken for a list or a title.
fn is_mark(word: &str) -> bool {
    let number = word.trim_end_matches(['.', ')']);
    let is_item = number.len() < word.len() && !number.is_empty() && number.chars().all(|c| c.is_ascii_digit());
    is_item || ["-", "+", "*", "="].contains(&word) || word.starts_with(['#', '>', '|'])
}

/// The text in lines, the first after `first` and the others after `next`.
pub fn wrapped(text: &str, first: &str, next: &str) -> String {
    let mut lines: Vec<Vec<String>> = vec![Vec::new()];
    for word in words(text) {
        let prefix = if lines.len() == 1 { first } else { next };
        let line = lines.last_mut().expect("there is a line");
        let length = prefix.chars().count() + line.iter().map(|word| word.chars().count() + 1).sum::<usize>();
        if line.is_empty() || length + word.chars().count() <= WIDTH || is_mark(&word) {
            line.push(word);
        } else {
            lines.push(vec![word]);
        }
    }
    let prefixes = [first].into_iter().chain(std::iter::repeat(next));
    prefixes.zip(lines).map(|(prefix, line)| format!("{prefix}{}\n", line.join(" "))).collect()
}
