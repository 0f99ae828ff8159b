//! Text in a page or a picture.

/// Text that can be nothing but text: `<`, `>`, `&` and quotes are written as entities, and what would not be seen, or would turn the line
/// round, as a mark.
pub fn escaped(text: &str) -> String {
    let mut out = String::with_capacity(text.len());
    for c in text.chars() {
        match c {
            '<' => out.push_str("&lt;"),
            '>' => out.push_str("&gt;"),
            '&' => out.push_str("&amp;"),
            '"' => out.push_str("&quot;"),
            '\'' => out.push_str("&#39;"),
            '\n' | '\t' => out.push(c),
            c if is_hidden(c) => out.push('\u{fffd}'),
            c => out.push(c),
        }
    }
    out
}

/// Text for a terminal: what would not be seen, or would turn the line round, is a mark.
pub fn visible(text: &str) -> String {
    text.chars().map(|c| if is_hidden(c) && !matches!(c, '\n' | '\t') { '\u{fffd}' } else { c }).collect()
}

/// The literals of the clause that a DRAT text begins with.
pub fn clause(bytes: &[u8]) -> Vec<i64> {
    let text = String::from_utf8_lossy(bytes);
    let lines = text.lines().filter(|line| !line.starts_with('c'));
    let tokens = lines.flat_map(str::split_ascii_whitespace).skip_while(|&token| token == "d");
    let literals = tokens.map_while(|token| token.parse::<i64>().ok());
    literals.take_while(|&literal| literal != 0).collect()
}

/// Control characters, those of no width, and those that turn the direction of writing.
fn is_hidden(c: char) -> bool {
    let hidden = ['\u{ad}', '\u{61c}', '\u{180e}', '\u{feff}'];
    let ranges = ['\u{200b}'..='\u{200f}', '\u{2028}'..='\u{202e}', '\u{2060}'..='\u{206f}', '\u{e0000}'..='\u{e007f}'];
    c.is_control() || hidden.contains(&c) || ranges.iter().any(|range| range.contains(&c))
}

#[cfg(test)]
mod tests {
    use super::*;

    #[test]
    fn clauses() {
        assert_eq!(clause(b"d 1 -2\nc three\n3 0 4 0"), [1, -2, 3]);
        assert_eq!(clause(b"0\n"), []);
    }

    #[test]
    fn text_stays_text() {
        assert_eq!(escaped("<script>&'\""), "&lt;script&gt;&amp;&#39;&quot;");
        assert_eq!(escaped("a\u{202e}b\u{0}c\u{200b}d\u{1b}"), "a\u{fffd}b\u{fffd}c\u{fffd}d\u{fffd}");
        assert_eq!(escaped("ü → 木\n\t"), "ü → 木\n\t");
        assert_eq!(visible("<a>\u{1b}[2J\n"), "<a>\u{fffd}[2J\n");
    }
}
