//! Taking items and methods from a file of Rust that rustfmt has laid out, unchanged. For build scripts.

/// An item of a file: from its attributes and comments to the brace in the first column, or to its semicolon.
/// `nth` counts the items that start so.
pub fn item(text: &str, start: &str, nth: usize) -> String {
    let lines: Vec<&str> = text.lines().collect();
    let at = (0..lines.len()).filter(|i| lines[*i].starts_with(start)).nth(nth).unwrap_or_else(|| panic!("no {start}"));
    let mut first = at;
    while first > 0 && (lines[first - 1].starts_with("#[") || lines[first - 1].starts_with("///")) {
        first -= 1;
    }
    let last = if lines[at].ends_with(';') {
        at
    } else {
        (at..lines.len()).find(|i| lines[*i] == "}").unwrap_or_else(|| panic!("no end of {start}"))
    };
    lines[first..=last].join("\n") + "\n\n"
}

/// A method: from its `fn` to the brace of its own column.
pub fn method(text: &str, name: &str) -> String {
    let lines: Vec<&str> = text.lines().collect();
    let starts = |line: &str| {
        ["    fn ", "    pub fn ", "    pub(super) fn "].iter().any(|before| {
            line.strip_prefix(before).and_then(|l| l.strip_prefix(name)).is_some_and(|l| l.starts_with(['(', '<']))
        })
    };
    let at = lines.iter().position(|line| starts(line)).unwrap_or_else(|| panic!("no fn {name}"));
    let last = (at..lines.len()).find(|i| lines[*i] == "    }").unwrap_or_else(|| panic!("no end of fn {name}"));
    lines[at..=last].join("\n") + "\n\n"
}

pub fn join(parts: impl IntoIterator<Item = String>) -> String {
    parts.into_iter().collect()
}
