//! Numbers, lists and names in words.

use splitter::{Link, LinkKind, StoreRef};
use std::{ffi::OsStr, path::Path};

/// The columns that output keeps to.
pub const COLUMNS: usize = 80;

/// The name of a file, with what could change a terminal written out.
pub fn shown(path: &Path) -> String {
    match path == Path::new("-") {
        true => "standard input".into(),
        false => shown_word(path.as_os_str()),
    }
}

/// A word, with what could change a terminal written out.
pub fn shown_word(word: &OsStr) -> String {
    let turns = |letter: char| matches!(letter, '\u{200e}'..='\u{200f}' | '\u{202a}'..='\u{202e}' | '\u{2066}'..='\u{2069}');
    let mut shown = String::new();
    for letter in word.to_string_lossy().chars() {
        match letter.is_control() || turns(letter) {
            true => shown.extend(letter.escape_default()),
            false => shown.push(letter),
        }
    }
    shown
}

/// A number with commas between its thousands.
pub fn grouped(number: usize) -> String {
    let digits = number.to_string();
    let mut grouped = String::new();
    for (place, digit) in digits.chars().enumerate() {
        if place > 0 && (digits.len() - place).is_multiple_of(3) {
            grouped.push(',');
        }
        grouped.push(digit);
    }
    grouped
}

/// The plural of something that has a regular one.
pub fn plural(what: &str) -> String {
    let ending = if what.ends_with('s') { "es" } else { "s" };
    format!("{what}{ending}")
}

/// How many there are of something that has a regular plural.
pub fn counted(number: usize, what: &str) -> String {
    match number {
        1 => format!("1 {what}"),
        _ => format!("{} {}", grouped(number), plural(what)),
    }
}

/// What a store has in use.
pub fn in_use(view: StoreRef) -> String {
    let [data, objects, links] = view.counts().map(|count| count as usize);
    amounts([objects, links, order_only(view), data])
}

/// Objects, links, how many of these are order-only, and data bytes.
pub fn amounts([objects, links, order_only, data]: [usize; 4]) -> String {
    let order_only = match order_only {
        0 => String::new(),
        count => format!(" ({} order-only)", grouped(count)),
    };
    format!(
        "{}, {}{order_only}, {}",
        counted(objects, "object"),
        counted(links, "link"),
        counted(data, "data byte"),
    )
}

/// How many links of a store are order-only.
pub fn order_only(view: StoreRef) -> usize {
    let order_only = |link: &Link| link.kind == LinkKind::OrderOnly;
    view.links().filter(order_only).count()
}

/// A line of a table of two glyphs.
pub fn two_columns(name: &str, [first, second]: &[String; 2]) -> String {
    format!("  {name:<20}{first:>14}{second:>14}")
}

/// A number, or a dash where there is none.
pub fn or_dash(number: Option<usize>) -> String {
    number.map_or("-".into(), grouped)
}

/// Numbers with commas between them: where there are many, the first ones and the last.
pub fn listed(numbers: &[u16], all: bool) -> String {
    const MOST: usize = 20;
    let words = |numbers: &[u16]| {
        let words: Vec<String> = numbers.iter().map(|&n| grouped(n.into())).collect();
        words.join(", ")
    };
    match numbers.split_last() {
        Some((last, _)) if !all && numbers.len() > MOST => {
            let last = grouped(usize::from(*last));
            format!("{}, .. {last}", words(&numbers[..MOST - 1]))
        }
        _ => words(numbers),
    }
}

/// A sentence in lines, each behind so many spaces.
pub fn wrapped(sentence: &str, indent: usize) -> Vec<String> {
    let mut lines = Vec::new();
    let mut line = String::new();
    for word in sentence.split_whitespace() {
        let longer = line.chars().count() + 1 + word.chars().count();
        if !line.is_empty() && longer > COLUMNS {
            lines.push(std::mem::take(&mut line));
        }
        line.push_str(&match line.is_empty() {
            true => " ".repeat(indent),
            false => " ".into(),
        });
        line.push_str(word);
    }
    lines.push(line);
    lines
}

#[cfg(test)]
mod tests {
    use super::*;

    #[test]
    fn thousands() {
        let numbers = [0, 999, 1_000, 65_535, 1_234_567];
        let words = ["0", "999", "1,000", "65,535", "1,234,567"];
        assert_eq!(numbers.map(grouped), words);
    }

    #[test]
    fn names() {
        let shown = |name: &str| shown(Path::new(name));
        assert_eq!(shown("a/ß 文.krns"), "a/ß 文.krns");
        assert_eq!(shown("a\x1b[31m\n\u{202e}b"), "a\\u{1b}[31m\\n\\u{202e}b");
        assert_eq!(shown("-"), "standard input");
        assert_eq!(shown("./-"), "./-");
    }

    #[test]
    fn plurals() {
        assert_eq!(counted(1, "mark class"), "1 mark class");
        assert_eq!(counted(0, "mark class"), "0 mark classes");
        assert_eq!(counted(1_000, "base"), "1,000 bases");
    }

    #[test]
    fn long_lists_are_shortened() {
        let numbers: Vec<u16> = (990..1_011).collect();
        let all = listed(&numbers, true);
        assert!(all.contains("999, 1,000") && all.ends_with("1,010"));
        assert!(listed(&numbers, false).ends_with("1,007, 1,008, .. 1,010"));
        assert_eq!(listed(&numbers[..20], false), listed(&numbers[..20], true));
        assert_eq!(listed(&[], false), "");
    }

    #[test]
    fn lines_keep_to_the_columns() {
        let sentence = "word ".repeat(50);
        let lines = wrapped(&sentence, 4);
        assert!(lines
            .iter()
            .all(|line| line.len() <= COLUMNS && line.starts_with("    w")));
        assert_eq!(lines.join(" ").split_whitespace().count(), 50);
    }
}
