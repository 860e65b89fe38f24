//! The answers of a call: one list, docs/RULES.md's, and every other list held to it.

use crate::markdown::tables;
use std::fmt;

/// An answer as it is listed.
#[derive(Clone, Debug, PartialEq, Eq)]
pub struct Listed {
    pub number: u32,
    pub given: String,
    pub left: String,
}

impl fmt::Display for Listed {
    fn fmt(&self, f: &mut fmt::Formatter<'_>) -> fmt::Result {
        let Listed { number, given, left } = self;
        write!(f, "{number}: {given}: {left}")
    }
}

fn listed([number, given, left]: [&str; 3]) -> Option<Listed> {
    Some(Listed { number: number.parse().ok()?, given: given.into(), left: left.into() })
}

/// The list in a document or in the comments of Rust: tables with these three columns.
pub fn of_tables(text: &str) -> Vec<Listed> {
    let tables = tables(text);
    let rows = tables.iter().filter_map(|table| table.columns(["Number", "Given when", "Left behind"])).flatten();
    rows.filter_map(listed).collect()
}

/// The list in a comment of C: lines of a number and two parts, with two or more spaces between them.
pub fn of_c(text: &str) -> Vec<Listed> {
    let lines = text.lines().filter_map(|line| line.trim_start().strip_prefix("* "));
    lines.filter_map(|line| listed(parts(line)?)).collect()
}

fn parts(line: &str) -> Option<[&str; 3]> {
    let parts: Vec<&str> = line.split("  ").map(str::trim).filter(|part| !part.is_empty()).collect();
    parts.try_into().ok()
}

/// The variants of an enum in Rattle that have numbers, as `number NAME`.
pub fn variants(rattle: &str) -> Vec<String> {
    let lines = rattle.lines().filter_map(|line| line.trim().strip_suffix(','));
    let parted = lines.filter_map(|line| line.split_once(" = "));
    let named = parted.filter(|(name, number)| is_name(name) && number.parse::<u32>().is_ok());
    named.map(|(name, number)| format!("{number} {}", in_capitals(name))).collect()
}

fn is_name(word: &str) -> bool {
    word.starts_with(|c: char| c.is_uppercase()) && word.chars().all(char::is_alphanumeric)
}

/// The same of the table with these two columns; done has no name.
pub fn names(markdown: &str) -> Vec<String> {
    let tables = tables(markdown);
    let rows = tables.iter().filter_map(|table| table.columns(["Number", "Name"])).flatten();
    rows.filter(|[_, name]| !name.is_empty())
        .map(|[number, name]| format!("{number} {}", name.trim_matches('`')))
        .collect()
}

/// The same of a header's constants, whose lines are as `#define RAZVOLK_TOO_LARGE 1u`.
pub fn defines(header: &str) -> Vec<String> {
    let lines = header.lines().filter_map(|line| line.strip_prefix("#define RAZVOLK_"));
    let pairs = lines.filter_map(|line| line.split_once(char::is_whitespace));
    let numbers = pairs.filter_map(|(name, number)| Some((name, number.trim().strip_suffix('u')?)));
    numbers.filter(|(name, _)| *name != "DONE").map(|(name, number)| format!("{number} {name}")).collect()
}

/// The same of the list of refusals in Rust, whose lines are as `1 TooLarge "text";` and `8 Overrun { row } "text";`.
pub fn refusals(rust: &str) -> Vec<String> {
    let lines = rust.lines().map(|line| line.split_whitespace());
    let pairs = lines.filter_map(|mut words| Some((words.next()?.parse::<u32>().ok()?, words.next()?)));
    let named = pairs.filter(|(_, name)| name.starts_with(|c: char| c.is_uppercase()));
    named.map(|(number, name)| format!("{number} {}", in_capitals(name))).collect()
}

/// `TooLarge` as `TOO_LARGE`.
fn in_capitals(name: &str) -> String {
    let parted = name.chars().map(|c| if c.is_uppercase() { format!("_{c}") } else { c.to_uppercase().to_string() });
    parted.collect::<String>().trim_start_matches('_').into()
}

#[cfg(test)]
mod tests {
    use super::*;
    use crate::differences;

    const RULES: &str = "\
| Number | Name | Given when | Left behind | Definition |
|---|---|---|---|---|
| 0 | | done | the frame | `Answer.done` |
| 1 | `TOO_LARGE` | width above 9 | all as it was | `Answer.too-large` |
| 2 | `SHORT` | V2: too short | all as it was | `Answer.short` |
";

    fn one(number: u32, given: &str, left: &str) -> Listed {
        Listed { number, given: given.into(), left: left.into() }
    }

    #[test]
    fn the_list_is_read_in_each_form() {
        let list = [
            one(0, "done", "the frame"),
            one(1, "width above 9", "all as it was"),
            one(2, "V2: too short", "all as it was"),
        ];
        assert_eq!(of_tables(RULES), list);
        let rust =
            "/// | Number | Given when | Left behind |\n/// |---|---|---|\n/// | 1 | width above 9 | all as it was |\n";
        assert_eq!(of_tables(rust), list[1..2]);
        let c = "/* Answers.\n *\n *   number   left\n *   0  done            the frame\n *   1  width above 9   all as it was\n\
            *   2  V2: too short   all as it was\n *\n * 1 to 2 are tested in this order. */";
        assert_eq!(of_c(c), list);
    }

    #[test]
    fn what_differs_is_named() {
        let rules = of_tables(RULES);
        let c = of_c(" *  0  done  the frame\n *  1  width above 8  all as it was\n *  3  new  nothing\n");
        let found = differences(&rules, "header", &c);
        assert_eq!(
            found,
            [
                "header has no \"1: width above 9: all as it was\"",
                "header has no \"2: V2: too short: all as it was\"",
                "header has \"1: width above 8: all as it was\"",
                "header has \"3: new: nothing\"",
            ]
        );
    }

    #[test]
    fn names_and_texts() {
        let rattle = "pub enum Refusal {\n    // Too large.\n    TooLarge = 1,\n}\n\npub const MOST: usize = 9;\n\nfn f() {\n    a = 1,\n}";
        assert_eq!(variants(rattle), ["1 TOO_LARGE"]);
        assert_eq!(names(RULES), ["1 TOO_LARGE", "2 SHORT"]);
        let rust =
            "refusals! {\n    /// | 3 | x |\n    1 TooLarge \"x\";\n    2 Short { row } \"{row} y\";\n}\n0 => None,";
        assert_eq!(refusals(rust), names(RULES));
        let header = "#define RAZVOLK_DONE      0u\n#define RAZVOLK_TOO_LARGE 1u\n#define RAZVOLK_SHORT     2u\n#define \
            RAZVOLK_MOST_SIDE 9u /* 1 */\n#define RAZVOLK_STEPS(a, b) ((a) * 2u)\n";
        assert_eq!(defines(header), names(RULES));
    }
}
