//! The rules in words: docs/RULES.md names every definition of the crates that define them, and no other.

use crate::markdown::names;

/// The public definitions of an antt file: functions, records and data types. Not counted are `mod`, `use` and rule sets, and
/// what belongs to a record or a data type, its fields and constructors.
pub fn definitions(antt: &str) -> Vec<String> {
    let mut names = Vec::new();
    // The indentation of the record or data type whose body is being read: what stands deeper belongs to it.
    let mut body: Option<usize> = None;
    for line in without_comments(antt).lines().filter(|line| !line.trim().is_empty()) {
        let indent = line.len() - line.trim_start().len();
        if body.is_some_and(|of| indent > of) {
            continue;
        }
        body = None;
        let mut words = line.split_whitespace().peekable();
        while words.next_if(|word| ["unfoldable", "abbrev"].contains(word)).is_some() {}
        let public = words.next_if_eq(&"pub").is_some();
        if words.next_if(|word| ["record", "data"].contains(word)).is_some() {
            body = Some(indent);
        }
        match words.next() {
            Some("mod" | "use" | "ruleset") | None => {}
            Some(name) if public => names.push(name.to_string()),
            Some(_) => {}
        }
    }
    names
}

/// The text without `-- ..` and `{- .. -}`, line for line.
fn without_comments(antt: &str) -> String {
    let mut kept = String::new();
    let mut depth = 0;
    for line in antt.lines() {
        let mut rest = line;
        while let Some(c) = rest.chars().next() {
            if rest.starts_with("{-") {
                depth += 1;
                rest = &rest[2..];
            } else if depth > 0 && rest.starts_with("-}") {
                depth -= 1;
                rest = &rest[2..];
            } else if depth == 0 && rest.starts_with("--") {
                break;
            } else {
                if depth == 0 {
                    kept.push(c);
                }
                rest = &rest[c.len_utf8()..];
            }
        }
        kept.push('\n');
    }
    kept
}

/// The definitions that a document cites, each once: in backticks, `File.name`, where File begins with a capital; several of one
/// file as `File.{name,other}`. A file's own name, as README.md, is no citation, and neither is what stands in a block of code.
pub fn citations(markdown: &str) -> Vec<String> {
    let mut cited: Vec<String> = Vec::new();
    let mut code = false;
    for line in markdown.lines() {
        if line.trim_start().starts_with("```") {
            code = !code;
        } else if !code {
            cited.extend(names(line).into_iter().flat_map(each).filter(|text| is_citation(text)));
        }
    }
    cited.sort();
    cited.dedup();
    cited
}

/// `File.{name,other}` as `File.name` and `File.other`; any other text as it is.
fn each(text: &str) -> Vec<String> {
    let parted = text.split_once(".{").and_then(|(file, rest)| Some((file, rest.strip_suffix('}')?)));
    match parted {
        Some((file, names)) => names.split(',').map(|name| format!("{file}.{name}")).collect(),
        None => vec![text.to_string()],
    }
}

fn is_citation(text: &str) -> bool {
    let Some((file, name)) = text.split_once('.') else { return false };
    file.starts_with(|c: char| c.is_ascii_uppercase())
        && file.chars().all(|c| c.is_ascii_alphanumeric())
        && !name.is_empty()
        && !name.contains(|c: char| c.is_whitespace() || c == '.')
        && !["md", "rs", "rt", "antt", "txt", "toml", "h", "c"].contains(&name)
}

#[cfg(test)]
mod tests {
    use super::*;

    const SPEC: &str = "\
-- A comment that says pub nothing : Type 0
use Rattle.std.specs.Prelude.{ℕ, ◌+◌}
pub mod Below
unfoldable pub use Other.{thing}
{- pub hidden : ℕ
   pub also_hidden : ℕ -}
abbrev pub word_at : List ℕ → ℕ → ℕ
word_at s p = get_or s p 0

unfoldable abbrev pub both : ℕ
pub record Fields (A : Type 0) : Type 0 where
  pub values : List A
  -- A comment between the fields.

  pub bits : Bits

pub data Base : Type 0 where
  given : ℕ → Base
private : ℕ
private = 0
record Closed : Type 0 where
  pub open_field : ℕ
module _ {A : Type 0} (k : Kind A) where
  unfoldable pub put : ℕ → A
  put n = k.put n
  pub record Joined : Type 0 where
    pub half : ℕ
  module _ (J : Joined) where
    pub play_each (n : ℕ) : ℕ
pub ◌⊕◌ : ℕ → ℕ → ℕ
pub limit' : ℕ
";

    #[test]
    fn definitions_are_found_and_fields_are_not() {
        let expected = ["word_at", "both", "Fields", "Base", "put", "Joined", "play_each", "◌⊕◌", "limit'"];
        assert_eq!(definitions(SPEC), expected);
    }

    #[test]
    fn citations_are_file_and_name() {
        let text = "A rule (`Reader.read`, `V2.header_of`, again `Reader.read`) of `README.md`, `count`, `Reader. x` and `Bits::new`.\n\
            ```\n`Code.block`\n```\nThen `Reader.◌⊕◌`; `samsung.rs`, `a.B`, `a.{B,c}`, `Map.{}` and `Reader.a.b` are none. `V0.{put,rows_up}`, `V0.put`.";
        assert_eq!(citations(text), ["Reader.read", "Reader.◌⊕◌", "V0.put", "V0.rows_up", "V2.header_of"]);
    }
}
