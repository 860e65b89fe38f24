//! Contracts of Rattle's functions: which public ones ask something of their caller, how their clauses are written, and whose
//! functions a crate calls.

/// The public functions of a source whose contract has a `requires`.
pub fn public_with_requires(rattle: &str) -> Vec<String> {
    let mut found: Vec<String> = Vec::new();
    let mut function = None;
    for line in code(rattle) {
        if let Some((before, after)) = line.split_once("fn ") {
            let name = after.split(|c: char| !c.is_alphanumeric() && c != '_').next().unwrap_or_default();
            function = before.trim_start().starts_with("pub ").then(|| name.to_string());
        } else if line.trim_start().starts_with("requires") {
            found.extend(function.take());
        }
    }
    found
}

/// The crates whose functions a source calls, by their paths or by `use`; types begin with a capital and are no calls.
pub fn called(rattle: &str) -> Vec<String> {
    let mut found: Vec<String> = Vec::new();
    for line in code(rattle).filter(|line| !line.trim_start().starts_with("ghost ")) {
        let mut rest = line;
        while let Some((before, after)) = rest.split_once("::") {
            let name = before.rsplit(|c: char| !c.is_alphanumeric() && c != '_').next().unwrap_or_default();
            let is_crate = name.starts_with(|c: char| c.is_ascii_lowercase());
            let calls = after.trim_start_matches('{').starts_with(|c: char| c.is_ascii_lowercase());
            if is_crate && calls && !["crate", "self", "super"].contains(&name) {
                found.push(name.into());
            }
            rest = after;
        }
    }
    found.sort();
    found.dedup();
    found
}

/// The crates whose definitions a source's contracts cite.
pub fn cited(rattle: &str) -> Vec<String> {
    let paths = rattle.split("Rattle.").skip(1);
    let mut found: Vec<String> = paths.filter_map(|path| Some(path.split_once(".specs.")?.0.to_string())).collect();
    // Plain words, as those for numbers and lists, are the library's.
    found.retain(|name| name != "std" && name.chars().all(|c| c.is_ascii_alphanumeric() || c == '_'));
    found.sort();
    found.dedup();
    found
}

/// How many characters the longest line of the contracts has; 0 if there is no contract.
pub fn longest_line(rattle: &str) -> usize {
    let lines = clauses(rattle).into_iter().flatten();
    lines.map(|line| line.chars().count()).max().unwrap_or_default()
}

/// How many facts the `requires` has that joins most of them by `×`; 0 if there is none.
pub fn most_facts(rattle: &str) -> usize {
    let asked = clauses(rattle).into_iter().filter(|clause| clause[0].trim_start().starts_with("requires"));
    asked.map(|clause| clause.concat().matches('×').count() + 1).max().unwrap_or_default()
}

/// The clauses, each as its lines: from `requires` or `ensures` to the line that closes it.
fn clauses(rattle: &str) -> Vec<Vec<&str>> {
    let mut found: Vec<Vec<&str>> = Vec::new();
    let mut open = false;
    for line in code(rattle) {
        let start = line.trim_start();
        if start.starts_with("requires ") || start.starts_with("ensures ") {
            found.push(vec![line]);
            open = true;
        } else if open && let Some(clause) = found.last_mut() {
            clause.push(line);
        }
        open = open && !line.ends_with('}');
    }
    found
}

/// The lines without those that are comments.
fn code(rattle: &str) -> impl Iterator<Item = &str> {
    rattle.lines().filter(|line| !line.trim_start().starts_with("//"))
}

#[cfg(test)]
mod tests {
    use super::*;

    const SOURCE: &str = "\
// requires nothing, calls comments::here()
ghost use Rattle.std.specs.Prelude.{◌≡◌, ◌<◌};
ghost use Rattle.rules.specs.Answer.{done};
ghost use Rattle.frames.specs.Moved as Moved;
ghost use Rattle.rules.specs.declared.answer.Size.{Size};
ghost use Rattle.laws.proofs.Moves.{moved};
use rules::Answer;
use transcode::v0_to_v2;
use bits::{get, Got};
pub fn open(a: u32) -> u32
    ensures { result ≡ a }
{
    let x = Answer::done(crate::lib::inner(a));
    samsung::decode(x)
}
pub fn asks(
    a: u32,
) -> u32
    requires small { a < 4 }
    requires some { 0 < a }
{
}
fn private(a: u32)
    requires { a < 4 }
{
}
pub(crate) fn inner(a: u32)
    requires { a < 4 }
{
}
";

    #[test]
    fn what_is_asked_called_and_cited() {
        assert_eq!(public_with_requires(SOURCE), ["asks"]);
        assert_eq!(called(SOURCE), ["bits", "lib", "samsung", "transcode"]);
        assert_eq!(cited(SOURCE), ["frames", "rules"]);
    }

    #[test]
    fn clauses_may_go_over_lines() {
        let three = "    requires bounds { a < 4 × (b < 4)\n        × (c < 4) }\n    ensures { result ≡ ×××× }\n{\n    a × b × c × d;\n}\n";
        assert_eq!((longest_line(three), most_facts(three)), (37, 3));
        assert_eq!((longest_line(SOURCE), most_facts(SOURCE)), (28, 1));
        assert_eq!((longest_line("fn f() {}"), most_facts("fn f() {}")), (0, 0));
    }
}
