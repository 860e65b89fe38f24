//! What documents refer to: files, functions by their paths, names and commands, in backticks, and links. Each must exist.

use crate::{files, is_made};
use std::collections::HashSet;
use std::path::Path;
use std::{fs, io};

/// What a document can refer to: the repository's files, and the words of its sources.
pub struct Repository {
    /// Paths from the top, with the text where there is one.
    files: Vec<(String, String)>,
    words: HashSet<String>,
}

/// Endings of files that a name in backticks is taken for.
const ENDINGS: [&str; 14] =
    ["rs", "rt", "antt", "md", "c", "h", "txt", "toml", "py", "pc", "png", "bin", "edit", "lock"];

/// Words that stand for a name in a file's path.
const PLACES: [&str; 4] = ["NAME", "FUNCTION", "FILE", "WHAT"];

/// A part of a name: what words are made of.
fn is_name(c: char) -> bool {
    c.is_alphanumeric() || c == '_'
}

impl Repository {
    /// Reads the files below a folder, but for what is made there.
    pub fn read(top: &Path) -> io::Result<Repository> {
        let paths = files(top, &is_made)?;
        let inner = |path: &Path| path.strip_prefix(top).expect("a file below the top").to_string_lossy().into_owned();
        let files = paths.iter().map(|path| (inner(path), fs::read_to_string(path).unwrap_or_default()));
        Ok(Repository::new(files.collect()))
    }

    fn new(files: Vec<(String, String)>) -> Repository {
        // A table of names that went, in tools/, is no source.
        let sources = files.iter().filter(|(path, _)| !path.ends_with(".md") && !path.ends_with(".tsv"));
        let words = sources.flat_map(|(_, text)| text.split(|c| !is_name(c) && c != '-'));
        let words = words.map(|word| word.trim_matches('-').to_string()).collect();
        Repository { files, words }
    }

    fn text(&self, path: &str) -> &str {
        self.files.iter().find(|(found, _)| found == path).map_or("", |(_, text)| text)
    }

    /// Documents: their paths and texts.
    pub fn documents(&self) -> impl Iterator<Item = (&str, &str)> {
        let documents = self.files.iter().filter(|(path, _)| path.ends_with(".md"));
        documents.map(|(path, text)| (path.as_str(), text.as_str()))
    }

    /// What does not exist of what a document refers to: a line for each, with the number of its line.
    pub fn faults(&self, path: &str) -> Vec<String> {
        let text = self.text(path);
        let spans = spans(text).filter_map(|(line, span)| Some((line, self.fault(span)?)));
        let links = links(text).filter_map(|(line, link)| Some((line, self.link_fault(path, link)?)));
        let commands = commands(text).filter_map(|(line, command)| Some((line, self.command_fault(command)?)));
        let found = spans.chain(links).chain(commands);
        found.map(|(line, fault)| format!("{path}:{line}: {fault}")).collect()
    }

    /// Why what stands in backticks does not exist, if it is something that can be looked for.
    fn fault(&self, span: &str) -> Option<String> {
        if span.contains(' ') {
            self.command_fault(span)
        } else if span.contains("::") {
            (!self.has_path(span.split('(').next()?)).then(|| format!("there is no function or module `{span}`"))
        } else if is_file_name(span) {
            (!alternatives(span).iter().all(|name| self.has_file(name))).then(|| format!("there is no file `{span}`"))
        } else {
            let name = span.trim_end_matches("()");
            (is_compound(name) && !self.words.contains(name)).then(|| format!("no source has the name `{span}`"))
        }
    }

    /// Whether a file or a folder is there: by its whole path, or by a part of it. `*` is any part between two slashes. A crate and
    /// a name are a wrong edit of that crate.
    fn has_file(&self, name: &str) -> bool {
        let wanted: Vec<&str> = name.trim_end_matches('/').split('/').collect();
        self.files.iter().any(|(path, _)| {
            let parts: Vec<&str> = path.split('/').collect();
            parts.windows(wanted.len()).any(|window| window.iter().zip(&wanted).all(|(part, name)| matches(name, part)))
                || is_edit(&parts, &wanted)
        })
    }

    /// Whether `crate::module::name` or `Type::name` is there. `std` is not ours, and `crate` stands for that of samsung.rs.
    fn has_path(&self, path: &str) -> bool {
        let (first, rest) = path.split_once("::").unwrap_or((path, ""));
        if first.starts_with(char::is_uppercase) {
            // What a type has may come from a macro, so that its name is all that can be looked for.
            let of_type = |text: &str| declares(text, first) || text.contains(&format!("impl {first}"));
            return self.files.iter().any(|(_, text)| of_type(text) && holds_word(text, rest));
        }
        ["std", "crate"].contains(&first) || self.has_item(first, rest)
    }

    /// Whether a crate, of Rattle or of Rust, has a module or an item: modules are followed as far as they are files.
    fn has_item(&self, of: &str, path: &str) -> bool {
        let folders = [format!("crates/{of}/src/"), format!("rust/{of}/src/")];
        let is_inside = |path: &str| folders.iter().any(|folder| path.starts_with(folder));
        let is_inside = |path: &str| is_inside(path) || of == "razvolk" && path.starts_with("rust/src/");
        let mut among: Vec<&(String, String)> = self.files.iter().filter(|(path, _)| is_inside(path)).collect();
        for part in path.split("::") {
            let of_module = |path: &str| path.split(['/', '.']).any(|of| of == part);
            let inner: Vec<_> = among.iter().copied().filter(|(path, _)| of_module(path)).collect();
            if !inner.is_empty() {
                among = inner;
            } else if !among.iter().any(|(_, text)| declares(text, part)) {
                return false;
            }
        }
        !among.is_empty()
    }

    /// What a command names that does not exist: a target of make, a package, an example or a program of cargo, a comparison, an
    /// option of the tool, or a script.
    fn command_fault(&self, command: &str) -> Option<String> {
        let command = command.split(" #").next()?.trim_end();
        let words: Vec<&str> = command.split_whitespace().collect();
        let options = || words.iter().filter_map(|word| word.strip_prefix("--")).filter(|word| !word.is_empty());
        let missing: Option<&str> = match *words.first()? {
            "make" => words[1..].iter().copied().find(|word| !word.contains(['=', '-', '.']) && !self.has_target(word)),
            "cargo" => words.windows(2).find_map(|pair| (!self.has_of_cargo(pair[0], pair[1])).then_some(pair[1])),
            "compare" => words.get(1).copied().filter(|name| !holds_word(self.text("rust/compare/src/main.rs"), name)),
            "razvolk" if !command.contains(" = ") => options().find(|option| !self.has_option(option)),
            script if script.starts_with("tests/") || script.starts_with("dist/") => {
                Some(script).filter(|script| !self.has_file(script))
            }
            _ => None,
        };
        missing.map(|missing| format!("`{command}`: there is no {missing}"))
    }

    /// Whether the tool has an option: a field of its options, or one of the two that every program has.
    fn has_option(&self, option: &str) -> bool {
        let field = option.replace('-', "_");
        let mut sources = self.files.iter().filter(|(path, _)| path.starts_with("rust/tool/src/"));
        ["help", "version"].contains(&option) || sources.any(|(_, text)| declares(text, &field))
    }

    fn has_target(&self, name: &str) -> bool {
        self.text("Makefile").lines().any(|line| line.strip_prefix(name).is_some_and(|rest| rest.starts_with(':')))
    }

    /// Whether what follows an option of cargo exists; other words are not looked for.
    fn has_of_cargo(&self, option: &str, name: &str) -> bool {
        let manifests = || self.files.iter().filter(|(path, _)| path.ends_with("Cargo.toml"));
        match option {
            "-p" | "--bin" => {
                manifests().any(|(_, text)| text.lines().any(|line| line == format!("name = \"{name}\"")))
            }
            "--example" => self.has_file(&format!("examples/{name}.rs")),
            _ => true,
        }
    }

    /// Why a link leads nowhere: to no file, or to no heading of it.
    fn link_fault(&self, from: &str, link: &str) -> Option<String> {
        if link.contains("://") {
            return None;
        }
        let (file, heading) = link.split_once('#').unwrap_or((link, ""));
        let folder = from.rsplit_once('/').map_or("", |(folder, _)| folder);
        let path = if file.is_empty() { from.to_string() } else { joined(folder, file) };
        let is_there = |(found, _): &(String, String)| *found == path || found.starts_with(&format!("{path}/"));
        let has_heading = heading.is_empty() || headings(self.text(&path)).any(|found| found == heading);
        (!self.files.iter().any(is_there) || !has_heading).then(|| format!("the link {link} leads nowhere"))
    }
}

/// A path from the top, of one that is written in a folder.
fn joined(folder: &str, path: &str) -> String {
    let mut parts: Vec<&str> = folder.split('/').filter(|part| !part.is_empty()).collect();
    for part in path.trim_end_matches('/').split('/') {
        match part {
            "." => {}
            ".." => drop(parts.pop()),
            _ => parts.push(part),
        }
    }
    parts.join("/")
}

/// Whether a source declares a name: a function, a type, a constant, a module, or a case or a field at the start of a line.
fn declares(text: &str, name: &str) -> bool {
    let is_whole = |rest: &str| !rest.starts_with(is_name);
    let words = ["fn ", "struct ", "enum ", "const ", "mod ", "type "];
    text.lines().map(str::trim_start).any(|line| {
        let after = |word: &str| Some(line.split_once(word)?.1);
        words.iter().filter_map(|word| after(word)).any(|rest| rest.strip_prefix(name).is_some_and(is_whole))
            || line
                .trim_start_matches("pub ")
                .strip_prefix(name)
                .is_some_and(|rest| rest.starts_with([',', ':', '(', ' ']))
    })
}

fn holds_word(text: &str, word: &str) -> bool {
    text.split(|c| !is_name(c) && c != '-').any(|found| found == word)
}

/// A name of two parts or more, which no word of the language is: `read_block`, `map_by_rule`, `razvolk-queue`.
fn is_compound(name: &str) -> bool {
    let parts: Vec<&str> = name.split(['_', '-']).collect();
    let is_part = |part: &&str| part.chars().all(|c| c.is_ascii_lowercase() || c.is_ascii_digit()) && !part.is_empty();
    parts.len() > 1 && parts.iter().all(is_part) && name.starts_with(|c: char| c.is_ascii_lowercase())
}

/// Whether it is a file's or a folder's name; not one below a folder for what is made, or outside of the repository.
fn is_file_name(span: &str) -> bool {
    let ends = span.rsplit_once('.').is_some_and(|(name, end)| ENDINGS.contains(&end) && !name.is_empty());
    let outside = ["target/", "rust/target/", "..", "/", "-"];
    (ends || span.contains('/'))
        && !outside.iter().any(|start| span.starts_with(start))
        && span.contains(|c: char| c.is_alphabetic())
        && span.chars().all(|c| is_name(c) || "./-{},*".contains(c))
        && !span.contains("..")
}

/// Whether a path is that of a wrong edit, of which a crate and a name are wanted.
fn is_edit(path: &[&str], wanted: &[&str]) -> bool {
    let [of, name] = wanted else { return false };
    let file = path.last().and_then(|file| file.strip_suffix(".edit"));
    file == Some(name) && path.get(1) == Some(of)
}

/// `a/{b,c}.d` as `a/b.d` and `a/c.d`.
fn alternatives(name: &str) -> Vec<String> {
    let parted = name.split_once('{').and_then(|(before, rest)| Some((before, rest.split_once('}')?)));
    match parted {
        Some((before, (inner, after))) => inner.split(',').map(|one| format!("{before}{one}{after}")).collect(),
        None => vec![name.into()],
    }
}

/// Whether a name is that of a part of a path. A `*` stands for any, and so does one of the words that stand for a name.
fn matches(name: &str, part: &str) -> bool {
    let place = PLACES.iter().find_map(|place| Some(("", name.strip_prefix(place)?)));
    match place.or_else(|| name.split_once('*')) {
        Some((before, after)) => {
            part.len() >= before.len() + after.len() && part.starts_with(before) && part.ends_with(after)
        }
        None => name == part,
    }
}

/// The lines of a document with their numbers, and whether they are code.
fn lines(text: &str) -> impl Iterator<Item = (usize, &str, bool)> {
    let mut fenced = false;
    (1..).zip(text.lines()).map(move |(number, line)| {
        let fence = line.trim_start().starts_with("```");
        fenced ^= fence;
        (number, line, fenced || fence || line.starts_with("    "))
    })
}

/// What stands in backticks outside of code.
fn spans(text: &str) -> impl Iterator<Item = (usize, &str)> {
    let prose = lines(text).filter(|&(_, _, code)| !code);
    prose.flat_map(|(number, line, _)| line.split('`').skip(1).step_by(2).map(move |span| (number, span)))
}

/// Where links lead.
fn links(text: &str) -> impl Iterator<Item = (usize, &str)> {
    let prose = lines(text).filter(|&(_, _, code)| !code);
    let parted = prose.flat_map(|(number, line, _)| line.split("](").skip(1).map(move |rest| (number, rest)));
    parted.filter_map(|(number, rest)| Some((number, rest.split_once(')')?.0)))
}

/// Lines of code that are commands, with the prompt or without it.
fn commands(text: &str) -> impl Iterator<Item = (usize, &str)> {
    let code = lines(text).filter(|&(_, _, code)| code);
    code.map(|(number, line, _)| (number, line.trim().trim_start_matches("$ ")))
}

/// The headings of a document, as links name them.
fn headings(text: &str) -> impl Iterator<Item = String> {
    let titles = lines(text).filter(|&(_, line, code)| !code && line.starts_with('#'));
    titles.map(|(_, line, _)| {
        let title = line.trim_start_matches('#').trim().to_lowercase();
        title.chars().filter(|&c| is_name(c) || " -".contains(c)).map(|c| if c == ' ' { '-' } else { c }).collect()
    })
}

#[cfg(test)]
mod tests {
    use super::*;

    fn repository(document: &str) -> Repository {
        let file = |path: &str, text: &str| (path.to_string(), text.to_string());
        Repository::new(vec![
            file("docs/PAGE.md", document),
            file("README.md", "# Top\n\n## What is, and what isn't\n"),
            file("Makefile", "all:\n\techo\n"),
            file("crates/low/src/row.rt", "pub fn read_row(a: u32)\n{\n}\npub enum Kind {\n    Short,\n}\n"),
            file("crates/low/proofs/Laws.antt", "row_by_row : ℕ\n"),
            file("rust/src/lib.rs", "impl Kind {\n    pub fn is_short(self) {}\n}\n"),
            file("rust/compare/src/main.rs", "usage: v2|v2-crops COUNT"),
            file("rust/tool/src/options.rs", "    pub png: Option<PathBuf>,"),
            file("rust/tool/Cargo.toml", "name = \"razvolk-tool\"\n"),
            file("tests/try", ""),
            file("crates/low/must-fail-more/one_less.edit", ""),
        ])
    }

    #[test]
    fn what_exists_is_no_fault() {
        let page = "`low::row::read_row`, `low::row`, `Kind::Short`, `Kind::is_short`, `std::fmt`, `read_row()`, `row_by_row`\n\
            `crates/low/src/row.rt`, `row.rt`, `proofs/{Laws}.antt`, `crates/*/proofs`, `src/`, `crates/NAME/src/FILE.rt`\n\
            `crates/low`, `low/one_less`, `target/x/gone.rs`, `make all`, `make all FOR=9`, `compare v2-crops 9`, `cargo run -p razvolk-tool -- --help`, `razvolk a.srw --png`\n\
            [a](../README.md), [b](../README.md#what-is-and-what-isnt), [c](https://example.org/x), [d](../crates/low)\n\
            `a + b`, `x`, `9`, `a..b`, `[0; n]`\n\n    $ make all # words\n    tests/try 9\n\n```text\n`gone.rs`\n```\n";
        assert_eq!(repository(page).faults("docs/PAGE.md"), [""; 0]);
    }

    #[test]
    fn what_does_not_exist_is_named_with_its_line() {
        let faults = |page: &str| repository(page).faults("docs/PAGE.md").len();
        for page in [
            "`low::column`",
            "`low::row::read_column`",
            "`high::row`",
            "`Kind::Long`",
            "`Sort::Short`",
            "`read_column`",
            "`row_by_column`",
            "`row-by-row`",
            "`crates/low/src/column.rt`",
            "`column.rt`",
            "`proofs/{Laws,Gone}.antt`",
            "`crates/*/gone`",
            "`crates/NAME/gone`",
            "`low/two_less`",
            "`high/one_less`",
            "`make none`",
            "`compare v3 9`",
            "`cargo test -p gone`",
            "`cargo run --example gone`",
            "`razvolk a.srw --gone`",
            "[a](README.md)",
            "[a](../README.md#what-was)",
            "[a](#here)",
            "    $ make none",
            "    tests/gone 9",
        ] {
            assert_eq!(faults(page), 1, "{page}");
        }
        let found = repository("words\n\nand `gone.rs` here").faults("docs/PAGE.md");
        assert_eq!(found, ["docs/PAGE.md:3: there is no file `gone.rs`"]);
    }
}
