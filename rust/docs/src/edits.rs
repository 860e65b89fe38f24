//! Wrong edits: files that change lines of a crate, which the proofs must then refuse.

/// What an edit changes: the file, the text that must stand there once, and what takes its place. None where a line is no
/// part of an edit.
pub fn changes(edit: &str) -> Option<Vec<(String, String, String)>> {
    let (mut file, mut old, mut changes) = (None, None, Vec::new());
    for line in edit.lines().filter(|line| !line.starts_with('#') && !line.trim().is_empty()) {
        match line.split_once(": ")? {
            ("file", path) => file = Some(path.trim()),
            ("old", text) => old = Some(text),
            ("new", text) => changes.push((file?.into(), old.take()?.into(), text.into())),
            _ => return None,
        }
    }
    (old.is_none() && !changes.is_empty()).then_some(changes)
}

/// What keeps an edit from a crate whose files `read` gives: a line for the first change that does not fit.
pub fn fault(edit: &str, read: impl Fn(&str) -> Option<String>) -> Option<String> {
    let Some(changes) = changes(edit) else { return Some("is no edit".into()) };
    let mut now: Option<(String, String)> = None;
    for (file, old, new) in changes {
        let known = now.take().filter(|(name, _)| *name == file).map(|(_, text)| text);
        let Some(text) = known.or_else(|| read(&file)) else { return Some(format!("there is no {file}")) };
        match text.matches(&old).count() {
            1 => now = Some((file, text.replacen(&old, &new, 1))),
            count => return Some(format!("{file} has \"{old}\" {count} times")),
        }
    }
    None
}

#[cfg(test)]
mod tests {
    use super::*;

    #[test]
    fn an_edit_that_does_not_fit_is_named() {
        let read = |file: &str| (file == "src/lib.rt").then(|| "a < b\nc < d\n".to_string());
        let fault = |edit: &str| fault(edit, read);
        assert_eq!(fault("# Swapped.\nfile: src/lib.rt\nold: a < b\nnew: c < d\n"), None);
        // The second text stands there twice only after the first change.
        let second = "file: src/lib.rt\nold: a < b\nnew: c < d\nold: c < d\nnew: a < b\n";
        assert_eq!(fault(second), Some("src/lib.rt has \"c < d\" 2 times".into()));
        assert_eq!(fault("file: src/lib.rt\nold: a > b\nnew: x\n"), Some("src/lib.rt has \"a > b\" 0 times".into()));
        assert_eq!(fault("file: src/lib.rt\nold:  < \nnew: x\n"), Some("src/lib.rt has \" < \" 2 times".into()));
        assert_eq!(fault("file: src/gone.rt\nold: a\nnew: x\n"), Some("there is no src/gone.rt".into()));
        for edit in ["", "file: a\n", "file: a\nold: b\n", "old: a\nnew: b\n", "some words\n"] {
            assert_eq!(fault(edit), Some("is no edit".into()), "{edit}");
        }
    }
}
