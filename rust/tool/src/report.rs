//! The details of a frame, in words: what follows its verdict, each line indented.

use crate::input::shown;
use crate::look::Look;
use razvolk::srw::{Frame, V2Header};
use razvolk::{Marks, Refusal, Run};
use std::fmt::Write;
use std::path::Path;

/// The most lines of rows that are listed, and the most runs of a line.
const MOST_LINES: usize = 12;
const MOST_RUNS: usize = 8;

/// All that is told of a frame.
pub fn details(look: &Look, frame: &Frame) -> String {
    let marks = marks(look.decoded.map(|decoded| decoded.marks), look.missing);
    format!("  {}\n  {}\n{marks}", heading(frame), answer(look.answer))
}

/// What the file holds.
pub fn heading(frame: &Frame) -> String {
    let Frame { coding, width, height, stream, missing, .. } = frame;
    let mut text = format!("{coding}, {width} by {height}, {} bytes of stream", stream.len());
    if *missing > 0 {
        write!(text, ", {missing} more are missing").expect("a string");
    }
    text + &header(frame)
}

/// Where V2's own header says something else than the container. A header of 0 by 0 tells no size.
fn header(frame: &Frame) -> String {
    let Some(V2Header { width, height, depth }) = frame.v2_header() else { return String::new() };
    let mut text = String::new();
    if (width, height) != (0, 0) && (width, height) != (frame.width, frame.height) {
        write!(text, "\n  its own header says {width} by {height}").expect("a string");
    }
    if let Some(bits) = frame.bits.filter(|&bits| bits != depth) {
        write!(text, "\n  its own header says {depth} bits a sample, the container {bits}").expect("a string");
    }
    text
}

/// What the decoder answers.
pub fn answer(answer: Result<(), Refusal>) -> String {
    match answer {
        Ok(()) => "decoded to the end".into(),
        Err(refusal) if matches!(refusal.number(), 5..=8) => {
            format!("refused {}, row {}: {refusal}", refusal.number(), refusal.row())
        }
        Err(refusal) => format!("refused {}: {refusal}", refusal.number()),
    }
}

/// How many samples are of another picture or missing, and in which rows.
fn marks(marks: Option<Marks>, missing: usize) -> String {
    let Some(marks) = marks else { return "  nothing was decoded\n".into() };
    let all = marks.bytes().len();
    let (old, filler, words) = (marks.count_old(), marks.count_filler(), marks.filler_words());
    if marks.is_clean() && words == 0 {
        return match missing {
            0 => format!("  all {all} samples are determined by the file\n"),
            _ => format!("  all {all} samples are final: none of the missing bytes was needed\n"),
        };
    }
    let mut text = String::new();
    if old > 0 {
        writeln!(text, "  of another picture: {old} of {all} samples").expect("a string");
        text += &listing(&alike(marks.rows_old()), marks.width());
    }
    if words > 0 {
        let bytes = words.saturating_mul(4);
        writeln!(text, "  missing: {filler} of {all} samples; {bytes} bytes were read past the end").expect("a string");
        text += &listing(&alike(marks.rows_filler()), marks.width());
    }
    text
}

/// The rows, a line for each run of them, up to so many lines.
fn listing(runs: &[Rows], width: usize) -> String {
    let mut text = String::new();
    let (listed, more) = runs.split_at(runs.len().min(MOST_LINES));
    for &Rows { first, last, count } in listed {
        match last - first {
            0 => writeln!(text, "    row {first}: {count} of {width}"),
            _ => writeln!(text, "    rows {first} to {last}: {count} of {width} each"),
        }
        .expect("a string");
    }
    text + &unlisted_line(more.iter().map(|rows| rows.last - rows.first + 1).sum())
}

/// How many rows a listing that is cut leaves out; nothing where it leaves none.
pub fn unlisted(before: &str, rows: usize) -> String {
    if rows == 0 { String::new() } else { format!("{before}{}", plural(rows, "more row")) }
}

fn unlisted_line(rows: usize) -> String {
    if rows == 0 { String::new() } else { unlisted("    and ", rows) + "\n" }
}

pub fn plural(n: usize, name: &str) -> String {
    format!("{n} {name}{}", if n == 1 { "" } else { "s" })
}

/// How many samples were set, and to what.
pub fn blanked(runs: &[Run], fill: Option<u16>) -> String {
    if runs.is_empty() {
        return "  nothing to blank\n".into();
    }
    let set = runs.iter().map(|run| run.length).sum::<usize>();
    let fill = fill.map_or("what lies left".into(), |fill| fill.to_string());
    format!("  blanked to {fill}: {} in {}\n", plural(set, "sample"), plural(runs.len(), "run"))
}

/// In which columns of which rows, up to so many lines. Rows that follow one another and have the same columns are told once.
pub fn blanked_columns(runs: &[Run]) -> String {
    let mut text = String::new();
    let same = |one: &[Run], next: &[Run]| one.iter().map(columns).eq(next.iter().map(columns));
    let rows: Vec<&[Run]> = runs.chunk_by(|one, next| one.row == next.row).collect();
    let mut alike = rows.chunk_by(|one, next| one[0].row + 1 == next[0].row && same(one, next));
    for rows in alike.by_ref().take(MOST_LINES) {
        let (first, last) = (rows[0][0].row, rows[rows.len() - 1][0].row);
        let name = if first == last { format!("row {first}") } else { format!("rows {first} to {last}") };
        writeln!(text, "    {name}: columns {}", listed(rows[0])).expect("a string");
    }
    text + &unlisted_line(alike.map(<[_]>::len).sum())
}

fn columns(run: &Run) -> (usize, usize) {
    (run.first, run.length)
}

/// The columns of a row's runs, up to so many.
fn listed(runs: &[Run]) -> String {
    let (listed, more) = runs.split_at(runs.len().min(MOST_RUNS));
    let told = listed.iter().map(|run| match columns(run) {
        (first, 1) => format!("{first}"),
        (first, length) => format!("{first} to {}", first + length - 1),
    });
    let more = Some(more.len()).filter(|&more| more > 0).map(|more| format!("and {}", plural(more, "more run")));
    told.chain(more).collect::<Vec<_>>().join(", ")
}

/// What is to be known of a frame that is to be stored: one that was refused isn't, and marks are not stored.
pub fn stored(path: &Path, answer: Result<(), Refusal>, marks: Option<Marks>) -> String {
    let path = shown(path);
    match (answer, marks.map_or(0, Marks::count)) {
        (Err(_), _) => format!("  {path}: not written, since the frame is refused\n"),
        (Ok(()), 0) => String::new(),
        (Ok(()), marked) => {
            format!("  {path}: {marked} samples of another picture or missing are stored, and not marked\n")
        }
    }
}

/// Rows that follow one another and have as many marked samples each.
pub struct Rows {
    pub first: usize,
    pub last: usize,
    pub count: usize,
}

/// Rows with how many samples each, as runs of them.
pub fn alike(rows: impl Iterator<Item = (usize, usize)>) -> Vec<Rows> {
    let mut runs: Vec<Rows> = Vec::new();
    for (row, count) in rows {
        match runs.last_mut() {
            Some(run) if run.last + 1 == row && run.count == count => run.last = row,
            _ => runs.push(Rows { first: row, last: row, count }),
        }
    }
    runs
}

#[cfg(test)]
mod tests {
    use super::*;

    #[test]
    fn a_long_listing_is_cut() {
        let runs: Vec<Rows> = (0..20).map(|i| Rows { first: 10 * i, last: 10 * i + i % 2, count: 1 + i }).collect();
        let text = listing(&runs, 40);
        assert!(text.starts_with("    row 0: 1 of 40\n    rows 10 to 11: 2 of 40 each\n    row 20: 3 of 40\n"));
        assert_eq!(text.lines().count(), 13);
        assert!(text.ends_with("    rows 110 to 111: 12 of 40 each\n    and 12 more rows\n"), "{text}");
        assert!(!listing(&runs[..12], 40).contains("more"));
        assert!(listing(&runs[..13], 40).ends_with("\n    and 1 more row\n"));
    }

    /// Of rows in which every other sample is marked, and each has other columns than the one before.
    #[test]
    fn a_long_listing_of_blanked_columns_is_cut() {
        let runs = |rows: usize, runs: usize| {
            let run = move |row, i| Run { row, first: row % 2 + 2 * i, length: 1 };
            (0..rows).flat_map(move |row| (0..runs).map(move |i| run(row, i))).collect::<Vec<_>>()
        };
        assert_eq!(blanked(&runs(15, 10), Some(7)), "  blanked to 7: 150 samples in 150 runs\n");
        let text = blanked_columns(&runs(15, 10));
        let begins = "    row 0: columns 0, 2, 4, 6, 8, 10, 12, 14, and 2 more runs\n    row 1: columns 1, 3,";
        assert!(text.starts_with(begins), "{text}");
        let ends = "    row 11: columns 1, 3, 5, 7, 9, 11, 13, 15, and 2 more runs\n    and 3 more rows\n";
        assert!(text.ends_with(ends), "{text}");
        assert!(!blanked_columns(&runs(12, 8)).contains("more"));
        assert!(blanked_columns(&runs(13, 9)).ends_with(", and 1 more run\n    and 1 more row\n"));
    }
}
