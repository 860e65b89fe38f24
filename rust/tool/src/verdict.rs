//! The verdict on a frame: one line that a support person reads aloud.

use crate::look::Look;
use crate::report::unlisted;
use razvolk::{Marks, Refusal};
use serde::Serialize;

/// What is to be done with a frame.
#[derive(Clone, Copy, Debug, PartialEq, Eq, PartialOrd, Ord, Serialize)]
#[serde(rename_all = "snake_case")]
pub enum Status {
    Clean,
    /// What another program packed is taken.
    Taken,
    HoldBack,
    Incomplete,
    Refused,
    Unreadable,
    /// Its outputs are there already.
    Skipped,
}

impl Status {
    pub const ALL: [Status; 7] = [
        Status::Clean,
        Status::Taken,
        Status::HoldBack,
        Status::Incomplete,
        Status::Refused,
        Status::Unreadable,
        Status::Skipped,
    ];

    pub fn word(self) -> &'static str {
        match self {
            Status::Clean => "CLEAN",
            Status::Taken => "TAKEN",
            Status::HoldBack => "HOLD BACK",
            Status::Incomplete => "INCOMPLETE",
            Status::Refused => "REFUSED",
            Status::Unreadable => "UNREADABLE",
            Status::Skipped => "SKIPPED",
        }
    }

    /// The exit status of such a frame by itself.
    pub fn exit(self) -> u8 {
        match self {
            Status::Clean | Status::Taken | Status::Skipped => 0,
            Status::Refused => 1,
            Status::Unreadable => 2,
            Status::HoldBack | Status::Incomplete => 3,
        }
    }

    /// Whether somebody has to look at it.
    pub fn needs_care(self) -> bool {
        self.exit() != 0
    }
}

/// A status, and why.
#[derive(Clone, Debug, PartialEq, Eq)]
pub struct Verdict {
    pub status: Status,
    pub why: String,
}

impl Verdict {
    pub fn new(status: Status, why: impl Into<String>) -> Verdict {
        Verdict { status, why: why.into() }
    }

    /// On a frame that was decoded, or refused.
    pub fn of(look: &Look) -> Verdict {
        let marks = look.decoded.filter(|decoded| !decoded.clean).map(|decoded| decoded.marks);
        let (old, missing) = (marks.map_or(0, Marks::count_old), marks.map_or(0, Marks::count_filler));
        match (look.answer, marks) {
            (Err(refusal), _) => Verdict::new(Status::Refused, refused(refusal)),
            (Ok(()), Some(marks)) if old > 0 => Verdict::new(Status::HoldBack, held_back(marks, old, missing)),
            (Ok(()), Some(marks)) if missing > 0 => {
                let all = marks.bytes().len();
                let final_part = percent(all - marks.count(), all);
                Verdict::new(Status::Incomplete, format!("{final_part} final, {} missing", rows(marks, Marks::FILLER)))
            }
            _ if look.missing > 0 => {
                let bytes = grouped(look.missing);
                Verdict::new(
                    Status::Incomplete,
                    format!("100 % final, {bytes} bytes at the end missing, and not needed"),
                )
            }
            _ => Verdict::new(Status::Clean, ""),
        }
    }

    /// The line.
    pub fn line(&self, name: &str) -> String {
        match self.why.as_str() {
            "" => format!("{name}  {}\n", self.status.word()),
            why => format!("{name}  {}  {why}\n", self.status.word()),
        }
    }
}

/// The first row at fault, what is wrong there, and which rows before it are final.
fn refused(refusal: Refusal) -> String {
    let text = refusal.to_string();
    let row = refusal.row() as usize;
    let told = format!("row {row} ");
    let (at, what) = match refusal {
        Refusal::Overrun { .. } => (format!("row {}: ", grouped(row)), "the file breaks off"),
        _ => match text.strip_prefix(&told) {
            Some(what) => (format!("row {}: ", grouped(row)), what.strip_prefix("isn't clean: ").unwrap_or(what)),
            None => (String::new(), text.as_str()),
        },
    };
    // V2's refusals 5 to 8 end a frame in a row; others come before a sample is decoded.
    let standing = match matches!(refusal.number(), 5..=8).then_some(row) {
        None | Some(0) => String::new(),
        Some(1) => ", row 0 is final".into(),
        Some(row) => format!(", rows 0 to {} are final", grouped(row - 1)),
    };
    format!("{at}{what}{standing}")
}

fn held_back(marks: Marks, old: usize, missing: usize) -> String {
    let all = marks.bytes().len();
    let mut text = format!("{} of another picture ({})", percent(old, all), place(marks));
    if missing > 0 {
        text += &format!(", {} missing ({})", percent(missing, all), rows(marks, Marks::FILLER));
    }
    text
}

/// Where another picture is: its columns where they are the same in every row, else its rows.
fn place(marks: Marks) -> String {
    let width = marks.width();
    let height = marks.bytes().len() / width.max(1);
    let mut columns = marks.runs().map(|run| (run.first, run.length));
    let first = columns.next().unwrap_or_default();
    let same = height > 1
        && first.1 < width
        && columns.by_ref().take(height - 1).filter(|&next| next == first).count() == height - 1;
    match same && columns.next().is_none() {
        true if first.1 == 1 => format!("column {}", grouped(first.0)),
        true => format!("columns {} to {}", grouped(first.0), grouped(first.0 + first.1 - 1)),
        false => rows(marks, Marks::OLD),
    }
}

/// The most runs of rows that a line names.
const MOST: usize = 3;

/// The rows with such marks, in words.
fn rows(marks: Marks, part: u8) -> String {
    let mut runs: Vec<(usize, usize)> = Vec::new();
    let rows: Vec<usize> = match part {
        Marks::OLD => marks.rows_old().map(|(row, _)| row).collect(),
        _ => marks.rows_filler().map(|(row, _)| row).collect(),
    };
    for row in rows {
        match runs.last_mut() {
            Some(run) if run.1 + 1 == row => run.1 = row,
            _ => runs.push((row, row)),
        }
    }
    let last = (marks.bytes().len() / marks.width().max(1)).saturating_sub(1);
    if let (&[(first, end)], Marks::FILLER) = (&runs[..], part)
        && end == last
        && first > 0
    {
        return format!("from row {} on", grouped(first));
    }
    let one = |&(first, last): &(usize, usize)| match first == last {
        true => grouped(first),
        false => format!("{} to {}", grouped(first), grouped(last)),
    };
    let (listed, more) = runs.split_at(runs.len().min(MOST));
    let name = if let &[(first, last)] = listed
        && first == last
    {
        "row"
    } else {
        "rows"
    };
    let mut text = format!("{name} {}", listed.iter().map(one).collect::<Vec<_>>().join(", "));
    text += &unlisted(" and ", more.iter().map(|(first, last)| last - first + 1).sum());
    text
}

/// A part of a whole in per cent, so that 0 and 100 mean none and all.
pub fn percent(part: usize, of: usize) -> String {
    match (part * 100 + of / 2) / of.max(1) {
        0 if part > 0 => "under 1 %".into(),
        100.. if part < of => "over 99 %".into(),
        percent => format!("{percent} %"),
    }
}

/// A number with its digits in threes.
pub fn grouped(number: usize) -> String {
    let digits = number.to_string();
    let mut text = String::new();
    for (i, digit) in digits.chars().enumerate() {
        if i > 0 && (digits.len() - i).is_multiple_of(3) {
            text.push(',');
        }
        text.push(digit);
    }
    text
}

#[cfg(test)]
mod tests {
    use super::*;

    #[test]
    fn parts_in_words() {
        assert_eq!([percent(0, 9), percent(9, 9), percent(12, 100)], ["0 %", "100 %", "12 %"]);
        assert_eq!([percent(1, 1_000), percent(999, 1_000), percent(0, 0)], ["under 1 %", "over 99 %", "0 %"]);
        assert_eq!([0, 999, 1_745, 1_000_000].map(grouped), ["0", "999", "1,745", "1,000,000"]);
    }

    #[test]
    fn refusals_in_words() {
        assert_eq!(
            refused(Refusal::Overrun { row: 1_745, filler: 1 }),
            "row 1,745: the file breaks off, rows 0 to 1,744 are final"
        );
        assert_eq!(refused(Refusal::Overrun { row: 0, filler: 1 }), "row 0: the file breaks off");
        assert_eq!(refused(Refusal::Overrun { row: 1, filler: 1 }), "row 1: the file breaks off, row 0 is final");
        assert_eq!(refused(Refusal::TooLarge), "width or height is above 16,384");
    }
}
