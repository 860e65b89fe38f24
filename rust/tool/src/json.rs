//! What is told of a frame, for scripts: one object a frame, on a line of its own.

use crate::input::steers;
use crate::look::Look;
use crate::report::{Rows, alike};
use crate::verdict::Status;
use razvolk::srw::{Frame, V2Header};
use razvolk::{Marks, Refusal};
use serde::Serialize;
use serde_json::ser::{CompactFormatter, Formatter};
use std::io;
use std::os::unix::ffi::OsStrExt;
use std::path::Path;

/// A line.
#[derive(Serialize)]
pub struct Object {
    file: String,
    /// The name's bytes in hexadecimal, where they aren't UTF-8.
    #[serde(skip_serializing_if = "Option::is_none")]
    file_bytes: Option<String>,
    status: Status,
    clean: bool,
    #[serde(flatten)]
    frame: Option<Answered>,
    #[serde(skip_serializing_if = "Option::is_none")]
    over: Option<u32>,
    #[serde(flatten)]
    marks: Option<Marked>,
    /// Where no fill is stated there is no number to tell.
    #[serde(skip_serializing_if = "Option::is_none")]
    blanked: Option<Option<u16>>,
    #[serde(skip_serializing_if = "Option::is_none")]
    pub error: Option<String>,
}

/// What the file says of a frame, and the answer to it.
#[derive(Serialize)]
struct Answered {
    version: String,
    width: usize,
    height: usize,
    bits: Option<u32>,
    #[serde(skip_serializing_if = "Option::is_none")]
    header: Option<Header>,
    stream_bytes: usize,
    missing_bytes: usize,
    missing_words: u64,
    answer: u32,
    row: u32,
    text: String,
}

#[derive(Serialize)]
struct Header {
    width: usize,
    height: usize,
    bits: u32,
}

#[derive(Serialize)]
struct Marked {
    samples: usize,
    old: usize,
    old_rows: Vec<RowsAlike>,
    filler: usize,
    filler_rows: Vec<RowsAlike>,
    #[serde(skip_serializing_if = "Option::is_none")]
    runs: Option<Vec<[usize; 3]>>,
}

/// A run of rows that have as many such samples each.
#[derive(Serialize)]
struct RowsAlike {
    first: usize,
    last: usize,
    samples: usize,
}

impl Object {
    /// A file of which nothing more is told.
    pub fn of(path: &Path, status: Status) -> Object {
        let bytes = path.as_os_str().as_bytes();
        let hexadecimal = || bytes.iter().map(|byte| format!("{byte:02x}")).collect();
        Object {
            file: path.to_string_lossy().into(),
            file_bytes: path.to_str().is_none().then(hexadecimal),
            status,
            clean: status == Status::Clean,
            frame: None,
            over: None,
            marks: None,
            blanked: None,
            error: None,
        }
    }

    /// A frame that was decoded, or refused.
    pub fn of_frame(path: &Path, frame: &Frame, look: &Look, status: Status, runs: bool) -> Object {
        let marks = look.decoded.map(|decoded| decoded.marks);
        Object {
            frame: Some(answered(frame, look.answer, marks.map_or(0, Marks::filler_words))),
            over: look.over.map(number),
            marks: marks.map(|marks| Marked {
                samples: marks.bytes().len(),
                old: marks.count_old(),
                old_rows: rows(marks.rows_old()),
                filler: marks.count_filler(),
                filler_rows: rows(marks.rows_filler()),
                runs: runs.then(|| marks.runs().map(|run| [run.row, run.first, run.length]).collect()),
            }),
            blanked: look.blanked.as_ref().map(|(fill, _)| *fill),
            ..Object::of(path, status)
        }
    }

    /// A frame that another program packed, taken or refused: no word of it that was read is missing.
    pub fn of_packed(path: &Path, frame: &Frame, answer: Result<(), Refusal>, status: Status) -> Object {
        Object { frame: Some(answered(frame, answer, 0)), ..Object::of(path, status) }
    }

    /// The line.
    pub fn line(&self) -> String {
        let mut line = Vec::new();
        let mut serializer = serde_json::Serializer::with_formatter(&mut line, Plain);
        self.serialize(&mut serializer).expect("strings and numbers");
        String::from_utf8(line).expect("JSON is UTF-8") + "\n"
    }
}

fn number(answer: Result<(), Refusal>) -> u32 {
    answer.map_or_else(|refusal| refusal.number(), |()| 0)
}

fn answered(frame: &Frame, answer: Result<(), Refusal>, missing_words: u64) -> Answered {
    let Frame { coding, width, height, stream, missing, bits, .. } = frame;
    let header = frame.v2_header().map(|V2Header { width, height, depth }| Header { width, height, bits: depth });
    Answered {
        version: coding.to_string(),
        width: *width,
        height: *height,
        bits: *bits,
        header,
        stream_bytes: stream.len(),
        missing_bytes: *missing,
        missing_words,
        answer: number(answer),
        row: answer.map_or_else(|refusal| refusal.row(), |()| 0),
        text: answer.map_or_else(|refusal| refusal.to_string(), |()| "done".into()),
    }
}

fn rows(rows: impl Iterator<Item = (usize, usize)>) -> Vec<RowsAlike> {
    let run = |Rows { first, last, count }| RowsAlike { first, last, samples: count };
    alike(rows).into_iter().map(run).collect()
}

/// Writes compactly, and what would steer a terminal by its number.
struct Plain;

impl Formatter for Plain {
    fn write_string_fragment<W: io::Write + ?Sized>(&mut self, writer: &mut W, fragment: &str) -> io::Result<()> {
        for c in fragment.chars() {
            match steers(c) {
                // All of them have four digits.
                true => write!(writer, "\\u{:04x}", u32::from(c))?,
                false => CompactFormatter.write_string_fragment(writer, c.encode_utf8(&mut [0; 4]))?,
            }
        }
        Ok(())
    }
}

#[cfg(test)]
mod tests {
    use super::*;

    #[test]
    fn names_are_quoted_and_mapped_back() {
        let name = "a\"b\\c\n\u{1b}ö\u{7f}\u{9b}\u{202e}";
        let line = Object::of(Path::new(name), Status::Clean).line();
        let quoted = r#"a\"b\\c\n\u001bö\u007f\u009b\u202e"#;
        assert_eq!(line, format!("{{\"file\":\"{quoted}\",\"status\":\"clean\",\"clean\":true}}\n"));
        let odd = Path::new(std::ffi::OsStr::from_bytes(b"\xff.srw"));
        let line = Object::of(odd, Status::HoldBack).line();
        assert!(line.contains("\"file_bytes\":\"ff2e737277\",\"status\":\"hold_back\",\"clean\":false"), "{line}");
    }
}
