//! What is asked for on the command line.
#![allow(unused_qualifications, reason = "clap's derive writes some")]

use crate::form::{Form, Picture};
use crate::input::is_stdin;
use clap::error::ErrorKind;
use clap::{CommandFactory, Parser};
use clap_complete::Shell;
use std::ffi::{OsStr, OsString};
use std::path::{Path, PathBuf};

const ABOUT: &str = "\
Tells of Samsung raw frames (SRW, V0 and V2) which are clean, which show another picture, and which are incomplete; \
shows where, and writes pictures, samples, V0 and V2";

const AFTER: &str = "\
A line a frame:
  CLEAN       every sample is determined by the file. It doesn't mean undamaged: a file in which bytes
              were changed, or are zeros, decodes to a clean frame of other samples
  HOLD BACK   samples show what the worker's buffer held before: another picture, maybe a stranger's
  INCOMPLETE  the file breaks off; what isn't missing is final, and stays when the rest arrives
  REFUSED     the frame can't be decoded, or not from the row on that is told
  UNREADABLE  the file can't be read, or has no frame

JSON, an object a line: file, and file_bytes (hexadecimal) where the name isn't UTF-8; status (clean,
hold_back, incomplete, refused, unreadable, taken, skipped); clean; error where a file can't be read or
written; version, width, height, bits, header (V2's own), stream_bytes, missing_bytes, missing_words
(that were read past the end), answer (0 is done), row, text, over (the answer to that frame); of a
stream that was begun samples, old, old_rows, filler, filler_rows (of another picture, and missing),
runs of both (row, first column, length); with --blank blanked: FILL, or null

Exit status, of several frames the first that there is of 2, 1, 3, 0:
  0  all frames are clean; with --check-packed, taken
  1  a frame is refused
  2  bad options, or a file that can't be read or written, or that has no frame
  3  a frame is to be held back, or is incomplete";

/// All that is asked for.
#[derive(Parser, Clone, Debug, Default, PartialEq, Eq)]
#[command(name = "razvolk", version, about = ABOUT, after_help = AFTER, max_term_width = 100)]
pub struct Options {
    /// Cameras' files (TIFF; V0 is compression 32770 with tag 40976, V2 is 32773), folders of them, or - for standard input;
    /// with --v0 or --v2 one bare stream
    #[arg(value_name = "FILE.srw|FOLDER|-", required_unless_present = "completions")]
    pub files: Vec<PathBuf>,
    /// Look into folders below folders, too; outputs go to folders of the same names
    #[arg(short, long)]
    pub recursive: bool,
    /// Tell the details of each frame
    #[arg(short, long, conflicts_with = "quiet")]
    pub verbose: bool,
    /// Tell only of frames that need care
    #[arg(short, long)]
    pub quiet: bool,
    /// Tell in JSON, one object a frame
    #[arg(long)]
    pub json: bool,
    /// Leave the list of runs out of JSON, which may be long
    #[arg(long, requires = "json")]
    pub no_runs: bool,
    /// Decode with so many workers, one buffer each; else one for each processor
    #[arg(short, long, value_name = "N", value_parser = clap::value_parser!(u8).range(1..))]
    pub jobs: Option<u8>,
    /// Decode this frame first, into the same buffer, as a worker would; else pictures start from black
    #[arg(long, value_name = "FILE.srw")]
    pub over: Option<PathBuf>,
    /// Set what is of another picture or missing to FILL, or to what lies to its left
    #[arg(long, value_name = "FILL", num_args = 0..=1, require_equals = true)]
    pub blank: Option<Option<u16>>,
    /// Decode a V0 frame only if it is clean; else its first fault is told, and nothing is written
    #[arg(long)]
    pub clean: bool,
    /// Check V0 frames that another program packed: each must be clean, hold the samples of MEANT.srw, and have no more bytes
    /// of stream than --write-v0 would make
    #[arg(long, value_name = "MEANT.srw", conflicts_with_all = ["over", "blank", "clean", "out", "pgm", "png", "planes",
        "write_v0", "to_v2", "sheet"])]
    pub check_packed: Option<PathBuf>,
    /// The size of a bare V0 stream
    #[arg(long, value_name = "WIDTHxHEIGHT", value_parser = size, requires = "offsets", conflicts_with = "v2",
        help_heading = "Bare streams")]
    pub v0: Option<(usize, usize)>,
    /// The byte offset of each of its rows: decimal numbers, parted by spaces, commas or lines
    #[arg(long, value_name = "FILE", requires = "v0", conflicts_with = "v2", help_heading = "Bare streams")]
    pub offsets: Option<PathBuf>,
    /// The size of a bare V2 stream
    #[arg(long, value_name = "WIDTHxHEIGHT", value_parser = size, help_heading = "Bare streams")]
    pub v2: Option<(usize, usize)>,
    /// Write to this folder, which is made where it isn't there; outputs are named after their frames
    #[arg(short, long, value_name = "FOLDER", help_heading = "Outputs")]
    pub out: Option<PathBuf>,
    /// What is written there
    #[arg(
        long = "write",
        value_name = "FORM",
        value_enum,
        value_delimiter = ',',
        default_value = "png",
        requires = "out",
        help_heading = "Outputs"
    )]
    pub forms: Vec<Form>,
    /// A picture; what is of another picture is tinted red, what is missing blue, both violet. FILE may be a folder that is
    /// there, or - for standard output, here and below
    #[arg(long, value_name = "FILE", help_heading = "Outputs")]
    pub png: Option<PathBuf>,
    /// The samples, 16 bits each
    #[arg(long, value_name = "FILE", help_heading = "Outputs")]
    pub pgm: Option<PathBuf>,
    /// A picture of the four colour planes, side by side: even rows and even columns, even and odd, odd and even, odd and odd
    #[arg(long, value_name = "FILE", help_heading = "Outputs")]
    pub planes: Option<PathBuf>,
    /// The samples as V0, none above 16,383, in a file that this tool reads again
    #[arg(long, value_name = "FILE", help_heading = "Outputs")]
    pub write_v0: Option<PathBuf>,
    /// A clean V0 frame as V2, of a width that is a multiple of 16, no sample above 16,383
    #[arg(long, value_name = "FILE", help_heading = "Outputs")]
    pub to_v2: Option<PathBuf>,
    /// A page of all frames to look through in a browser: pictures, verdicts, marks that are switched on and off
    #[arg(long, value_name = "FILE.html", help_heading = "Outputs")]
    pub sheet: Option<PathBuf>,
    /// Replace files of these names; a file that is read is never written over
    #[arg(long, help_heading = "Outputs")]
    pub force: bool,
    /// Pass over frames whose outputs are there, to go on after an interruption
    #[arg(long, conflicts_with_all = ["force", "sheet"], help_heading = "Outputs")]
    pub skip_existing: bool,
    #[command(flatten)]
    pub picture: Picture,
    /// Print the completions of a shell
    #[arg(long, value_name = "SHELL", value_enum, hide = true)]
    pub completions: Option<Shell>,
}

impl Options {
    /// What is to be written, and where: a file, a folder, or standard output.
    pub fn outputs(&self) -> Vec<(Form, &Path)> {
        let named = [
            (Form::Pgm, &self.pgm),
            (Form::Png, &self.png),
            (Form::Planes, &self.planes),
            (Form::V0, &self.write_v0),
            (Form::V2, &self.to_v2),
        ];
        let named = named.into_iter().filter_map(|(form, path)| Some((form, path.as_deref()?)));
        let out = self.out.as_deref().map(|out| self.forms.iter().map(move |&form| (form, out)));
        named.chain(out.into_iter().flatten()).collect()
    }

    /// Whether an output goes to standard output: what is told goes to standard error then.
    pub fn to_stdout(&self) -> bool {
        self.outputs().iter().any(|(_, to)| is_stdin(to))
    }

    /// The size of a bare stream.
    pub fn bare(&self) -> Option<(usize, usize)> {
        self.v0.or(self.v2)
    }

    /// What can't go together, beyond what each option says of itself.
    fn fault(&self) -> Option<&'static str> {
        let read = self.files.iter().chain(&self.over).chain(&self.check_packed).chain(&self.offsets);
        let outputs = self.outputs();
        match () {
            _ if self.files.len() > 1 && self.bare().is_some() => Some("one bare stream at a time"),
            _ if read.filter(|file| is_stdin(file)).count() > 1 => Some("standard input is read once"),
            _ if outputs.iter().filter(|(_, to)| is_stdin(to)).count() > 1 => Some("standard output takes one output"),
            _ if self.sheet.as_deref().is_some_and(is_stdin) => Some("a sheet goes to a file"),
            _ if outputs.iter().any(|(_, to)| to.as_os_str().is_empty()) => Some("an output needs a name"),
            _ => None,
        }
    }
}

/// Reads the words after the program's name.
pub fn read(words: impl IntoIterator<Item = OsString>) -> Result<Options, clap::Error> {
    let options = Options::try_parse_from([OsString::from("razvolk")].into_iter().chain(with_fill(words)))?;
    match options.fault() {
        None => Ok(options),
        Some(fault) => Err(Options::command().error(ErrorKind::ArgumentConflict, fault)),
    }
}

/// A number after `--blank` is its fill: the two become one word. A file of such a name comes after `--`.
fn with_fill(words: impl IntoIterator<Item = OsString>) -> Vec<OsString> {
    let mut words = words.into_iter().peekable();
    let (mut joined, mut files_only) = (Vec::new(), false);
    while let Some(mut word) = words.next() {
        files_only |= word == "--";
        let is_number = |next: &OsString| next.to_str().is_some_and(|next| next.parse::<u32>().is_ok());
        if let Some(fill) = (word == "--blank" && !files_only).then(|| words.next_if(is_number)).flatten() {
            word = OsString::from_iter([OsStr::new("--blank="), &fill]);
        }
        joined.push(word);
    }
    joined
}

fn size(word: &str) -> Result<(usize, usize), String> {
    let sides = word.split_once('x').and_then(|(width, height)| Some((width.parse().ok()?, height.parse().ok()?)));
    sides.ok_or("no size, as 5546x3714 is".into())
}

/// The numbers of a text.
pub fn numbers(text: &str) -> Result<Vec<u32>, String> {
    let words = text.split(|c: char| c.is_whitespace() || c == ',').filter(|word| !word.is_empty());
    words.map(|word| word.parse().map_err(|_| format!("{word} is no number below 2^32"))).collect()
}

#[cfg(test)]
mod tests {
    use super::*;

    fn asked(line: &str) -> Result<Options, clap::Error> {
        read(line.split_whitespace().map(OsString::from))
    }

    fn files(files: &[&str]) -> Options {
        Options { files: files.iter().map(PathBuf::from).collect(), forms: vec![Form::Png], ..Options::default() }
    }

    #[test]
    fn the_options_fit_each_other() {
        Options::command().debug_assert();
    }

    #[test]
    fn files_with_all_there_is() {
        let options = Options {
            over: Some("c.srw".into()),
            blank: Some(Some(512)),
            pgm: Some("d".into()),
            png: Some("e=f".into()),
            planes: Some("g".into()),
            write_v0: Some("h".into()),
            to_v2: Some("i".into()),
            force: true,
            picture: Picture { white: Some(4_095), linear: true, full: true, outline: true },
            clean: true,
            json: true,
            jobs: Some(3),
            ..files(&["a.srw", "b=.srw", "-"])
        };
        let line = "--over=c.srw --blank 512 a.srw --force --pgm d --png=e=f b=.srw --planes g --write-v0 h --to-v2 i - --white 4095 --json --clean \
            --linear --full --outline -j3";
        assert_eq!(asked(line).ok(), Some(options));
    }

    #[test]
    fn a_number_after_blank_is_its_fill() {
        let blank = |blank| Some(Options { blank, ..files(&["a"]) });
        assert_eq!([asked("--blank a").ok(), asked("a --blank").ok()], [blank(Some(None)), blank(Some(None))]);
        assert_eq!(
            [asked("a --blank 0").ok(), asked("--blank=9 a").ok()],
            [blank(Some(Some(0))), blank(Some(Some(9)))]
        );
        assert_eq!(asked("--blank -- 7").ok(), Some(Options { blank: Some(None), ..files(&["7"]) }));
        assert_eq!(asked("-- --x").ok(), Some(files(&["--x"])));
    }

    #[test]
    fn a_folder_for_outputs() {
        let options = asked("a -o out --write pgm,v0 --png b").expect("a line");
        let out = Path::new("out");
        assert_eq!(options.outputs(), [(Form::Png, Path::new("b")), (Form::Pgm, out), (Form::V0, out)]);
        assert_eq!(asked("a -o out").expect("a line").outputs(), [(Form::Png, out)]);
        assert!(asked("a").expect("a line").outputs().is_empty());
        assert!(asked("a --pgm -").expect("a line").to_stdout());
    }

    #[test]
    fn what_is_no_line() {
        for (line, text) in [
            ("", "<FILE.srw|FOLDER|->"),
            ("--v2 2x2 a b", "one bare stream at a time"),
            ("- a -", "standard input is read once"),
            ("--over - -", "standard input is read once"),
            ("--v0 2x2 --offsets - -", "standard input is read once"),
            ("a --png - --pgm -", "standard output takes one output"),
            ("a --sheet -", "a sheet goes to a file"),
            ("--png", "--png"),
            ("--blank 65536 s", "65536"),
            ("--blank=x s", "--blank"),
            ("--blank --blank 5 s", "--blank"),
            ("--blank 5", "<FILE.srw|FOLDER|->"),
            ("--check-packed m", "<FILE.srw|FOLDER|->"),
            ("--check-packed m a --clean", "--clean"),
            ("--check-packed m a --pgm p", "--pgm"),
            ("--gif a", "--gif"),
            ("-x a", "-x"),
            ("--force=a b", "--force"),
            ("--png a --png b c", "--png"),
            ("--v0 2x2 s", "--offsets"),
            ("--v2 2x2 --offsets o s", "--v2"),
            ("--offsets o s", "--v0"),
            ("--v0 2x2 --offsets o --v2 2x2 s", "--v2"),
            ("--v2 2 s", "no size, as 5546x3714 is"),
            ("--v2=-1x2 s", "no size, as 5546x3714 is"),
            ("--v2 99999999999999999999x2 s", "no size, as 5546x3714 is"),
            ("--white 65536 s", "--white"),
            ("--jobs many s", "--jobs"),
            ("--jobs 0 s", "--jobs"),
            ("--png= s", "--png"),
            ("--force --skip-existing s", "--skip-existing"),
            ("-v -q s", "--quiet"),
            ("--write png s", "--out"),
            ("--write gif -o d s", "gif"),
        ] {
            let error = asked(line).expect_err(line);
            assert!(error.to_string().contains(text) && error.use_stderr(), "{line}: {error}");
        }
    }

    #[test]
    fn numbers_of_a_text() {
        assert_eq!(numbers("0, 4\n 4294967295,"), Ok(vec![0, 4, u32::MAX]));
        assert_eq!(numbers(" "), Ok(vec![]));
        assert_eq!(numbers("4294967296"), Err("4294967296 is no number below 2^32".into()));
        assert_eq!(numbers("1 -1"), Err("-1 is no number below 2^32".into()));
    }
}
