//! The tool `razvolk` as a library, so that its tests and the fuzzer run what its user runs. [`main`] reads the command line
//! ([`options`]) and does what it asks for ([`queue`]): reads the files ([`input`]), finds the frames ([`razvolk::srw`]),
//! decodes them ([`look`], [`worker`]) and tells what is to be done with each ([`verdict`], [`report`], [`json`]), or checks what
//! others packed ([`packed`]), and writes what is asked for ([`form`]: [`pgm`], [`picture`], [`png_file`], [`v0`], [`v2`]; [`sheet`]) without
//! harm to a file ([`output`], [`signals`]).
pub mod form;
pub mod input;
pub mod json;
mod legend;
pub mod look;
pub mod options;
pub mod output;
pub mod packed;
pub mod pgm;
pub mod picture;
pub mod planes;
pub mod png_file;
pub mod queue;
pub mod report;
pub mod sheet;
pub mod signals;
pub mod v0;
pub mod v2;
pub mod verdict;
pub mod worker;
#[cfg(feature = "libdeflate")]
#[allow(unsafe_code)]
mod zlib;

use clap::CommandFactory;
use options::Options;
use std::ffi::OsString;
use std::io::{self, Write};
use std::process::ExitCode;

/// Does what the words after the program's name ask for.
pub fn main(words: impl IntoIterator<Item = OsString>) -> ExitCode {
    let done = match options::read(words) {
        Ok(Options { completions: Some(shell), .. }) => {
            let mut text = Vec::new();
            clap_complete::generate(shell, &mut Options::command(), "razvolk", &mut text);
            told(&text)
        }
        Ok(options) => {
            signals::watch();
            queue::look(&options)
        }
        Err(told_instead) if !told_instead.use_stderr() => told(told_instead.to_string().as_bytes()),
        Err(bad) => {
            let lines: String = bad.to_string().lines().map(|line| input::escaped(line) + "\n").collect();
            let _ = io::stderr().write_all(lines.as_bytes());
            return ExitCode::from(2);
        }
    };
    ExitCode::from(done.unwrap_or_else(|fault| {
        let _ = io::stderr().write_all(complaint(&fault).as_bytes());
        2
    }))
}

/// What went wrong, on a line of its own, whatever words of a command line or of a file are in it.
fn complaint(fault: &str) -> String {
    format!("razvolk: {}\n", input::escaped(fault))
}

/// Prints a text; the exit status. (`println!` would panic where nobody reads the output.)
fn told(text: &[u8]) -> Result<u8, String> {
    io::stdout().write_all(text).map(|()| 0).map_err(|e| format!("standard output: {e}"))
}
