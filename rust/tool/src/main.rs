//! `razvolk`: decodes a frame and shows which of its samples rest on what the buffer held before. All that it does is in the
//! library.

use std::process::ExitCode;

fn main() -> ExitCode {
    razvolk_tool::main(std::env::args_os().skip(1))
}
