//! The tool: its library on files, and the built program as its user runs it, what it prints, what it writes, and how it ends.

mod files;
mod folder;
mod folders;
mod json;
mod left_behind;
mod looks;
mod outputs;
mod pictures;
