//! An end by SIGINT, SIGTERM or SIGHUP that leaves no file half written: a thread waits for these signals, takes away the files
//! that have a name only until they are whole, and lets the signal do what it does.

use nix::sys::signal::{SigSet, Signal, raise};
use std::collections::BTreeSet;
use std::fs;
use std::path::PathBuf;
use std::sync::{Mutex, MutexGuard, PoisonError};
use std::thread;

/// The files that have a name until they are whole. While somebody holds this, no signal ends the tool.
static UNFINISHED: Mutex<BTreeSet<PathBuf>> = Mutex::new(BTreeSet::new());

/// Lets no signal end the tool until the guard is dropped, so that a file is named and moved, or neither.
pub fn hold() -> MutexGuard<'static, BTreeSet<PathBuf>> {
    UNFINISHED.lock().unwrap_or_else(PoisonError::into_inner)
}

/// Waits for the signals from now on, in all threads that come after. One that is ignored, as nohup has it, stays so.
pub fn watch() {
    let ignored = ignored();
    let signals: Vec<Signal> = [Signal::SIGINT, Signal::SIGTERM, Signal::SIGHUP]
        .into_iter()
        .filter(|&signal| ignored >> (signal as u64 - 1) & 1 == 0)
        .collect();
    let set: SigSet = signals.into_iter().collect();
    if set.thread_block().is_err() {
        return;
    }
    thread::spawn(move || {
        let Ok(signal) = set.wait() else { return };
        let unfinished = hold();
        unfinished.iter().for_each(|path| drop(fs::remove_file(path)));
        let _ = SigSet::from_iter([signal]).thread_unblock();
        let _ = raise(signal);
    });
}

/// The signals that are ignored, a bit each from number 1 on, as the kernel tells them; none where it doesn't.
fn ignored() -> u64 {
    let status = fs::read_to_string("/proc/self/status").unwrap_or_default();
    let mask = status.lines().find_map(|line| line.strip_prefix("SigIgn:"));
    mask.and_then(|mask| u64::from_str_radix(mask.trim(), 16).ok()).unwrap_or(0)
}
