//! The comparisons with samsung.rs, as long as wanted. Each prints its seed, and how much was compared.

use compare::call::{Difference, Entry, razvolk, razvolk_in_bands, razvolk_of, with_map};
use compare::{
    bands, blank, clean, convert, jobs, late, lists, missing, packed, planes, reader, record, refusals, states,
    uploads, v0, v2, write,
};
use std::fmt::Display;
use std::path::Path;
use std::process::ExitCode;
use std::{env, io};
use streams::Version::{V0, V2};

const USAGE: &str = "usage: compare quick [SEED]
       compare long [SEED]
       compare reader|states|v0|bands|clean|v2|v2-crops|v2-full|missing|uploads|late|refusals|lists|planes|write|blank|convert|convert-full|packed COUNT [SEED]
       compare record FILE           writes recorded calls of samsung.rs
       compare record-check FILE     finds them equal
       compare jobs FOLDER           writes the job program's cases
       compare jobs-check FOLDER     finds them equal";

/// A comparison: how much of it the quick part takes, which the gate runs, and how much the long one (0 leaves it out), and
/// how it is run with a seed and a count.
struct Comparison {
    name: &'static str,
    quick: u64,
    long: u64,
    run: fn(u64, u64) -> Result<String, Difference>,
}

const COMPARISONS: &[Comparison] = &[
    Comparison {
        name: "reader",
        quick: 20_000_000,
        long: 1_000_000_000,
        run: |seed, n| Ok(reader::compare(reader::razvolk, reader::reference, seed, n)?.to_string()),
    },
    Comparison {
        name: "states",
        quick: 2_000_000,
        long: 100_000_000,
        run: |seed, n| Ok(states::compare(states::RAZVOLK, seed, n)?.to_string()),
    },
    Comparison {
        name: "v0",
        quick: 60_000,
        long: 1_000_000,
        run: |seed, n| of(&razvolk_of(V0), |entries| v0::compare(entries, seed, n)),
    },
    Comparison {
        name: "bands",
        quick: 20_000,
        long: 100_000,
        run: |seed, n| of(&razvolk_in_bands(), |entries| bands::compare(entries, seed, n)),
    },
    Comparison {
        name: "clean",
        quick: 5_000,
        long: 500_000,
        run: |seed, n| Ok(clean::compare(&clean::compare::razvolk, seed, n)?.to_string()),
    },
    Comparison {
        name: "v2",
        quick: 300,
        long: 20_000,
        run: |seed, n| of(&razvolk_of(V2), |entries| v2::compare(entries, seed, n)),
    },
    Comparison {
        name: "v2-crops",
        quick: 10_000,
        long: 500_000,
        run: |seed, n| of(&razvolk_of(V2), |entries| v2::crops::compare(entries, seed, n)),
    },
    Comparison {
        name: "v2-full",
        quick: 0,
        long: 50,
        run: |seed, n| of(&razvolk_of(V2), |entries| v2::full::compare(entries, seed, n)),
    },
    Comparison {
        name: "missing",
        quick: 65,
        long: 2_000,
        run: |seed, n| of(&razvolk(), |_| missing::compare(&razvolk_of(V0), &razvolk_of(V2), seed, n)),
    },
    Comparison {
        name: "uploads",
        quick: 64,
        long: 1_000,
        run: |seed, n| {
            let (v0, v2) = (with_map(razvolk_of(V0)), with_map(razvolk_of(V2)));
            of(&with_map(razvolk()), |_| uploads::compare(&v0, &v2, seed, n))
        },
    },
    Comparison {
        name: "late",
        quick: 2_000,
        long: 20_000,
        run: |seed, n| {
            let (v0, v2) = (late::razvolk_of_v0(), razvolk_of(V2));
            of(&razvolk(), |_| late::compare(&v0, &v2, seed, n))
        },
    },
    Comparison {
        name: "refusals",
        quick: 5_000,
        long: 50_000,
        run: |seed, n| of(&razvolk(), |entries| refusals::compare(entries, seed, n)),
    },
    Comparison {
        name: "lists",
        quick: 1_000,
        long: 10_000,
        run: |seed, n| of(&razvolk(), |entries| lists::compare(entries, seed, n)),
    },
    Comparison {
        name: "planes",
        quick: 5,
        long: 200,
        run: |seed, n| Ok(planes::compare(planes::RAZVOLK, seed, n)?.to_string()),
    },
    Comparison {
        name: "write",
        quick: 10_000,
        long: 200_000,
        run: |seed, n| Ok(write::compare(&write::compare::razvolk, seed, n)?.to_string()),
    },
    Comparison {
        name: "blank",
        quick: 10_000,
        long: 200_000,
        run: |seed, n| Ok(blank::compare(&blank::razvolk, seed, n)?.to_string()),
    },
    Comparison {
        name: "convert",
        quick: 2_000,
        long: 150_000,
        run: |seed, n| Ok(convert::compare(&convert::compare::razvolk, seed, n, 250)?.to_string()),
    },
    Comparison {
        name: "convert-full",
        quick: 0,
        long: 200,
        run: |seed, n| Ok(convert::compare::compare_full(&convert::compare::razvolk, seed, n)?.to_string()),
    },
    Comparison {
        name: "packed",
        quick: 20_000,
        long: 200_000,
        run: |seed, n| Ok(packed::compare(&packed::compare::razvolk, seed, n)?.to_string()),
    },
];

/// Compares some entries, and tells which.
fn of<S: Display>(
    entries: &[Entry],
    compare: impl Fn(&[Entry]) -> Result<S, Difference>,
) -> Result<String, Difference> {
    let names: Vec<&str> = entries.iter().map(|entry| entry.name).collect();
    compare(entries).map(|seen| format!("{seen}: {}", names.join(", ")))
}

fn main() -> ExitCode {
    let words: Vec<String> = env::args().skip(1).collect();
    let words: Vec<&str> = words.iter().map(String::as_str).collect();
    let done = match *words {
        ["record", file] => written(record::write(Path::new(file)), file),
        ["record-check", file] => checked(record::differences(Path::new(file)), file),
        ["jobs", folder] => written(jobs::write(Path::new(folder)), folder),
        ["jobs-check", folder] => checked(jobs::differences(Path::new(folder)), folder),
        _ => match asked(&words) {
            Some((runs, seed)) => runs.into_iter().all(|(comparison, count)| compared(comparison, count, seed)),
            None => {
                eprintln!("{USAGE}");
                return ExitCode::from(2);
            }
        },
    };
    if done { ExitCode::SUCCESS } else { ExitCode::FAILURE }
}

/// Says how much was written.
fn written(files: io::Result<usize>, place: &str) -> bool {
    match &files {
        Ok(files) => println!("{place}: {files} written"),
        Err(e) => println!("{place}: {e}"),
    }
    files.is_ok()
}

/// Says what differs from what would be written.
fn checked(found: io::Result<Vec<String>>, place: &str) -> bool {
    let found = found.unwrap_or_else(|e| vec![e.to_string()]);
    for what in &found {
        println!("{place}: {what}");
    }
    if found.is_empty() {
        println!("{place}: as it would be written");
    }
    found.is_empty()
}

/// Runs a comparison, and prints what it comes to.
fn compared(comparison: &Comparison, count: u64, seed: u64) -> bool {
    let compared = (comparison.run)(seed, count);
    match &compared {
        Ok(text) => println!("{text}"),
        Err(difference) => println!("{difference}"),
    }
    compared.is_ok()
}

/// What is asked for: comparisons with their counts, and the seed.
fn asked(words: &[&str]) -> Option<(Vec<(&'static Comparison, u64)>, u64)> {
    let number = |word: &str| word.replace('_', "").parse().ok();
    let all = |count: fn(&Comparison) -> u64| {
        let counts = COMPARISONS.iter().map(|comparison| (comparison, count(comparison)));
        counts.filter(|&(_, count)| count > 0).collect()
    };
    let (runs, rest) = match words {
        ["quick", rest @ ..] => (all(|comparison| comparison.quick), rest),
        ["long", rest @ ..] => (all(|comparison| comparison.long), rest),
        [name, count, rest @ ..] => {
            let comparison = COMPARISONS.iter().find(|comparison| comparison.name == *name)?;
            (vec![(comparison, number(count)?)], rest)
        }
        _ => return None,
    };
    match rest {
        [] => Some((runs, 1)),
        [seed] => Some((runs, number(seed)?)),
        _ => None,
    }
}
