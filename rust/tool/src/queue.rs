//! All frames that are asked for, through workers with a buffer each, as a host's queue has them. What is told comes in the
//! order in which the files are named, whatever worker was first.

use crate::form::{self, Form};
use crate::input::{self, Found, Identity, Input, shown};
use crate::json::Object;
use crate::look::{Look, Wanted};
use crate::options::{self, Options};
use crate::output::{self, Place, Staged};
use crate::packed::Meant;
use crate::report::{self, plural};
use crate::verdict::{Status, Verdict, grouped};
use crate::worker::{Memory, Worker};
use crate::{complaint, sheet};
use indicatif::{ProgressBar, ProgressStyle};
use razvolk::srw::{self, Coding, Frame};
use std::collections::BTreeMap;
use std::fs;
use std::io::{self, Write};
use std::mem;
use std::path::{Path, PathBuf};
use std::sync::atomic::{AtomicUsize, Ordering};
use std::sync::mpsc;
use std::thread;

/// A file with a frame, which file it is, and where its outputs go.
struct Job {
    path: PathBuf,
    identity: Option<Identity>,
    outputs: Vec<(Form, Place)>,
    /// All its outputs are there, and are to be left.
    skipped: bool,
}

/// What all frames are decoded with.
struct Shared<'a> {
    options: &'a Options,
    /// The frame that is decoded first.
    over: Option<(String, Frame<'a>)>,
    /// The row offsets of a bare V0 stream.
    offsets: Option<Vec<u32>>,
    /// The samples that frames are meant to hold, where they are only checked.
    meant: Option<Meant>,
}

/// What came of a file.
struct Outcome {
    verdict: Verdict,
    /// What follows the verdict.
    notes: String,
    object: Object,
    /// Why an output isn't written.
    fault: Option<String>,
    /// What goes to standard output.
    bytes: Vec<u8>,
    /// The frame's part of the sheet.
    card: String,
}

impl Outcome {
    fn new(verdict: Verdict, object: Object) -> Outcome {
        Outcome { verdict, notes: String::new(), object, fault: None, bytes: Vec::new(), card: String::new() }
    }
}

/// Decodes and tells, and writes what is asked for: nothing before it is known that no output harms a file.
pub fn look(options: &Options) -> Result<u8, String> {
    if let Some(out) = &options.out {
        fs::create_dir_all(out).map_err(|e| input::fault(out, e))?;
    }
    let folders: Vec<&Path> = options.outputs().iter().map(|(_, to)| *to).filter(|to| to.is_dir()).collect();
    let files = input::files(&options.files, options.recursive, &folders)?;
    let over = options.over.as_deref().map(|path| Input::read(path, None, Vec::new())).transpose()?;
    let table = options.offsets.as_deref().map(|path| Input::read(path, None, Vec::new())).transpose()?;
    let (jobs, sheet) = jobs(options, &files, [&over, &table].into_iter().flatten().map(|input| input.identity))?;
    let over = over.as_ref().map(|over| Ok::<_, String>((over.name(), camera(over)?))).transpose()?;
    let offsets = table.map(|table| {
        let numbers = options::numbers(&String::from_utf8_lossy(&table.bytes));
        numbers.map_err(|fault| table.fault(fault))
    });
    let meant = options.check_packed.as_deref().map(|path| {
        let file = Input::read(path, None, Vec::new())?;
        Meant::of(&file, &camera(&file)?)
    });
    run(&jobs, sheet, &Shared { options, over, offsets: offsets.transpose()?, meant: meant.transpose()? })
}

/// The frames that are to be decoded, with places for their outputs and the sheet that harm no file.
fn jobs(
    options: &Options,
    files: &[Found],
    others: impl Iterator<Item = Identity>,
) -> Result<(Vec<Job>, Option<Place>), String> {
    let outputs = options.outputs();
    if let Some((_, to)) = outputs.iter().find(|(_, to)| files.len() > 1 && !to.is_dir()) {
        return Err(input::fault(to, "outputs of several files go to a folder that is there"));
    }
    let identities: Vec<Option<Identity>> = files.iter().map(|file| Identity::of_input(&file.path)).collect();
    let inputs: Vec<Identity> = identities.iter().flatten().copied().chain(others).collect();
    let wanted: Vec<Vec<(Form, PathBuf)>> = files.iter().map(|file| wanted(options, &outputs, file)).collect();
    for (file, wanted) in files.iter().zip(&wanted).filter(|(file, _)| !file.below.as_os_str().is_empty()) {
        let folders = wanted.iter().filter_map(|(_, path)| path.parent());
        folders.into_iter().try_for_each(fs::create_dir_all).map_err(|e| input::fault(&file.below, e))?;
    }
    let names = wanted.iter().flatten().map(|(_, path)| path.as_path()).chain(options.sheet.as_deref());
    let mut places = output::places(names, &inputs, options.force)?.into_iter();
    let jobs = files.iter().zip(identities).zip(wanted).map(|((file, identity), wanted)| {
        let skipped = !outputs.is_empty() && wanted.is_empty();
        let outputs = wanted.into_iter().map(|(form, _)| form).zip(places.by_ref()).collect();
        Job { path: file.path.clone(), identity, outputs, skipped }
    });
    let jobs = jobs.collect();
    Ok((jobs, places.next()))
}

/// The outputs of a frame, but for those that are there and are to be left.
fn wanted(options: &Options, outputs: &[(Form, &Path)], file: &Found) -> Vec<(Form, PathBuf)> {
    let names = outputs.iter().map(|&(form, to)| (form, output::named(form, to, file)));
    names.filter(|(_, path)| !options.skip_existing || fs::symlink_metadata(path).is_err()).collect()
}

/// Lets the workers take one file after another, and tells of each in its turn; the exit status.
fn run(jobs: &[Job], sheet: Option<Place>, shared: &Shared) -> Result<u8, String> {
    let processors = || thread::available_parallelism().map_or(1, usize::from);
    let workers = shared.options.jobs.map_or_else(processors, usize::from).min(jobs.len());
    let next = AtomicUsize::new(0);
    let (sender, outcomes) = mpsc::channel();
    thread::scope(|scope| {
        for _ in 0..workers {
            let (next, sender) = (&next, sender.clone());
            scope.spawn(move || {
                let (mut worker, mut memory) = (Worker::default(), Memory::default());
                while let Some((i, job)) =
                    Some(next.fetch_add(1, Ordering::Relaxed)).and_then(|i| Some((i, jobs.get(i)?)))
                {
                    let _ = sender.send((i, one(&mut worker, &mut memory, job, shared)));
                }
            });
        }
        drop(sender);
        let options = shared.options;
        let mut out: Box<dyn Write> = if options.to_stdout() { Box::new(io::stderr()) } else { Box::new(io::stdout()) };
        let mut teller = Teller::new(options, jobs, &mut *out);
        let done = teller.tell(outcomes.iter()).map_err(|e| format!("standard output: {e}"));
        // Where nobody listens any more, no further file is begun.
        next.store(jobs.len(), Ordering::Relaxed);
        done?;
        if let Some(place) = sheet {
            place.stage(sheet::page(&teller.cards, &teller.counts).as_bytes())?.put()?;
        }
        Ok(teller.exit())
    })
}

/// Tells what came of the files.
struct Teller<'a> {
    options: &'a Options,
    jobs: &'a [Job],
    out: &'a mut dyn Write,
    bar: ProgressBar,
    /// How wide the names are.
    width: usize,
    counts: BTreeMap<Status, usize>,
    /// How many outputs aren't written.
    faults: usize,
    cards: Vec<String>,
}

impl<'a> Teller<'a> {
    /// On a terminal with a line of how far it is.
    fn new(options: &'a Options, jobs: &'a [Job], out: &'a mut dyn Write) -> Teller<'a> {
        let bar = if jobs.len() > 1 { ProgressBar::new(jobs.len() as u64) } else { ProgressBar::hidden() };
        let style = ProgressStyle::with_template("{pos} of {len} frames, {per_sec}, {eta} left");
        let bar = bar.with_style(style.expect("a template"));
        // A name that is much longer than others doesn't push them to the right.
        let width = jobs.iter().map(|job| shown(&job.path).chars().count()).filter(|&width| width <= 40).max();
        let (counts, cards) = (BTreeMap::new(), Vec::new());
        Teller { options, jobs, out, bar, width: width.unwrap_or(0), counts, faults: 0, cards }
    }

    /// In the order of the files, and of several files how many came out how.
    fn tell(&mut self, outcomes: impl Iterator<Item = (usize, Outcome)>) -> io::Result<()> {
        let (mut early, mut turn) = (BTreeMap::new(), 0);
        for (i, outcome) in outcomes {
            early.insert(i, outcome);
            while let Some(outcome) = early.remove(&turn) {
                self.one(&self.jobs[turn].path, outcome)?;
                turn += 1;
            }
            self.bar.inc(1);
        }
        self.bar.finish_and_clear();
        if !self.options.json && !self.options.quiet && self.jobs.len() > 1 {
            self.out.write_all(summary(&self.counts, self.faults).as_bytes())?;
        }
        self.out.flush()
    }

    fn one(&mut self, path: &Path, outcome: Outcome) -> io::Result<()> {
        let Outcome { verdict, notes, mut object, fault, bytes, card } = outcome;
        *self.counts.entry(verdict.status).or_default() += 1;
        self.faults += usize::from(fault.is_some());
        self.cards.extend(Some(card).filter(|card| !card.is_empty()));
        let text = match self.options.json {
            true => {
                object.error = object.error.or_else(|| fault.clone());
                object.line()
            }
            false if self.options.quiet && !verdict.status.needs_care() => String::new(),
            false => verdict.line(&format!("{:width$}", shown(path), width = self.width)) + &notes,
        };
        let complaint = fault.filter(|_| !self.options.json).map(|fault| complaint(&fault));
        let Teller { bar, out, .. } = self;
        bar.suspend(|| {
            out.write_all(text.as_bytes())?;
            let _ = io::stderr().write_all(complaint.unwrap_or_default().as_bytes());
            io::stdout().write_all(&bytes)
        })
    }

    fn exit(&self) -> u8 {
        let exits: Vec<u8> = self.counts.keys().map(|status| status.exit()).collect();
        let faults = Some(2).filter(|_| self.faults > 0);
        faults.or_else(|| [2, 1, 3].into_iter().find(|status| exits.contains(status))).unwrap_or(0)
    }
}

/// How many frames came out how.
pub fn summary(counts: &BTreeMap<Status, usize>, faults: usize) -> String {
    let named = |status: &Status| match status {
        Status::HoldBack => "to hold back".into(),
        status => status.word().to_lowercase(),
    };
    let each = counts.iter().map(|(status, &count)| format!("{} {}", grouped(count), named(status)));
    let faults =
        Some(faults).filter(|&faults| faults > 0).map(|faults| format!("{} not written", plural(faults, "output")));
    let all = counts.values().sum();
    format!("{} frames: {}\n", grouped(all), each.chain(faults).collect::<Vec<_>>().join(", "))
}

/// Decodes one file's frame, and writes its outputs.
fn one(worker: &mut Worker, memory: &mut Memory, job: &Job, shared: &Shared) -> Outcome {
    if job.skipped {
        let verdict = Verdict::new(Status::Skipped, "its outputs are there");
        return Outcome::new(verdict, Object::of(&job.path, Status::Skipped));
    }
    let input = Input::read(&job.path, job.identity, mem::take(&mut memory.input));
    let outcome = input.and_then(|file| {
        let outcome = decode(worker, memory, &file, job, shared);
        memory.input = file.bytes;
        outcome
    });
    outcome.unwrap_or_else(|fault| {
        let why = fault.strip_prefix(&format!("{}: ", shown(&job.path))).unwrap_or(&fault);
        let verdict = Verdict::new(Status::Unreadable, input::escaped(why));
        let wanted = shared.options.sheet.is_some();
        let card = wanted.then(|| sheet::card(&shown(&job.path), &verdict, None, shared.options.picture));
        let mut object = Object::of(&job.path, Status::Unreadable);
        object.error = Some(fault.clone());
        Outcome { card: card.unwrap_or_default(), ..Outcome::new(verdict, object) }
    })
}

/// What came of a file that has a frame.
fn decode(
    worker: &mut Worker,
    memory: &mut Memory,
    file: &Input,
    job: &Job,
    shared: &Shared,
) -> Result<Outcome, String> {
    let Shared { options, over, offsets, meant } = shared;
    let frame = match options.bare() {
        None => camera(file)?,
        Some((width, height)) => {
            let coding = offsets.as_ref().map_or(Coding::V2, |offsets| Coding::V0(offsets.clone()));
            Frame::new(coding, width, height, &file.bytes)
        }
    };
    if let Some(meant) = meant {
        let checked = meant.check(worker, &frame).map_err(|fault| file.fault(fault))?;
        let object = Object::of_packed(&job.path, &frame, checked.answer, checked.verdict.status);
        return Ok(Outcome::new(checked.verdict, object));
    }
    let over_frame = over.as_ref().map(|(_, frame)| frame);
    let wanted = Wanted { clean: options.clean, blank: options.blank };
    // What is told does not depend on what the buffer holds, nor does a clean frame; what is written of others does.
    let written = !job.outputs.is_empty() || options.sheet.is_some();
    let look = Look::at(worker, &frame, over_frame, wanted).map_err(|fault| file.fault(fault))?;
    let depends = written && look.decoded.is_some_and(|decoded| !decoded.clean);
    let look = match depends {
        false => look,
        true => {
            worker.clear();
            Look::at(worker, &frame, over_frame, wanted).map_err(|fault| file.fault(fault))?
        }
    };
    let verdict = Verdict::of(&look);
    let object = match options.json {
        true => Object::of_frame(&job.path, &frame, &look, verdict.status, !options.no_runs),
        false => Object::of(&job.path, verdict.status),
    };
    let mut outcome = Outcome { notes: notes(job, &look, &frame, shared), ..Outcome::new(verdict, object) };
    match write(memory, job, &look, options) {
        Ok(bytes) => outcome.bytes = bytes,
        Err(fault) => outcome.fault = Some(fault),
    }
    if options.sheet.is_some() {
        outcome.card = sheet::card(&file.name(), &outcome.verdict, look.decoded, options.picture);
    }
    Ok(outcome)
}

/// What follows the verdict: the details where they are asked for, what was blanked, and what is to be known of what is stored.
fn notes(job: &Job, look: &Look, frame: &Frame, shared: &Shared) -> String {
    let mut text = String::new();
    let verbose = shared.options.verbose;
    if verbose {
        if let Some(((name, over), answer)) = shared.over.as_ref().zip(look.over) {
            text += &format!("  over {name}: {}, {}\n", report::heading(over), report::answer(answer));
        }
        text += &report::details(look, frame);
    }
    if let Some((fill, runs)) = &look.blanked {
        text += &report::blanked(runs, *fill);
        text += &if verbose { report::blanked_columns(runs) } else { String::new() };
    }
    let marks = look.decoded.map(|decoded| decoded.marks);
    for (form, place) in job.outputs.iter().filter(|(form, _)| form.is_stored()) {
        // As V2 a frame with marks is refused, and of a blanked one nothing old is left.
        let told = marks.filter(|_| *form == Form::V0 && look.blanked.is_none());
        text += &report::stored(place.name(), look.answer, told);
    }
    text
}

/// Writes the outputs of a frame: all of them are whole before the first is put in its place. What goes to standard output is
/// handed back.
fn write(memory: &mut Memory, job: &Job, look: &Look, options: &Options) -> Result<Vec<u8>, String> {
    let Some(decoded) = look.decoded else { return Ok(Vec::new()) };
    // A picture shows what there is of a refused frame; stored it would pass for a whole one.
    let written = job.outputs.iter().filter(|(form, _)| !form.is_stored() || look.answer.is_ok());
    let (mut staged, mut to_stdout) = (Vec::new(), Vec::new());
    for (form, place) in written {
        let bytes = form::file(*form, decoded, options.picture, memory).map_err(|what| place.fault(what))?;
        if place.is_stdout() {
            to_stdout = bytes;
        } else {
            staged.push(place.stage(&bytes)?);
            memory.output = bytes;
        }
    }
    staged.into_iter().try_for_each(Staged::put)?;
    Ok(to_stdout)
}

fn camera(file: &Input) -> Result<Frame<'_>, String> {
    srw::frame(&file.bytes).map_err(|fault| file.fault(fault))
}

#[cfg(test)]
mod tests {
    use super::*;

    #[test]
    fn a_folder_in_a_line() {
        let counts = BTreeMap::from([(Status::Refused, 1), (Status::Clean, 1_200), (Status::HoldBack, 3)]);
        assert_eq!(summary(&counts, 0), "1,204 frames: 1,200 clean, 3 to hold back, 1 refused\n");
        assert_eq!(summary(&BTreeMap::from([(Status::Taken, 2)]), 1), "2 frames: 2 taken, 1 output not written\n");
    }

    /// The second file is done first; what is told comes in the files' order.
    #[test]
    fn files_are_told_in_their_order() {
        let options = options::read(["x".into()]).expect("a line");
        let job = |name: &str| Job { path: name.into(), identity: None, outputs: Vec::new(), skipped: false };
        let jobs = ["a", "long"].map(job);
        let mut out = Vec::new();
        let mut teller = Teller::new(&options, &jobs, &mut out);
        let of = |i: usize, status| (i, Outcome::new(Verdict::new(status, "why"), Object::of(&jobs[i].path, status)));
        teller.tell([of(1, Status::Refused), of(0, Status::HoldBack)].into_iter()).expect("there is room");
        assert_eq!(teller.exit(), 1);
        let told = "a     HOLD BACK  why\nlong  REFUSED  why\n2 frames: 1 to hold back, 1 refused\n";
        assert_eq!(String::from_utf8_lossy(&out), told);
    }
}
