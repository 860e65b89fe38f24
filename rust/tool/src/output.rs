//! Files that are written, without harm to others: an input is never written over, another file only by force, and what
//! stands under a name at any moment is whole, the old file or the new. An output has no name until it is whole, where the file
//! system can do that; elsewhere one that a signal's end takes away.

use crate::form::Form;
use crate::input::{Found, Identity, fault, is_stdin};
use crate::signals;
use nix::fcntl::OFlag;
use nix::unistd::{LinkatFlags, linkat};
use std::collections::HashSet;
use std::fmt::Display;
use std::fs::{self, File, Metadata, OpenOptions, Permissions};
use std::io::{self, ErrorKind, Write};
use std::os::fd::AsRawFd;
use std::os::unix::ffi::OsStrExt;
use std::os::unix::fs::OpenOptionsExt;
use std::path::{Path, PathBuf};
use std::process;
use std::sync::atomic::{AtomicUsize, Ordering};

/// Where an output of a frame goes that is written to a file, to standard output, or into a folder that is there: below that
/// in the folders that the frame has below the one that was named.
pub fn named(form: Form, to: &Path, frame: &Found) -> PathBuf {
    if is_stdin(to) || !to.is_dir() {
        return to.into();
    }
    let stem = frame.path.file_stem().filter(|stem| *stem != "-").unwrap_or("stdin".as_ref());
    let mut name = stem.to_os_string();
    name.push(form.ending());
    to.join(&frame.below).join(name)
}

/// Where an output goes.
#[derive(Clone, Debug)]
pub struct Place {
    /// As the user calls it.
    name: PathBuf,
    /// Where that leads, with no link on the way.
    path: PathBuf,
    /// The permissions of the file that is replaced there; none where there is no file.
    replaced: Option<Permissions>,
}

/// The places of all outputs, if none of them would harm a file: an input, or without `force` any that is there.
pub fn places<'a>(
    outputs: impl Iterator<Item = &'a Path>,
    inputs: &[Identity],
    force: bool,
) -> Result<Vec<Place>, String> {
    let (mut places, mut taken) = (Vec::new(), HashSet::new());
    for name in outputs {
        let place = match fs::metadata(name) {
            _ if is_stdin(name) => Ok(Place { name: name.into(), path: name.into(), replaced: None }),
            Ok(there) => Place::of_file(name, &there, inputs, force),
            Err(e) if e.kind() == ErrorKind::NotFound => Place::of_nothing(name),
            Err(e) => Err(e.to_string()),
        };
        let place = place.map_err(|what| fault(name, what))?;
        if !taken.insert(place.path.clone()) {
            return Err(place.fault("two outputs can't be one file"));
        }
        places.push(place);
    }
    Ok(places)
}

impl Place {
    /// A file that is there, by its own name or by links.
    fn of_file(name: &Path, there: &Metadata, inputs: &[Identity], force: bool) -> Result<Place, String> {
        if inputs.contains(&Identity::of(there)) {
            return Err("this file is read, and never written over".into());
        }
        if !there.is_file() {
            return Err("there already, and not a regular file".into());
        }
        if !force {
            return Err("there already; --force replaces it".into());
        }
        let path = fs::canonicalize(name).map_err(|e| e.to_string())?;
        Ok(Place { name: name.into(), path, replaced: Some(there.permissions()) })
    }

    /// A name that leads to no file.
    fn of_nothing(name: &Path) -> Result<Place, String> {
        if fs::symlink_metadata(name).is_ok() {
            return Err("there already, and a link to nothing".into());
        }
        // Only a folder is called so; a path leaves the end out.
        if [&b"/"[..], b"/."].iter().any(|end| name.as_os_str().as_bytes().ends_with(end)) {
            return Err("no such folder".into());
        }
        let folder = name.parent().filter(|folder| *folder != Path::new("")).unwrap_or(Path::new("."));
        let folder = fs::canonicalize(folder).map_err(|e| e.to_string())?;
        let file = name.file_name().ok_or("no name of a file")?;
        Ok(Place { name: name.into(), path: folder.join(file), replaced: None })
    }

    /// What is wrong with the output, under its name.
    pub fn fault(&self, what: impl Display) -> String {
        fault(&self.name, what)
    }

    /// As the user calls it.
    pub fn name(&self) -> &Path {
        &self.name
    }

    /// Whether it is standard output.
    pub fn is_stdout(&self) -> bool {
        is_stdin(&self.name)
    }

    /// Writes a file that has no name yet, or one beside the place that no other file has.
    pub fn stage(&self, bytes: &[u8]) -> Result<Staged, String> {
        let staged = Staged { file: NewFile::beside(&self.path).map_err(|e| self.fault(e))?, place: self.clone() };
        staged.fill(bytes).map_err(|e| self.fault(e))?;
        Ok(staged)
    }
}

/// A file that is not whole yet.
#[derive(Debug)]
enum NewFile {
    /// It is gone when the tool ends, however that comes.
    Unnamed(File),
    /// It is listed among the unfinished ones.
    Named(File, PathBuf),
}

impl NewFile {
    /// In the folder of a path.
    fn beside(path: &Path) -> io::Result<NewFile> {
        let folder = path.parent().unwrap_or(Path::new("/"));
        let unnamed = OpenOptions::new().write(true).custom_flags(OFlag::O_TMPFILE.bits()).open(folder);
        match unnamed {
            // It gets its name by the kernel's list of open files.
            Ok(file) if link_to(&file).exists() => Ok(NewFile::Unnamed(file)),
            Err(e) if [ErrorKind::StorageFull, ErrorKind::ReadOnlyFilesystem].contains(&e.kind()) => Err(e),
            _ => NewFile::named_beside(path),
        }
    }

    fn named_beside(path: &Path) -> io::Result<NewFile> {
        let mut unfinished = signals::hold();
        let new = free_name(path);
        let file = OpenOptions::new().write(true).create_new(true).open(&new)?;
        unfinished.insert(new.clone());
        Ok(NewFile::Named(file, new))
    }

    fn file(&self) -> &File {
        let (NewFile::Unnamed(file) | NewFile::Named(file, _)) = self;
        file
    }

    /// Gives it this name, which fails where a file has it.
    fn link(&self, name: &Path) -> io::Result<()> {
        match self {
            NewFile::Unnamed(file) => {
                Ok(linkat(None, link_to(file).as_path(), None, name, LinkatFlags::SymlinkFollow)?)
            }
            NewFile::Named(_, new) => put_where_nothing_is(new, name),
        }
    }

    /// Puts it in the place of another file. An unnamed one gets a name for that moment, in which no signal ends the tool.
    fn replace(&self, name: &Path) -> io::Result<()> {
        let _held = signals::hold();
        match self {
            NewFile::Named(_, new) => fs::rename(new, name),
            NewFile::Unnamed(_) => {
                let new = free_name(name);
                self.link(&new)?;
                fs::rename(&new, name).inspect_err(|_| drop(fs::remove_file(&new)))
            }
        }
    }
}

impl Drop for NewFile {
    fn drop(&mut self) {
        if let NewFile::Named(_, new) = self {
            let mut unfinished = signals::hold();
            // After a move there is nothing left to remove.
            let _ = fs::remove_file(&*new);
            unfinished.remove(new);
        }
    }
}

/// Where the kernel lists an open file.
fn link_to(file: &File) -> PathBuf {
    format!("/proc/self/fd/{}", file.as_raw_fd()).into()
}

/// A name beside a file that no other has or had: a worker whose file was moved takes its name away, and would take another's.
fn free_name(path: &Path) -> PathBuf {
    static NEXT: AtomicUsize = AtomicUsize::new(0);
    loop {
        let number = NEXT.fetch_add(1, Ordering::Relaxed);
        let name = path.with_file_name(format!(".razvolk-{}-{number}", process::id()));
        if fs::symlink_metadata(&name).is_err() {
            return name;
        }
    }
}

/// A whole file that isn't in its place yet.
#[derive(Debug)]
pub struct Staged {
    file: NewFile,
    place: Place,
}

impl Staged {
    fn fill(&self, bytes: &[u8]) -> io::Result<()> {
        let mut file = self.file.file();
        file.write_all(bytes)?;
        if let Some(permissions) = &self.place.replaced {
            file.set_permissions(permissions.clone())?;
            // The old file is gone when the machine stops after the move; the new one must be there.
            file.sync_all()?;
        }
        Ok(())
    }

    /// Puts the file in its place.
    pub fn put(self) -> Result<(), String> {
        let Staged { file, place } = &self;
        let put = match place.replaced {
            Some(_) => file.replace(&place.path),
            None => file.link(&place.path),
        };
        put.map_err(|e| place.fault(e))
    }
}

/// Gives a file a second name, which fails where a file has come in the meantime, as a move does not. Only a file system that
/// has no second names leaves a moment between the test and the move.
fn put_where_nothing_is(new: &Path, path: &Path) -> io::Result<()> {
    match fs::hard_link(new, path) {
        Err(e) if e.kind() != ErrorKind::AlreadyExists && fs::symlink_metadata(path).is_err() => fs::rename(new, path),
        done => done,
    }
}

#[cfg(test)]
mod tests {
    use super::*;

    /// Where unfinished files have names: one worker's file is moved, another begins one, and the first tidies up.
    #[test]
    fn a_worker_takes_away_its_own_file_alone() {
        let folder = std::env::temp_dir().join(format!("razvolk-names-{}", process::id()));
        fs::create_dir_all(&folder).expect("a folder");
        let mine = NewFile::named_beside(&folder.join("x.pgm")).expect("a file");
        mine.replace(&folder.join("x.pgm")).expect("it is moved");
        let other = NewFile::named_beside(&folder.join("y.pgm")).expect("a file");
        drop(mine);
        other.replace(&folder.join("y.pgm")).expect("it is there");
        fs::remove_dir_all(&folder).expect("it was there");
    }

    #[test]
    fn a_file_that_comes_in_the_meantime_stays() {
        let folder = std::env::temp_dir().join(format!("razvolk-output-{}", process::id()));
        fs::create_dir_all(&folder).expect("a folder");
        let name = folder.join("x.pgm");
        for force in [false, true] {
            let places = places([name.as_path()].into_iter(), &[], force).expect("nothing is there");
            let staged = places[0].stage(b"new").expect("a file beside it");
            fs::write(&name, "another's").expect("a file is written");
            assert_eq!(staged.put(), Err(fault(&name, "File exists (os error 17)")));
            let names: Vec<_> = fs::read_dir(&folder).expect("a folder").map(|e| e.expect("a file").path()).collect();
            assert_eq!((names, fs::read(&name).ok()), (vec![name.clone()], Some(b"another's".to_vec())));
            fs::remove_file(&name).expect("it was there");
        }
        fs::remove_dir(&folder).expect("nothing else is in it");
    }
}
