//! TIFF, as far as a camera's file needs it. Nothing that a file says is believed beyond the file's own end.

use super::tag;
use std::collections::VecDeque;

/// How many directories are looked at; a camera writes a handful.
const MOST_DIRECTORIES: usize = 64;

pub(super) struct Tiff<'a> {
    pub bytes: &'a [u8],
    lowest_first: bool,
}

/// Where a directory's entries begin, and how many of them the file has.
#[derive(Clone, Copy)]
pub(super) struct Directory {
    at: usize,
    entries: usize,
}

/// The values of an entry: their type, where they stand, and how many.
pub(super) struct Entry {
    kind: u16,
    at: usize,
    pub count: u32,
}

impl Entry {
    /// How many bytes a number has; none where the values are no whole numbers.
    fn size(&self) -> Option<usize> {
        size(self.kind).filter(|_| self.kind != tag::ASCII)
    }
}

/// How many bytes a value of a type has, of the types that are read: bytes, text, and whole numbers.
fn size(kind: u16) -> Option<usize> {
    match kind {
        tag::BYTE | tag::ASCII => Some(1),
        tag::SHORT => Some(2),
        tag::LONG | 13 => Some(4),
        _ => None,
    }
}

impl<'a> Tiff<'a> {
    pub fn open(bytes: &'a [u8]) -> Option<Tiff<'a>> {
        let lowest_first = match bytes.get(..4)? {
            b"II*\0" => true,
            b"MM\0*" => false,
            _ => return None,
        };
        Some(Tiff { bytes, lowest_first })
    }

    /// The number of 1, 2 or 4 bytes at a place.
    fn at(&self, at: usize, size: usize) -> Option<u32> {
        let bytes = self.bytes.get(at..at.checked_add(size)?)?;
        let join = |number, byte: &u8| number << 8 | u32::from(*byte);
        Some(if self.lowest_first { bytes.iter().rev().fold(0, join) } else { bytes.iter().fold(0, join) })
    }

    /// The main directories and those below them, from the first on. A file may tie them to a ring: their number is limited.
    pub fn directories(&self) -> Vec<Directory> {
        let mut coming: VecDeque<u32> = self.at(4, 4).into_iter().collect();
        let mut found = Vec::new();
        while let Some(at) = coming.pop_front().filter(|_| found.len() < MOST_DIRECTORIES) {
            let Some(told) = self.at(at as usize, 2) else { continue };
            let at = at as usize + 2;
            let within = self.bytes.len().saturating_sub(at) / 12;
            let directory = Directory { at, entries: within.min(told as usize) };
            found.push(directory);
            if let Some(below) = self.entry(directory, tag::SUB_DIRECTORIES) {
                let numbers = (0..below.count.min(MOST_DIRECTORIES as u32)).map_while(|i| self.nth(&below, i));
                coming.extend(numbers);
            }
            coming.extend(self.at(at + 12 * told as usize, 4).filter(|&next| next != 0));
        }
        found
    }

    /// The first entry with a tag, if it has values of a type that is read.
    pub fn entry(&self, directory: Directory, tag: u16) -> Option<Entry> {
        let mut places = (0..directory.entries).map(|i| directory.at + 12 * i);
        let at = places.find(|&at| self.at(at, 2) == Some(u32::from(tag)))?;
        let kind = self.at(at + 2, 2)? as u16;
        let count = self.at(at + 4, 4).filter(|&count| count > 0)?;
        // Up to four bytes stand in the entry itself.
        let at = if size(kind)? * count as usize <= 4 { at + 8 } else { self.at(at + 8, 4)? as usize };
        Some(Entry { kind, at, count })
    }

    fn nth(&self, entry: &Entry, i: u32) -> Option<u32> {
        let size = entry.size()?;
        self.at(entry.at + size * i as usize, size)
    }

    /// The numbers of an entry that has exactly `N` of them.
    pub fn numbers<const N: usize>(&self, directory: Directory, tag: u16) -> Option<[u32; N]> {
        let entry = self.entry(directory, tag).filter(|entry| entry.count as usize == N)?;
        let mut numbers = [0; N];
        for (i, number) in numbers.iter_mut().enumerate() {
            *number = self.nth(&entry, i as u32)?;
        }
        Some(numbers)
    }

    /// The first number of an entry.
    pub fn number(&self, directory: Directory, tag: u16) -> Option<u32> {
        self.nth(&self.entry(directory, tag)?, 0)
    }

    /// The text of an entry, without the zeros and spaces that end it; none where it is no plain text.
    pub fn text(&self, directory: Directory, tag: u16) -> Option<&'a str> {
        let entry = self.entry(directory, tag).filter(|entry| entry.kind == tag::ASCII)?;
        let bytes = self.bytes.get(entry.at..)?;
        let text = str::from_utf8(&bytes[..bytes.len().min(entry.count as usize)]).ok()?;
        let text = text.split('\0').next()?.trim();
        (!text.is_empty() && text.chars().all(|c| (' '..='~').contains(&c))).then_some(text)
    }
}
