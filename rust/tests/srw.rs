//! A camera's files: made, broken off, in either order of bytes, and made to do harm. The directories that are written by hand
//! here share nothing with what the crate writes.

use razvolk::srw::{Coding, Colour, Fault, Frame, V2Header, frame};
use streams::images::christening;
use streams::{v0, v2};

/// Types of an entry's numbers.
const SHORT: u16 = 3;
const LONG: u16 = 4;

/// A file of one directory of single numbers, lowest byte first: tag, type, value.
fn by_hand(entries: &[(u16, u16, u32)]) -> Vec<u8> {
    let mut bytes = b"II*\0\x08\0\0\0".to_vec();
    bytes.extend((entries.len() as u16).to_le_bytes());
    for (tag, kind, value) in entries {
        bytes.extend(tag.to_le_bytes());
        bytes.extend(kind.to_le_bytes());
        bytes.extend(1u32.to_le_bytes());
        bytes.extend(value.to_le_bytes());
    }
    bytes.extend([0; 4]);
    bytes
}

/// A V2 file whose tag 40976 says that it is Samsung's.
fn tagged(width: u32, height: u32) -> Vec<u8> {
    by_hand(&[(256, LONG, width), (257, LONG, height), (259, SHORT, 32_773), (273, LONG, 9), (40_976, LONG, 9)])
}

/// A V0 frame of 20 by 5 in its file; the table stands right before the strip.
fn small() -> (streams::Frame, Vec<u8>) {
    let made = v0::encode::with_band(&christening(20, 5), 20, 5, 1);
    let file = Frame::new(Coding::V0(made.offsets.clone()), 20, 5, &made.stream).to_file();
    (made, file)
}

#[test]
fn what_is_written_is_read() {
    let (made, file) = small();
    let mut expected = Frame::new(Coding::V0(made.offsets.clone()), 20, 5, &made.stream);
    (expected.model, expected.bits) = (Some("Razvolk"), Some(14));
    assert_eq!(frame(&file), Ok(expected.clone()));
    for model in ["NX", "NX300", "a model whose name is long"] {
        (expected.model, expected.bits) = (Some(model), Some(12));
        assert_eq!(frame(&expected.to_file()), Ok(expected.clone()));
    }
    use Colour::{Blue, Green, Red};
    for colours in [[Red, Green, Green, Blue], [Green, Blue, Red, Green]] {
        expected.colour_filter = Some(colours);
        assert_eq!(frame(&expected.to_file()), Ok(expected.clone()));
        for orientation in 1..=8 {
            expected.orientation = Some(orientation);
            assert_eq!(frame(&expected.to_file()), Ok(expected.clone()));
        }
    }
    let mut none = Frame::new(Coding::V2, 0, 0, &[]);
    (none.model, none.bits) = (Some("Razvolk"), Some(14));
    assert_eq!(frame(&none.to_file()), Ok(none));
}

/// What dcraw and LibRaw go by: the maker's name in the first directory, and tag 40976 beside the compression, in V2 too.
#[test]
fn other_readers_find_what_they_go_by() {
    for coding in [Coding::V0(vec![0; 5]), Coding::V2] {
        let compression: u16 = if coding == Coding::V2 { 32_773 } else { 32_770 };
        let mut made = Frame::new(coding, 20, 5, b"stream");
        made.colour_filter = Some([Colour::Green, Colour::Red, Colour::Blue, Colour::Green]);
        made.orientation = Some(8);
        let file = made.to_file();
        let short = |at: usize| u16::from_le_bytes([file[at], file[at + 1]]);
        let long = |at: usize| u32::from_le_bytes(file[at..at + 4].try_into().expect("four bytes")) as usize;
        let entry = |directory: usize, tag: u16| {
            let entries = (0..usize::from(short(directory))).map(|i| directory + 2 + 12 * i);
            entries.into_iter().find(|&at| short(at) == tag).expect("an entry") + 8
        };
        let tags = |directory: usize| (0..usize::from(short(directory))).map(move |i| short(directory + 2 + 12 * i));
        assert!(file[long(entry(8, 271))..].starts_with(b"SAMSUNG\0"));
        assert_eq!(short(entry(8, 274)), 8);
        let raw = long(entry(8, 330));
        assert_eq!(file[entry(raw, 33_421)..][..4], [2, 0, 2, 0]);
        assert_eq!(file[entry(raw, 33_422)..][..4], [1, 0, 2, 1]);
        assert!(tags(8).is_sorted() && tags(raw).is_sorted());
        assert_eq!((short(entry(raw, 259)), long(entry(raw, 256)), long(entry(raw, 257))), (compression, 20, 5));
        assert_eq!(&file[long(entry(raw, 273))..], b"stream");
        let table = if compression == 32_770 { 20 } else { 0 };
        assert_eq!(long(entry(raw, 40_976)) + table, long(entry(raw, 273)));
    }
}

#[test]
fn packbits_is_not_taken_for_v2() {
    let entries = [(256, LONG, 646), (257, LONG, 436), (259, SHORT, 32_773), (273, LONG, 9)];
    assert_eq!(frame(&by_hand(&entries)), Err(Fault::PackBits));
    assert!(frame(&tagged(646, 436)).is_ok());
    // The maker's name says so, too: Sam.. in five bytes at the file's end.
    for (make, is_samsung) in [("SAMSUNG", true), ("Samsung Techwin", true), ("Sam", false), ("\u{1}SAMSUNG", false)] {
        let mut file = by_hand(&[&entries[..], &[(271, 2, 0)]].concat());
        let at = file.len() as u32;
        let entry = 10 + 12 * 4;
        file[entry + 4..entry + 8].copy_from_slice(&(make.len().max(5) as u32).to_le_bytes());
        file[entry + 8..entry + 12].copy_from_slice(&at.to_le_bytes());
        file.extend(make.bytes().chain([0; 5]));
        assert_eq!(frame(&file).is_ok(), is_samsung, "{make}");
    }
}

#[test]
fn v2_s_own_header_is_told() {
    let made = v2::encode(&christening(646, 436), 646, 436);
    let header = Some(V2Header { width: 646, height: 436, depth: 14 });
    assert_eq!(Frame::new(Coding::V2, 646, 436, &made.stream).v2_header(), header);
    assert_eq!(Frame::new(Coding::V2, 646, 436, &made.stream[..15]).v2_header(), None);
    assert_eq!(Frame::new(Coding::V0(vec![]), 646, 436, &made.stream).v2_header(), None);
}

/// A V2 file with more entries, of which the count and the value of each are given.
fn tagged_with(more: &[(u16, u16, u32, u32)]) -> Vec<u8> {
    let first = [(256, LONG, 646), (257, LONG, 436), (259, SHORT, 32_773), (273, LONG, 9), (40_976, LONG, 9)];
    let more_entries = more.iter().map(|&(tag, kind, _, value)| (tag, kind, value));
    let mut file = by_hand(&first.into_iter().chain(more_entries).collect::<Vec<_>>());
    for (i, (_, _, count, _)) in more.iter().enumerate() {
        file[10 + 12 * (5 + i) + 4..][..4].copy_from_slice(&count.to_le_bytes());
    }
    file
}

#[test]
fn the_colour_filter_is_told_if_it_is_2_by_2() {
    use Colour::{Blue, Green, Red};
    let told = |more: &[(u16, u16, u32, u32)]| frame(&tagged_with(more)).expect("a frame").colour_filter;
    let (size, pattern) = ((33_421, SHORT, 2, 0x0002_0002), (33_422, 1, 4, 0x0201_0100));
    assert_eq!(told(&[size, pattern]), Some([Red, Green, Green, Blue]));
    assert_eq!(told(&[pattern]), Some([Red, Green, Green, Blue]), "without a size");
    assert_eq!(told(&[size, (33_422, 1, 4, 0x0100_0201)]), Some([Green, Blue, Red, Green]));
    let none = [
        vec![],
        vec![size],
        // Other sizes, one number alone, text, and a type that isn't read.
        vec![(33_421, SHORT, 2, 0x0002_0001), pattern],
        vec![(33_421, SHORT, 1, 2), pattern],
        vec![(33_421, SHORT, 3, 8), pattern],
        vec![size, (33_422, 2, 4, 0x0201_0100)],
        vec![size, (33_422, 7, 4, 0x0201_0100)],
        // Cyan, three or six colours, and a place beyond the file.
        vec![size, (33_422, 1, 4, 0x0301_0100)],
        vec![size, (33_422, 1, 3, 0x0001_0100)],
        vec![size, (33_422, 1, 6, 8)],
        vec![size, (33_422, LONG, 4, u32::MAX)],
    ];
    for more in none {
        assert_eq!(told(&more), None, "{more:?}");
    }
}

#[test]
fn the_orientation_is_the_raw_directory_s_or_the_first_s() {
    let told = |number| frame(&tagged_with(&[(274, SHORT, 1, number)])).expect("a frame").orientation;
    for number in 1..=8 {
        assert_eq!(told(number), Some(number as u8));
    }
    for number in [0, 9, 255, 256 + 6] {
        assert_eq!(told(number), None, "{number}");
    }
    // One above with orientation 3 and its own, or none, in the one below.
    for (own, orientation) in [(6, 6), (0, 3)] {
        let above = by_hand(&[(274, SHORT, 3), (330, LONG, 8 + 2 + 24 + 4)]);
        let below = tagged_with(&[(274, SHORT, 1, own)]);
        let file = [&above, &below[8..]].concat();
        assert_eq!(frame(&file).expect("a frame").orientation, Some(orientation));
    }
}

#[test]
fn the_highest_byte_may_come_first() {
    let raw = [
        [0x01, 0x12, 0, 3, 0, 0, 0, 1, 0, 6, 0, 0],
        [0x82, 0x8d, 0, 3, 0, 0, 0, 2, 0, 2, 0, 2],
        [0x82, 0x8e, 0, 1, 0, 0, 0, 4, 0, 1, 1, 2],
        [0x01, 0x00, 0, 4, 0, 0, 0, 1, 0, 0, 2, 0x86],
        [0x01, 0x01, 0, 3, 0, 0, 0, 1, 1, 0xb4, 0, 0],
        [0x01, 0x03, 0, 3, 0, 0, 0, 1, 0x80, 0x05, 0, 0],
        [0x01, 0x11, 0, 4, 0, 0, 0, 1, 0, 0, 0, 9],
        [0xa0, 0x10, 0, 4, 0, 0, 0, 1, 0, 0, 0, 9],
    ];
    let file = [&b"MM\0*\0\0\0\x0a--\0\x08"[..], raw.as_flattened(), &[0; 4]].concat();
    let found = frame(&file).expect("a frame");
    assert_eq!((found.width, found.height, found.coding), (646, 436, Coding::V2));
    assert_eq!(found.colour_filter, Some([Colour::Red, Colour::Green, Colour::Green, Colour::Blue]));
    assert_eq!(found.orientation, Some(6));
    assert_eq!(found.stream, &file[9..], "without a count the strip goes on to the file's end");
}

#[test]
fn a_file_broken_off_is_found_as_far_as_it_goes() {
    let (made, file) = small();
    let strip = file.len() - made.stream.len();
    // The raw directory's entries end where the table begins, but for the last, which isn't needed, and the chain's end.
    let entries = strip - 20 - 4 - 12;
    for len in 0..file.len() {
        match frame(&file[..len]) {
            Err(Fault::NotTiff) => assert!(len < 4),
            Err(Fault::NoFrame(_) | Fault::Uncompressed | Fault::Missing(_)) => {
                assert!((4..entries).contains(&len), "{len}")
            }
            Err(Fault::Table { rows, height: 5 }) => {
                assert!((entries..strip).contains(&len), "{len}");
                assert_eq!(rows, (len + 20).saturating_sub(strip) / 4, "{len}");
            }
            Err(fault) => panic!("{len}: {fault}"),
            Ok(found) => {
                assert_eq!((found.stream, found.missing), (&made.stream[..len - strip], file.len() - len));
            }
        }
    }
}

#[test]
fn files_that_would_do_harm() {
    // Sizes without end cost no memory.
    for (width, height) in [(u32::MAX, u32::MAX), (16_385, 0), (0, u32::MAX)] {
        let file = tagged(width, height);
        let found = frame(&file).expect("a frame");
        assert_eq!((found.width, found.height), (width as usize, height as usize));
    }
    // A strip past the file's end is an empty stream.
    let mut past = tagged(646, 436);
    past[54..58].fill(0xff);
    assert_eq!(frame(&past).expect("a frame").stream, []);
    // Directories in a ring, and one that names itself many times over.
    let mut ring = by_hand(&[(330, LONG, 8)]);
    ring[22..26].copy_from_slice(&8u32.to_le_bytes());
    assert_eq!(frame(&ring), Err(Fault::NoFrame(vec![])));
    ring[14..18].fill(0xff);
    assert_eq!(frame(&ring), Err(Fault::NoFrame(vec![])));
    // As many entries as can be told, of which the file has few.
    let mut long = tagged(646, 436);
    long[8..10].fill(0xff);
    assert!(frame(&long).is_ok());
}

#[test]
fn files_without_a_frame() {
    let size = [(256, LONG, 20), (257, LONG, 5)];
    let with = |more: &[(u16, u16, u32)]| frame(&by_hand(&[&size, more].concat())).unwrap_err();
    assert_eq!(frame(b""), Err(Fault::NotTiff));
    assert_eq!(frame(b"II*\0\xff\xff\xff\xff"), Err(Fault::NoFrame(vec![])));
    assert_eq!(with(&[(259, SHORT, 7)]), Fault::NoFrame(vec![7]));
    let text = "no Samsung V0 (32770) or V2 (32773): the file has compression 6, 7";
    assert_eq!(Fault::NoFrame(vec![6, 7]).to_string(), text);
    assert_eq!(with(&[(259, SHORT, 32_770)]), Fault::Uncompressed);
    assert_eq!(with(&[(259, SHORT, 32_772)]), Fault::V1);
    assert_eq!(with(&[(259, SHORT, 32_773), (40_976, LONG, 9)]), Fault::Missing(273));
    // 5 is no type of whole numbers.
    assert_eq!(with(&[(259, SHORT, 32_773), (273, 5, 8), (40_976, LONG, 9)]), Fault::Missing(273));
    assert_eq!(with(&[(259, SHORT, 32_770), (273, LONG, 8), (40_976, LONG, 99)]), Fault::Table { rows: 0, height: 5 });
    let mut strips = tagged(20, 5);
    strips[50] = 2;
    assert_eq!(frame(&strips), Err(Fault::Strips(2)));
}
