//! Who decodes a frame: samsung.rs, and each of Razvolk's entries, all into the same buffers.

use crate::measure::Contender;
use compare::bands::Cut;
use compare::call::{Ask, Decoder, Entry, Lent, razvolk_of};
use razvolk::Bands;
use std::cell::RefCell;
use std::rc::Rc;
use streams::{Frame, Version};

/// The buffers that all contenders share. They are not cleared between runs.
pub struct Buffers {
    samples: Vec<u16>,
    map: Vec<u8>,
    scratch: Vec<u8>,
}

impl Buffers {
    pub fn new(frame: &Frame) -> RefCell<Buffers> {
        let n = frame.samples();
        let scratch = vec![1; razvolk::scratch_len(frame.width, frame.height)];
        RefCell::new(Buffers { samples: vec![1; n], map: vec![1; n], scratch })
    }
}

/// A decoder of samsung.rs.
type Rust = fn(&Frame, &mut [u16]) -> reference::Result<()>;

/// samsung.rs's decoders of a version; Razvolk's are compared with the first, the two-phase ones with the second.
fn rust(version: Version) -> &'static [(&'static str, Rust)] {
    match version {
        Version::V0 => &[
            ("Rust decode_v0_reference", |f, out| {
                reference::decode_v0_reference(&f.stream, &f.offsets, f.width, f.height, out)
            }),
            ("Rust decode_v0_with(.., false)", |f, out| {
                reference::decode_v0_with(&f.stream, &f.offsets, f.width, f.height, out, false)
            }),
        ],
        Version::V2 => &[("Rust decode_v2", |f, out| reference::decode_v2(&f.stream, f.width, f.height, out))],
    }
}

/// A name, and how the frame is cut for it.
type Named = (&'static str, Cut);

/// How an entry is run. The one in bands is, with eight bands, or as many as there can be, in blocks of 256 columns, in two
/// sequences.
fn runs(entry: &Entry, frame: &Frame) -> Vec<Named> {
    let (count, block_width) = (Bands::most(frame.height).min(8), 256);
    match Bands::new(frame.width, frame.height, count, block_width) {
        Some(bands) if entry.decoder == Decoder::Bands => {
            let cut = |steps| Cut { bands: count, block_width, steps };
            vec![
                ("decode_v0_bands, band by band", cut(bands.by_bands().collect())),
                ("decode_v0_bands, by diagonals", cut(bands.by_diagonals().collect())),
            ]
        }
        _ => vec![(entry.name, Cut::NONE)],
    }
}

/// Razvolk's entries for clean frames, each with the direct one that it is compared with.
const CLEAN: [(&str, &str); 2] =
    [("decode_v0_clean", "decode_v0_reference"), ("decode_v0_clean_map", "decode_v0_reference_map")];

/// They run if the frame is clean.
fn clean<'a>(frame: &'a Frame, buffers: &'a RefCell<Buffers>, contenders: &mut Vec<Contender<'a>>) {
    let decode = move |mapped: bool| {
        let Buffers { samples, map, .. } = &mut *buffers.borrow_mut();
        let map = mapped.then_some(&mut map[..]);
        compare::clean::compare::razvolk(frame, samples, map).is_ok()
    };
    if frame.version == Version::V2 || !decode(false) {
        return;
    }
    for (mapped, (name, direct)) in [false, true].into_iter().zip(CLEAN) {
        let against = contenders.iter().position(|contender| contender.name == direct).unwrap_or(0);
        contenders.push(Contender { name, against, run: Box::new(move || decode(mapped)) });
    }
}

/// samsung.rs's decoders of a frame, and Razvolk's entries. Frames that are refused are run, too. The decoder in bands is compared
/// with Razvolk's own in two phases, those for clean frames with its direct ones.
pub fn of<'a>(frame: &'a Frame, buffers: &'a RefCell<Buffers>) -> Vec<Contender<'a>> {
    let mut contenders = Vec::new();
    for (against, &(name, decode)) in rust(frame.version).iter().enumerate() {
        let run = move || decode(frame, &mut buffers.borrow_mut().samples).is_ok();
        contenders.push(Contender { name, against, run: Box::new(run) });
    }
    for entry in razvolk_of(frame.version).into_iter().map(Rc::new) {
        let plain = contenders.iter().position(|contender| contender.name == "decode_v0");
        let against = match entry.decoder {
            Decoder::Bands => plain.unwrap_or(0),
            decoder => usize::from(decoder == Decoder::TwoPhase),
        };
        for (name, cut) in runs(&entry, frame) {
            let entry = Rc::clone(&entry);
            let run = move || {
                let Buffers { samples, map, scratch } = &mut *buffers.borrow_mut();
                let ask = Ask { cut: &cut, ..Ask::of(frame) };
                entry.call(&ask, &mut Lent { samples, map, scratch }).number == 0
            };
            contenders.push(Contender { name, against, run: Box::new(run) });
        }
    }
    clean(frame, buffers, &mut contenders);
    contenders
}

/// Runs each contender once over the same samples: all must leave the same, and be done or not. Tells whether they are.
pub fn alike(contenders: &mut [Contender], buffers: &RefCell<Buffers>) -> bool {
    let mut first: Option<(bool, Vec<u16>)> = None;
    for contender in contenders {
        buffers.borrow_mut().samples.fill(1);
        let done = (contender.run)();
        let samples = &buffers.borrow().samples;
        let (first, expected) = first.get_or_insert_with(|| (done, samples.clone()));
        assert!(*first == done && expected == samples, "{} answers or leaves another", contender.name);
    }
    first.is_some_and(|(done, _)| done)
}
