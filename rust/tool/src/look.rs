//! A look at a frame: all that the tool does between reading its files and writing others.

use crate::form::{self, Decoded, Form, Picture};
use crate::report;
use crate::sheet;
use crate::verdict::{Status, Verdict};
use crate::worker::{Memory, Worker};
use razvolk::srw::{self, Fault, Frame};
use razvolk::{MAX_SIDE, Refusal, Run};

/// What came of a frame.
pub struct Look<'a> {
    pub answer: Result<(), Refusal>,
    /// What the decoder answered to the frame that was decoded first, if there was one.
    pub over: Option<Result<(), Refusal>>,
    /// Samples and marks, if the stream was begun.
    pub decoded: Option<Decoded<'a>>,
    /// The fill if one is stated, and the runs that were set, if the frame is blanked.
    pub blanked: Option<(Option<u16>, Vec<Run>)>,
    /// How many bytes of the stream the file lacks.
    pub missing: usize,
}

/// What is wanted of a frame: that it is clean; that it is blanked, with a stated fill or none.
#[derive(Clone, Copy, Default)]
pub struct Wanted {
    pub clean: bool,
    pub blank: Option<Option<u16>>,
}

impl<'a> Look<'a> {
    /// Decodes a frame into the worker's buffer, a V0 frame only if it is clean where that is wanted; where there is one to
    /// decode `over`, that one first, clean or not. Where it is to be blanked, with a stated fill or none, nothing of what the
    /// buffer held before is left in it.
    pub fn at(
        worker: &'a mut Worker,
        frame: &'a Frame<'a>,
        over: Option<&Frame>,
        wanted: Wanted,
    ) -> Result<Look<'a>, String> {
        let Wanted { clean, blank } = wanted;
        [over, Some(frame)].into_iter().flatten().try_for_each(|frame| worker.make_room(frame))?;
        let over = over.map(|over| worker.decode(over, false));
        let answer = worker.decode(frame, clean);
        let blanked = blank.map(|fill| (fill, worker.blank(fill)));
        let depth = frame.v2_header().map(|header| header.depth).or(frame.bits);
        let &Frame { width, height, model, missing, .. } = frame;
        let decoded = worker.frame().map(|(samples, marks)| Decoded {
            coded: frame,
            samples,
            marks,
            clean: marks.is_clean(),
            blanked: blank.is_some(),
            width,
            height,
            depth,
            model,
        });
        Ok(Look { answer, over, decoded, blanked, missing })
    }

    /// Whether the file determines every sample, and lacks nothing.
    pub fn is_clean(&self) -> bool {
        Verdict::of(self).status == Status::Clean
    }
}

/// What the fuzzer and the tests of damaged files do with a file's bytes: all that the tool does, but for reading and writing
/// files. Frames of more than 10,000 samples are found and not decoded, to save time.
pub fn seen(file: &[u8]) -> Result<String, Fault> {
    let frame = srw::frame(file)?;
    let sides = frame.width <= MAX_SIDE && frame.height <= MAX_SIDE;
    if sides && frame.width * frame.height > 10_000 {
        return Ok(report::heading(&frame));
    }
    let (mut worker, mut memory) = (Worker::default(), Memory::default());
    let look = Look::at(&mut worker, &frame, None, Wanted::default()).expect("few samples");
    if let Some(decoded) = look.decoded {
        for (form, full) in [(Form::Pgm, false), (Form::Png, false), (Form::Png, true), (Form::Planes, false)] {
            let file = form::file(form, decoded, Picture { full, ..Picture::default() }, &mut memory);
            assert_eq!(file.is_err(), decoded.samples.is_empty());
        }
        stored(decoded);
        let _ = sheet::card("file", &Verdict::of(&look), Some(decoded), Picture::default());
    }
    let text = Verdict::of(&look).line("file") + &report::details(&look, &frame);
    let look = Look::at(&mut worker, &frame, None, Wanted { clean: false, blank: Some(Some(9)) }).expect("few samples");
    if let Some(decoded) = look.decoded {
        let outlined = form::file(Form::Png, decoded, Picture { outline: true, ..Picture::default() }, &mut memory);
        assert_eq!(outlined.is_err(), decoded.samples.is_empty());
        let mut each = decoded.samples.iter().zip(decoded.marks.bytes());
        assert!(
            each.all(|(&sample, &mark)| mark == 0 || sample == 9),
            "a blanked frame has the fill where it is marked"
        );
    }
    Ok(text)
}

/// Written as V0, a frame is read again, and is clean: its samples are the same, and all rest on the stream.
fn stored(decoded: Decoded) {
    let file = form::file(Form::V0, decoded, Picture::default(), &mut Memory::default());
    assert_eq!(file.is_err(), decoded.samples.iter().any(|&sample| sample > 16_383));
    let Ok(file) = file else { return };
    let frame = srw::frame(&file).expect("a frame");
    let mut worker = Worker::default();
    let look = Look::at(&mut worker, &frame, None, Wanted { clean: true, blank: None }).expect("few samples");
    let again = look.decoded.expect("done");
    assert!(look.is_clean() && again.samples == decoded.samples);
}
