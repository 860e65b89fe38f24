//! The verdict on frames that another program packed.

use crate::input::Input;
use crate::look::{Look, Wanted};
use crate::verdict::{Status, Verdict};
use crate::worker::Worker;
use razvolk::srw::{Coding, Frame};
use razvolk::{Refusal, write_v0_to_vecs};

/// The samples that frames are meant to hold.
pub struct Meant {
    name: String,
    samples: Vec<u16>,
    width: usize,
    height: usize,
    /// How many bytes of stream the writer makes of them; none if one is above 16,383.
    written: Option<usize>,
}

/// What came of a frame.
pub struct Checked {
    pub answer: Result<(), Refusal>,
    pub verdict: Verdict,
}

impl Meant {
    /// The samples of a file's frame, which must be done and rest on its stream alone.
    pub fn of(file: &Input, frame: &Frame) -> Result<Meant, String> {
        let mut worker = Worker::default();
        let look = Look::at(&mut worker, frame, None, Wanted::default()).map_err(|fault| file.fault(fault))?;
        match (look.answer, look.is_clean(), look.decoded) {
            (Ok(()), true, Some(decoded)) => {
                let (samples, width, height) = (decoded.samples.to_vec(), frame.width, frame.height);
                let written = write_v0_to_vecs(&samples, width, height).ok().map(|(stream, _)| stream.len());
                Ok(Meant { name: file.name(), samples, width, height, written })
            }
            (Err(refusal), ..) => Err(file.fault(format_args!("refused {}: {refusal}", refusal.number()))),
            _ => Err(file.fault("samples of it are of another picture or missing, so that they say nothing")),
        }
    }

    /// Checks a frame; why it can't be checked, if it is none of these samples' size or format.
    pub fn check(&self, worker: &mut Worker, frame: &Frame) -> Result<Checked, String> {
        let &Frame { ref coding, width, height, stream, .. } = frame;
        let Coding::V0(offsets) = coding else { return Err("V2, where V0 is checked".into()) };
        if (width, height) != (self.width, self.height) {
            return Err(format!("{width} by {height}, where {} is {} by {}", self.name, self.width, self.height));
        }
        worker.make_room(frame)?;
        let scratch = worker.samples();
        let answer = razvolk::check_packed(stream, offsets, width, height, &self.samples, scratch);
        Ok(Checked { answer, verdict: self.verdict(answer, stream.len(), scratch) })
    }

    /// The answer, and what it is about: how many bytes the writer makes, and the first sample that differs.
    fn verdict(&self, answer: Result<(), Refusal>, bytes: usize, scratch: &[u16]) -> Verdict {
        let written = self.written.map(|written| format!("{bytes} bytes, where the writer makes {written}"));
        let written = written.unwrap_or_default();
        match answer {
            Ok(()) => Verdict::new(Status::Taken, written),
            Err(refusal) => {
                let about = match refusal {
                    Refusal::LongStream => format!(": {written}"),
                    Refusal::OtherSample => self.first_other(scratch),
                    _ => String::new(),
                };
                Verdict::new(Status::Refused, format!("{refusal}{about}"))
            }
        }
    }

    fn first_other(&self, scratch: &[u16]) -> String {
        let mut both = self.samples.iter().zip(scratch);
        let Some(at) = both.position(|(meant, found)| meant != found) else { return String::new() };
        let (row, column) = (at / self.width, at % self.width);
        format!(": row {row}, column {column} is {}, where {} is meant", scratch[at], self.samples[at])
    }
}
