//! The library on files that are made, damaged, and made to do harm.

use crate::folder::srw;
use razvolk::srw::{Coding, Frame, frame};
use razvolk::{Refusal, Run};
use razvolk_tool::look::{Look, Wanted, seen};
use razvolk_tool::report;
use razvolk_tool::verdict::Verdict;
use razvolk_tool::worker::Worker;
use streams::images::{christening, sitting};
use streams::random::Random;
use streams::{v0, v2};

/// A V0 frame of 20 by 5 in its file; the table stands right before the strip.
fn small() -> (streams::Frame, Vec<u8>) {
    let made = v0::encode::with_band(&christening(20, 5), 20, 5, 1);
    let file = srw(&made);
    (made, file)
}

fn worker_for(frames: &[&Frame]) -> Worker {
    let mut worker = Worker::default();
    frames.iter().try_for_each(|frame| worker.make_room(frame)).expect("few samples");
    worker
}

#[test]
fn a_frame_is_found_and_decoded() {
    let (width, height) = (320, 200);
    let image = sitting(width, height);
    let made = v0::encode(&image, width, height);
    let file = srw(&made);
    let found = frame(&file).expect("a frame");
    let mut expected = Frame::new(Coding::V0(made.offsets.clone()), width, height, &made.stream);
    (expected.model, expected.bits) = (Some("Razvolk"), Some(14));
    assert_eq!(found, expected);
    let mut worker = worker_for(&[&found]);
    assert_eq!(worker.decode(&found, false), Ok(()));
    let (samples, marks) = worker.frame().expect("the frame is done");
    assert!(samples == image && marks.is_clean());
}

#[test]
fn a_band_of_another_frame_is_marked() {
    let (width, height) = (320, 200);
    let first = v0::encode(&sitting(width, height), width, height);
    let made = [first, v0::encode::with_band(&christening(width, height), width, height, 24)];
    let files = made.map(|made| srw(&made));
    let [over, band] = [0, 1].map(|i| frame(&files[i]).expect("a frame"));
    let mut worker = worker_for(&[&over, &band]);
    assert_eq!([worker.decode(&over, false), worker.decode(&band, false)], [Ok(()), Ok(())]);
    let (samples, marks) = worker.frame().expect("the frame is done");
    assert!(marks.bytes().iter().enumerate().all(|(i, &mark)| mark == u8::from(i < 24 * width)));
    let first = sitting(width, height);
    assert_eq!(samples[20 * width], first[0], "the band carries down what the first rows held");
    assert_eq!(samples[24 * width..], christening(width, height)[24 * width..]);
    assert!(marks.rows_old().eq((0..24).map(|row| (row, width))));
}

#[test]
fn a_v2_frame_is_found_and_decoded() {
    of_v2(646, 436, "HOLD BACK  1 % of another picture (columns 640 to 645)");
    of_v2(70, 9, "HOLD BACK  9 % of another picture (columns 64 to 69)");
    of_v2(33, 9, "HOLD BACK  3 % of another picture (column 32)");
    of_v2(32, 1, "CLEAN");
}

/// A V2 frame of this size in a file, of which this is told.
fn of_v2(width: usize, height: usize, text: &str) {
    let image = christening(width, height);
    let file = srw(&v2::encode(&image, width, height));
    let found = frame(&file).expect("a frame");
    assert_eq!((&found.coding, found.width, found.height), (&Coding::V2, width, height));
    let mut worker = worker_for(&[&found]);
    assert_eq!(worker.decode(&found, false), Ok(()));
    let (samples, marks) = worker.frame().expect("the frame is done");
    for (i, (sample, mark)) in samples.iter().zip(marks.bytes()).enumerate() {
        let coded = i % width < width / 16 * 16;
        assert_eq!((*sample, *mark), if coded { (image[i], 0) } else { (0, 1) }, "sample {i}");
    }
    let told = seen_all(&file);
    assert_eq!(told.lines().next(), Some(format!("file  {text}").as_str()));
}

/// What is told of a frame of any size.
fn seen_all(file: &[u8]) -> String {
    let found = frame(file).expect("a frame");
    let mut worker = Worker::default();
    let look = Look::at(&mut worker, &found, None, Wanted::default()).expect("few samples");
    Verdict::of(&look).line("file") + &report::details(&look, &found)
}

#[test]
fn a_file_broken_off_is_decoded_as_far_as_it_goes() {
    let (made, file) = small();
    for len in 0..file.len() {
        let _ = seen(&file[..len]);
    }
    let text = seen(&file[..file.len() - 9]).expect("a frame");
    let heading = format!("\n  V0, 20 by 5, {} bytes of stream, 9 more are missing\n", made.stream.len() - 9);
    assert!(text.starts_with("file  HOLD BACK  ") && text.contains(&heading), "{text}");
    assert!(text.contains(" samples; 40 bytes were read past the end\n"), "{text}");
}

#[test]
fn every_byte_may_be_wrong() {
    let (_, file) = small();
    let mut damaged = file.clone();
    for i in 0..file.len() {
        for value in [0, 1, 0x7f, 0x80, 0xff, file[i] ^ 1, file[i] ^ 0x80] {
            damaged[i] = value;
            let _ = seen(&damaged);
        }
        damaged[i] = file[i];
    }
}

#[test]
fn many_bytes_may_be_wrong() {
    let (_, file) = small();
    let mut random = Random::new(1);
    let mut faults = 0;
    for _ in 0..20_000 {
        let mut damaged = file.clone();
        for _ in 0..=random.below(6) {
            // Mostly in the directories.
            let within = if random.once_in(4) { file.len() } else { 250 };
            let at = random.index(within);
            damaged[at] = match random.below(4) {
                0 => 0,
                1 => 0xff,
                2 => random.below(256) as u8,
                _ => damaged[at] ^ 1 << random.below(8),
            };
        }
        if random.once_in(4) {
            damaged.truncate(random.index(file.len()));
        }
        faults += usize::from(seen(&damaged).is_err());
    }
    assert!((2_000..18_000).contains(&faults), "{faults} of 20000 are faults");
}

#[test]
fn sizes_without_end_cost_no_memory() {
    for (width, height) in [(u32::MAX as usize, u32::MAX as usize), (16_385, 0), (0, u32::MAX as usize)] {
        let frame = Frame::new(Coding::V2, width, height, &[]);
        let mut worker = worker_for(&[&frame]);
        assert_eq!(worker.decode(&frame, false), Err(Refusal::TooLarge));
        assert!(worker.frame().is_none());
    }
    // A size within the decoder's limits may still be too much for a look.
    assert!(Worker::default().make_room(&Frame::new(Coding::V2, 16_384, 16_384, &[])).is_err());
}

#[test]
fn a_header_that_differs_is_told() {
    let made = v2::encode(&christening(646, 436), 646, 436);
    let heading = |frame: &Frame| report::heading(frame);
    let mut frame = Frame::new(Coding::V2, 646, 436, &made.stream);
    let plain = format!("V2, 646 by 436, {} bytes of stream", made.stream.len());
    assert_eq!(heading(&frame), plain);
    frame.bits = Some(14);
    assert_eq!(heading(&frame), plain);
    (frame.width, frame.bits) = (662, Some(12));
    let differs = "\n  its own header says 646 by 436\n  its own header says 14 bits a sample, the container 12";
    assert_eq!(heading(&frame), plain.replace("646 by", "662 by") + differs);
    frame.bits = None;
    assert!(!heading(&frame).contains("bits a sample"));
    let untold = Frame::new(Coding::V2, 646, 436, &[0, 0x0d, 0, 0, 0, 0, 0, 0, 0, 0, 0, 0, 0, 0, 0, 0]);
    assert!(!heading(&untold).contains("header"), "0 by 0 tells no size");
}

#[test]
fn answers_in_words() {
    assert_eq!(report::answer(Ok(())), "decoded to the end");
    assert_eq!(
        report::answer(Err(Refusal::Overrun { row: 9, filler: 1 })),
        "refused 8, row 9: the stream ends in row 9"
    );
    assert_eq!(report::answer(Err(Refusal::TooLarge)), "refused 1: width or height is above 16,384");
    let run = |row, first, length| Run { row, first, length };
    let runs = [run(0, 0, 9), run(1, 0, 9), run(2, 0, 9), run(4, 0, 9), run(5, 2, 1), run(5, 4, 2)];
    assert_eq!(report::blanked(&runs, Some(512)), "  blanked to 512: 39 samples in 6 runs\n");
    let columns = "    rows 0 to 2: columns 0 to 8\n    row 4: columns 0 to 8\n    row 5: columns 2, 4 to 5\n";
    assert_eq!(report::blanked_columns(&runs), columns);
    assert_eq!(report::blanked(&runs[4..5], None), "  blanked to what lies left: 1 sample in 1 run\n");
    assert_eq!(report::blanked(&[], None), "  nothing to blank\n");
}

/// A fault is shrunk to few changed bytes of a small file, whatever the file claims.
mod shrunk {
    use super::*;
    use proptest::prelude::*;

    proptest! {
        #![proptest_config(ProptestConfig { cases: 4_000, failure_persistence: None, ..ProptestConfig::default() })]
        #[test]
        fn any_damage_is_answered(
            changes in prop::collection::vec((0usize..400, any::<u8>()), 0..6),
            len in 0usize..400,
        ) {
            let (_, file) = small();
            let mut damaged = file[..file.len() - len.min(file.len()) / 4].to_vec();
            for (at, value) in changes {
                let at = at % damaged.len().max(1);
                damaged[at] = value;
            }
            let _ = seen(&damaged);
        }

        #[test]
        fn any_bytes_are_answered(bytes in prop::collection::vec(any::<u8>(), 0..300), order in 0usize..2) {
            let head: &[u8] = [b"II*\0\x08\0\0\0", b"MM\0*\0\0\0\x08"][order];
            let _ = seen(&[head, &bytes].concat());
        }
    }
}
