//! A decoder that is kept from frame to frame gives what the functions give with buffers of their own.

use razvolk::{Decoder, Marks, Refusal};
use streams::images::{christening, sitting};
use streams::{Frame, Version, v0, v2};

/// Frames of several sizes: whole, with a band, broken off, of noise, and refused.
fn frames() -> Vec<Frame> {
    let mut frames = Vec::new();
    for (width, height) in [(320, 200), (5, 7), (33, 4), (16, 2), (1, 1), (40, 0), (0, 40), (646, 436)] {
        let whole = v0::encode(&sitting(width, height), width, height);
        let band = v0::encode::with_band(&christening(width, height), width, height, height / 3 + 1);
        let cut = whole.cut(whole.stream.len() / 2);
        let noise = whole.with_stream((0..whole.stream.len()).map(|i| ((i * i * 31) >> 3) as u8).collect());
        let no_table = Frame { offsets: Vec::new(), ..whole.clone() };
        frames.extend([whole, band, cut, noise, no_table]);
    }
    let whole = v2::encode(&christening(646, 436), 646, 436);
    let cut = whole.cut(20_000);
    let crop = v2::encode(&christening(70, 9), 70, 9);
    let small = Frame { width: 31, ..crop.clone() };
    let large = Frame { width: 16_385, ..whole.clone() };
    frames.extend([whole, cut, crop, small, large]);
    frames
}

/// By the functions: the answer with the count of missing words, and the marks where the stream was begun.
fn by_functions(frame: &Frame, samples: &mut [u16]) -> (Result<u64, Refusal>, Option<Vec<u8>>) {
    let &Frame { version, width, height, ref stream, ref offsets } = frame;
    let mut map = vec![7; width * height];
    let answer = match version {
        Version::V2 => razvolk::decode_v2_map(stream, width, height, samples, &mut map).map(|()| 0),
        Version::V0 => razvolk::decode_v0_reference_map(stream, offsets, width, height, samples, &mut map),
    };
    let begun = answer.map_or_else(Refusal::has_begun, |_| true);
    (answer, begun.then_some(map))
}

#[test]
fn a_kept_decoder_gives_what_the_functions_give() {
    let mut decoder = Decoder::new();
    let (mut samples, mut expected) = (vec![9; 646 * 436], vec![9; 646 * 436]);
    let (mut refused, mut missing) = ([0; 9], 0);
    for (i, frame) in frames().iter().cycle().take(100).enumerate() {
        let &Frame { version, width, height, ref stream, ref offsets } = frame;
        let result = match version {
            Version::V2 => decoder.decode_v2(stream, width, height, &mut samples),
            Version::V0 => decoder.decode_v0_direct(stream, offsets, width, height, &mut samples),
        };
        let told = result.map(|marks| marks.bytes().to_vec());
        let (answer, marks) = by_functions(frame, &mut expected);
        assert_eq!(told.as_ref().map(|_| ()).map_err(|refusal| *refusal), answer.map(|_| ()), "frame {i}");
        let filler = decoder.marks().map_or(0, Marks::filler_words);
        assert_eq!(filler, answer.unwrap_or_else(Refusal::filler_words), "frame {i}");
        missing += u64::from(answer.is_ok_and(|count| count > 0));
        assert_eq!(decoder.marks().map(|marks| marks.bytes().to_vec()), marks, "frame {i}");
        assert!(told.is_err() || told.ok() == marks, "frame {i}");
        assert!(samples == expected, "frame {i}");
        refused[answer.err().map_or(0, Refusal::number) as usize] += 1;
        let counted = decoder.marks().map_or(0, Marks::count);
        assert_eq!(decoder.marks().map_or(0, |marks| marks.rows().map(|(_, count)| count).sum()), counted);
    }
    assert!([0, 1, 2, 3, 8].iter().all(|&number| refused[number] > 0) && missing > 3, "{refused:?}, {missing}");
}
