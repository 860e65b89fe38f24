//! Document 01's worked examples, on the reference alone: that what was built is the reference that the document speaks of.

use reference::{Error, Ph1Bits, decode_v0, decode_v0_reference, decode_v0_with, decode_v2};

type V0 = fn(&[u8], &[u32], usize, usize, &mut [u16]) -> reference::Result<()>;

const ENGINES: [V0; 3] = [decode_v0_reference, decode_v0, |s, o, w, h, out| decode_v0_with(s, o, w, h, out, false)];

fn v0(engine: V0, src: &[u8], offsets: &[u32], width: usize, height: usize, old: &[u16]) -> Vec<u16> {
    let mut out = old.to_vec();
    engine(src, offsets, width, height, &mut out).expect("the frame is accepted");
    out
}

fn corrupt(answer: reference::Result<()>) -> String {
    match answer {
        Err(Error::CorruptFile { what, .. }) => what,
        other => panic!("not refused as corrupt: {other:?}"),
    }
}

#[test]
fn the_reader() {
    let mut bits = Ph1Bits::new(&[0x78, 0x56, 0x34, 0x12], 0);
    assert_eq!([bits.get(4), bits.get(4), bits.get(4)], [1, 2, 3]);
    let mut bits = Ph1Bits::new(&[0, 0, 0], 0);
    assert_eq!((bits.get(1), bits.overrun(), bits.pos()), (1, true, 4));
}

#[test]
fn the_reader_counts_modulo_2_64() {
    let mut bits = Ph1Bits::new(&[0; 8], usize::MAX - 1);
    assert_eq!((bits.get(32), bits.overrun(), bits.pos()), (u32::MAX, true, 2));
}

#[test]
fn frames_of_v0() {
    let skipped = [0, 0, 0, 0x80, 0x18, 0x20, 0xa0, 0x7f, 0, 0, 0x70, 0];
    let spill = [0x18, 0x20, 0xa0, 0x7f, 0, 0, 0x70, 0, 0x08, 0, 0xa0, 0xff, 0, 0, 0, 0];
    for engine in ENGINES {
        assert_eq!(v0(engine, &spill, &[0, 8], 2, 2, &[7, 8, 9, 10]), [131, 132, 126, 128]);
        assert_eq!(v0(engine, &[], &[0], 1, 1, &[7]), [7]);
        assert_eq!(v0(engine, &[], &[0; 16_384], 0, 16_384, &[]), []);
        assert_eq!(v0(engine, &skipped, &[0, 4], 2, 2, &[7, 8, 9, 10]), [7, 131, 8, 126]);
        let short = engine(&[], &[0], 1, 2, &mut [0; 2]);
        assert!(matches!(short, Err(Error::InvalidArgument(_))), "two rows and one offset");
    }
}

#[test]
fn frames_of_v2() {
    let (width, height) = (646, 436);
    let mut out = vec![7u16; width * height];
    assert!(corrupt(decode_v2(&[], width, height, &mut out)).contains("first rows"));
    assert!(out.iter().all(|&s| s == 7));
    assert!(corrupt(decode_v2(&[0; 16], width, height, &mut out)).contains("at row 0/"));
    assert!(out[..640].iter().all(|&s| s == 1) && out[640..].iter().all(|&s| s == 7));
    assert!(corrupt(decode_v2(&[], width - 1, height, &mut out)).contains("too small"));
    assert!(corrupt(decode_v2(&[], width, height - 1, &mut out)).contains("too small"));
}
