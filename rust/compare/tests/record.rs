//! The recorded calls: read back as src/record.rs says, and held to samsung.rs, and to the plain writer.

use compare::record::{as_written, file, old, sum, to_write};

/// Numbers off the front of the file.
struct Rest<'a>(&'a [u8]);

impl<'a> Rest<'a> {
    fn bytes(&mut self, len: usize) -> &'a [u8] {
        let (first, rest) = self.0.split_at(len);
        self.0 = rest;
        first
    }

    fn number(&mut self) -> u32 {
        u32::from_le_bytes(self.bytes(4).try_into().expect("four bytes"))
    }
}

#[test]
fn the_record_is_what_the_rust_does() {
    let file = file();
    assert!(file.len() < 200_000, "{} bytes", file.len());
    let mut rest = Rest(&file);
    let calls = rest.number();
    let mut numbers = [[0; 11]; 3];
    for _ in 0..calls {
        let decoder = rest.number() as usize;
        let (width, height) = (rest.number() as usize, rest.number() as usize);
        let offsets: Vec<u32> = (0..rest.number()).map(|_| rest.number()).collect();
        let len = rest.number() as usize;
        let stream = rest.bytes(len);
        let lent = rest.number() as usize;
        let seed = rest.number() as u16;
        let mut samples = old(seed, lent);
        let (number, row, expected) = (rest.number(), rest.number(), rest.number());
        if decoder == 1 {
            let (answer, sum) = as_written(&to_write(seed, lent), width, height);
            assert_eq!((answer.number, answer.row, sum), (number, row, expected));
        } else {
            let done = match decoder {
                0 => reference::decode_v0_reference(stream, &offsets, width, height, &mut samples),
                _ => reference::decode_v2(stream, width, height, &mut samples),
            };
            assert_eq!(done.is_ok(), number == 0);
            assert_eq!(sum(&samples), expected);
        }
        assert!(lent < 290_000 && len < 30_000 && offsets.len() <= 300);
        assert!(row == 0 || [5, 6, 7, 8].contains(&number));
        numbers[decoder][number as usize] += 1;
    }
    println!("{calls} calls, {} bytes, V0 {:?}, written {:?}, V2 {:?}", file.len(), numbers[0], numbers[1], numbers[2]);
    assert!(rest.0.is_empty(), "nothing is left");
    assert!(numbers[0][0] > 200 && numbers[0][3] > 5);
    assert!([0, 2, 3, 5, 6, 7, 8].iter().all(|&i| numbers[2][i] > 0), "{numbers:?}");
    assert!(numbers[1][0] > 100 && [1, 3, 9, 10].iter().all(|&i| numbers[1][i] > 0), "{numbers:?}");
}
