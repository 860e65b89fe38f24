//! A stream's bits, written and read: words of 4 bytes, lowest byte first, whose highest bit comes first. Neither leans on
//! the readers that are compared.

/// How many bits a number takes in two's complement; 0 takes none.
pub fn length(number: i32) -> u32 {
    if number == 0 { 0 } else { 33 - (number ^ number >> 31).leading_zeros() }
}

/// Writes fields one after another.
#[derive(Default)]
pub struct Writer {
    bytes: Vec<u8>,
    held: u64,
    count: u32,
}

impl Writer {
    /// The low `n` bits of `value`, 0 to 32 of them, the highest first.
    pub fn put(&mut self, value: u32, n: u32) {
        self.held = self.held << n | u64::from(value) & ((1 << n) - 1);
        self.count += n;
        if self.count >= 32 {
            self.count -= 32;
            let word = (self.held >> self.count) as u32;
            self.bytes.extend(word.to_le_bytes());
            self.held &= (1 << self.count) - 1;
        }
    }

    /// How many bits the open word lacks; 0 where none is open.
    pub fn to_a_word(&self) -> u32 {
        (32 - self.count) % 32
    }

    /// Fills up with zeros to the next multiple of `bytes`, which is a multiple of 4.
    pub fn align(&mut self, bytes: usize) {
        while self.count > 0 || !self.bytes.len().is_multiple_of(bytes) {
            self.put(0, 32 - self.count);
        }
    }

    /// How many bytes are written; the last word may still be open.
    pub fn len(&self) -> usize {
        self.bytes.len() + if self.count > 0 { 4 } else { 0 }
    }

    pub fn is_empty(&self) -> bool {
        self.len() == 0
    }

    /// What is written, the last word filled up with zeros.
    pub fn finish(mut self) -> Vec<u8> {
        self.align(4);
        self.bytes
    }
}

/// Reads by position: bit `at` after byte `start`. A word that is not there whole is all ones.
pub struct Reader<'a> {
    pub src: &'a [u8],
    /// Where the bits are counted from.
    pub start: u64,
    /// How many are read.
    pub at: u64,
}

impl<'a> Reader<'a> {
    pub fn new(src: &'a [u8], start: u64) -> Reader<'a> {
        Reader { src, start, at: 0 }
    }

    /// The word with number `i` from the start, and whether it is there.
    fn word(&self, i: u64) -> Option<u32> {
        let at = usize::try_from(self.start + 4 * i).ok()?;
        let four = self.src.get(at..at.checked_add(4)?)?;
        Some(u32::from_le_bytes(four.try_into().expect("four bytes")))
    }

    /// The next `n` bits, 0 to 32.
    pub fn get(&mut self, n: u32) -> u32 {
        if n == 0 {
            return 0;
        }
        let (first, last) = (self.at / 32, (self.at + u64::from(n) - 1) / 32);
        let word = |i| u64::from(self.word(i).unwrap_or(u32::MAX));
        let both = word(first) << 32 | if last > first { word(last) } else { 0 };
        let left = 64 - (self.at % 32) as u32 - n;
        self.at += u64::from(n);
        (both >> left & ((1 << n) - 1)) as u32
    }

    /// The next `n` bits in two's complement.
    pub fn signed(&mut self, n: u32) -> i64 {
        let value = i64::from(self.get(n));
        if n > 0 && value >> (n - 1) == 1 { value - (1 << n) } else { value }
    }

    /// How many words the bits read so far are in, and the position after them.
    pub fn pos(&self) -> u64 {
        self.start + 4 * self.at.div_ceil(32)
    }

    /// How many of these words were missing: those past the whole words that the stream has from the start on. (No position
    /// lies near 2^64 here.)
    pub fn filler(&self) -> u64 {
        let whole = (self.src.len() as u64).saturating_sub(self.start) / 4;
        self.at.div_ceil(32).saturating_sub(whole)
    }
}

#[cfg(test)]
mod tests {
    use super::*;

    #[test]
    fn what_is_written_is_read() {
        let fields = [(1, 1), (0x1234_5678, 32), (0, 0), (5, 3), (u32::MAX, 31), (0, 7), (0x7fff, 16)];
        let mut writer = Writer::default();
        for (value, n) in fields {
            writer.put(value, n);
        }
        assert_eq!(writer.len(), 12);
        let bytes = writer.finish();
        let mut reader = Reader::new(&bytes, 0);
        for (value, n) in fields {
            assert_eq!(u64::from(reader.get(n)), u64::from(value) & ((1 << n) - 1), "{n} bits");
        }
        assert_eq!((reader.get(6), reader.pos(), reader.filler()), (0, 12, 0));
        assert_eq!((reader.get(8), reader.pos(), reader.filler()), (0xff, 16, 1));
        assert_eq!((reader.get(24), reader.filler(), reader.get(1), reader.filler()), (0xff_ffff, 1, 1, 2));
        let mut past = Reader::new(&bytes, 13);
        assert_eq!((past.filler(), past.get(1), past.filler()), (0, 1, 1));
    }

    #[test]
    fn a_number_fits_its_length_and_no_less() {
        for number in [0, 1, -1, 2, -2, 127, 128, -128, -129, i32::MAX, i32::MIN] {
            let n = length(number);
            let read = |n: u32| {
                let mut writer = Writer::default();
                writer.put(number as u32, n);
                Reader::new(&writer.finish(), 0).signed(n)
            };
            assert_eq!(read(n), i64::from(number), "{n} bits");
            assert!(n == 0 || read(n - 1) != i64::from(number), "{number} in {} bits", n - 1);
        }
    }
}
