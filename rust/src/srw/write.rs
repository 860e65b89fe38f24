//! A file of one frame, which this module reads again, and other readers too: those of dcraw's kind take a decoder by the
//! maker's name and by tag 40976, V2's as well.

use super::{Coding, Frame, tag};

/// What an entry holds.
enum Value<'a> {
    Short(u16),
    Long(usize),
    Pair(u16, u16),
    Bytes([u8; 4]),
    Text(&'a str),
}

use Value::{Bytes, Long, Pair, Short, Text};

/// CFA, the photometric interpretation of a sensor's samples.
const MOSAIC: u16 = 32_803;

impl Frame<'_> {
    /// A file that holds the frame: a first directory with maker, model and software, one below it for the frame, the table of
    /// row offsets (V0), the stream. The model is `Razvolk` and the bits are 14 where the frame tells none; a colour filter and an
    /// orientation are left out where it tells none.
    ///
    /// # Panics
    ///
    /// Where the file would be longer than the format's 2^32 bytes.
    ///
    /// ```
    /// use razvolk::srw::{self, Coding, Colour, Frame};
    /// let mut made = Frame::new(Coding::V0(vec![0, 4]), 2, 2, &[0, 0, 0, 0x80, 0x18, 0x20, 0xa0, 0x7f, 0, 0, 0x70, 0]);
    /// (made.model, made.bits) = (Some("NX300"), Some(12));
    /// made.colour_filter = Some([Colour::Red, Colour::Green, Colour::Green, Colour::Blue]);
    /// made.orientation = Some(6);
    /// assert_eq!(srw::frame(&made.to_file()), Ok(made));
    /// ```
    pub fn to_file(&self) -> Vec<u8> {
        let software = concat!("Razvolk ", env!("CARGO_PKG_VERSION"));
        let first = |raw_at| {
            let mut first = vec![
                (tag::MAKE, Text("SAMSUNG")),
                (tag::MODEL, Text(self.model.unwrap_or("Razvolk"))),
                (tag::SOFTWARE, Text(software)),
                (tag::SUB_DIRECTORIES, Long(raw_at)),
            ];
            if let Some(orientation) = self.orientation {
                first.insert(2, (tag::ORIENTATION, Short(orientation.into())));
            }
            first
        };
        // How long a directory is does not depend on what it points to.
        let raw_at = 8 + directory(8, &first(0)).len();
        let table: Vec<u8> = self.offsets().iter().flat_map(|offset| offset.to_le_bytes()).collect();
        let table_at = raw_at + directory(raw_at, &self.raw(0, 0)).len();
        let raw = self.raw(table_at, table.len());
        let head = b"II*\0\x08\0\0\0".to_vec();
        [head, directory(8, &first(raw_at)), directory(raw_at, &raw), table, self.stream.to_vec()].concat()
    }

    fn offsets(&self) -> &[u32] {
        match &self.coding {
            Coding::V0(offsets) => offsets,
            Coding::V2 => &[],
        }
    }

    /// The entries of the frame's directory, its table of row offsets being there and so long, with the stream behind it.
    fn raw(&self, table_at: usize, table_len: usize) -> Vec<(u16, Value<'_>)> {
        let v0 = matches!(self.coding, Coding::V0(_));
        let mut entries = vec![
            (tag::WIDTH, Long(self.width)),
            (tag::HEIGHT, Long(self.height)),
            (tag::BITS, Short(self.bits.and_then(|bits| bits.try_into().ok()).unwrap_or(14))),
            (tag::COMPRESSION, Short(if v0 { tag::V0 } else { tag::V2 } as u16)),
            (tag::PHOTOMETRIC, Short(MOSAIC)),
            (tag::STRIP_OFFSETS, Long(table_at + table_len)),
            (tag::SAMPLES_PER_PIXEL, Short(1)),
            (tag::ROWS_PER_STRIP, Long(self.height)),
            (tag::STRIP_BYTES, Long(self.stream.len())),
        ];
        if let Some(colours) = self.colour_filter {
            entries.push((tag::COLOUR_FILTER_SIZE, Pair(2, 2)));
            entries.push((tag::COLOUR_FILTER, Bytes(colours.map(|colour| colour as u8))));
        }
        entries.push((tag::ROW_OFFSETS, Long(table_at)));
        if v0 {
            entries.push((tag::ROW_OFFSETS_BYTES, Long(table_len)));
        }
        entries
    }
}

/// A directory that stands at a place, the last of its chain: entries of values that fit them, in the order of their tags, and
/// after them the texts.
fn directory(at: usize, entries: &[(u16, Value)]) -> Vec<u8> {
    let number = |number: usize| u32::try_from(number).expect("a file of at most 2^32 bytes");
    let texts_at = at + 2 + 12 * entries.len() + 4;
    let (mut bytes, mut texts) = ((entries.len() as u16).to_le_bytes().to_vec(), Vec::new());
    for (tag, value) in entries {
        let (kind, count, value) = match *value {
            Short(value) => (tag::SHORT, 1, u32::from(value)),
            Long(value) => (tag::LONG, 1, number(value)),
            Pair(first, second) => (tag::SHORT, 2, u32::from(second) << 16 | u32::from(first)),
            Bytes(bytes) => (tag::BYTE, 4, u32::from_le_bytes(bytes)),
            Text(text) => {
                let place = number(texts_at + texts.len());
                // A zero ends the text; four or fewer bytes would stand in the entry itself.
                let ended = text.bytes().chain([0; 4]).take(text.len().max(4) + 1);
                texts.extend(ended);
                (tag::ASCII, number(text.len().max(4) + 1), place)
            }
        };
        bytes.extend(tag.to_le_bytes());
        bytes.extend(kind.to_le_bytes());
        bytes.extend(count.to_le_bytes());
        bytes.extend(value.to_le_bytes());
    }
    bytes.extend([0; 4]);
    bytes.extend(texts);
    bytes
}
