//! The samples as they are: a PGM file of 16 bits a sample, highest byte first.

/// The largest sample that the file tells of is the depth's, 14 bits where none is known, or 65,535 where a sample is above
/// that. `width` is not 0.
pub fn file(samples: &[u16], width: usize, depth: Option<u32>) -> Vec<u8> {
    let depth = depth.filter(|depth| (9..=16).contains(depth)).unwrap_or(14);
    let most = if samples.iter().all(|&sample| u32::from(sample) >> depth == 0) { (1u32 << depth) - 1 } else { 65_535 };
    let mut bytes = format!("P5\n{width} {}\n{most}\n", samples.len() / width).into_bytes();
    bytes.extend(samples.iter().flat_map(|sample| sample.to_be_bytes()));
    bytes
}

#[cfg(test)]
mod tests {
    use super::file;

    #[test]
    fn samples_come_highest_byte_first() {
        assert_eq!(
            file(&[1, 0x203, 4, 5, 6, 4_095], 3, None),
            b"P5\n3 2\n16383\n\0\x01\x02\x03\0\x04\0\x05\0\x06\x0f\xff"
        );
    }

    #[test]
    fn the_largest_is_the_depth_s() {
        let most =
            |sample, depth| String::from_utf8_lossy(&file(&[sample], 1, depth)[7..]).lines().next().map(str::to_string);
        assert_eq!(most(4_095, Some(12)).as_deref(), Some("4095"));
        assert_eq!(most(4_096, Some(12)).as_deref(), Some("65535"));
        // A file of one byte a sample has another layout.
        assert_eq!(most(3, Some(8)).as_deref(), Some("16383"));
        assert_eq!(most(3, Some(99)).as_deref(), Some("16383"));
        assert_eq!(most(65_535, Some(16)).as_deref(), Some("65535"));
    }
}
