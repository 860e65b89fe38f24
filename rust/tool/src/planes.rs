//! The four colour planes as one picture.

/// The colour planes of a frame as one of twice its width, beside each other. The two of odd rows lack their last row where the
/// height is odd; there it is 0.
pub fn side_by_side(samples: &[u16], width: usize) -> Vec<u16> {
    let height = samples.len() / width;
    let mut planes = vec![0; samples.len()];
    razvolk::to_planes(samples, width, height, &mut planes)
        .expect("the frame was decoded, and the buffers are as long");
    let (upper, lower) = planes.split_at(height.div_ceil(2) * width);
    let columns = [width.div_ceil(2), width / 2];
    let mut beside = Vec::with_capacity(2 * width * height.div_ceil(2));
    for row in 0..height.div_ceil(2) {
        for (half, rows) in [(upper, height.div_ceil(2)), (lower, height / 2)] {
            let (even, odd) = half.split_at(rows * columns[0]);
            for (plane, columns) in [even, odd].into_iter().zip(columns) {
                let there = plane.get(row * columns..(row + 1) * columns);
                beside.extend(there.map_or_else(|| vec![0; columns], <[u16]>::to_vec));
            }
        }
    }
    beside
}

#[cfg(test)]
mod tests {
    use super::side_by_side;

    #[test]
    fn planes_lie_side_by_side() {
        let frame = [0, 1, 2, 10, 11, 12, 20, 21, 22];
        assert_eq!(side_by_side(&frame, 3), [0, 2, 1, 10, 12, 11, 20, 22, 21, 0, 0, 0]);
        assert_eq!(side_by_side(&[0, 1, 10, 11, 20, 21, 30, 31], 2), [0, 1, 10, 11, 20, 21, 30, 31]);
        assert_eq!(side_by_side(&[0, 10, 20], 1), [0, 10, 20, 0]);
    }
}
