//! Regions of vectors, packed into codes and unpacked.

use super::bits;

pub fn length(b: usize, n: usize) -> usize {
    (n * b).div_ceil(8)
}

pub fn regions(d: usize, b: usize, vectors: &[i32], marks: &[i32], regions: &mut [u8]) {
    for (vector, row) in vectors.chunks_exact(d).zip(regions.chunks_exact_mut(d)) {
        let mut rest = marks;
        for ((v, region), w) in vector.iter().zip(row).zip(bits(d, b)) {
            let (part, behind) = rest.split_at((1 << w) + 1);
            *region = (part.partition_point(|mark| mark <= v) - 1) as u8;
            rest = behind;
        }
    }
}

pub fn pack(d: usize, b: usize, regions: &[u8], codes: &mut [u8]) {
    let mut bytes = codes.iter_mut();
    let (mut waiting, mut count) = (0u32, 0);
    for row in regions.chunks_exact(d) {
        for (&region, w) in row.iter().zip(bits(d, b)) {
            waiting = waiting << w | u32::from(region);
            count += w;
            if count >= 8 {
                count -= 8;
                *bytes.next().expect("a byte for each 8 bits") = (waiting >> count) as u8;
            }
        }
    }
    if let Some(last) = bytes.next() {
        *last = (waiting << (8 - count)) as u8;
    }
}

pub fn unpack(d: usize, b: usize, codes: &[u8], regions: &mut [u8]) {
    let mut bytes = codes.iter();
    let (mut waiting, mut count) = (0u32, 0);
    for row in regions.chunks_exact_mut(d) {
        for (region, w) in row.iter_mut().zip(bits(d, b)) {
            if count < w {
                waiting = waiting << 8 | u32::from(*bytes.next().expect("a byte for each 8 bits"));
                count += 8;
            }
            count -= w;
            *region = (waiting >> count & ((1 << w) - 1)) as u8;
        }
    }
}
