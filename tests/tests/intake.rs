//! Readings turned into components (document 01, "Readings"): the C interface against the reference.

use std::{
    sync::atomic::{AtomicU64, Ordering},
    thread,
};
use tests::{
    interface,
    random::Random,
    reference::{self, Reading},
};

/// Checks every number below `end`, on all cores.
fn on_all_cores(end: u64, check: impl Fn(u64) + Sync) {
    const CHUNK: u64 = 1 << 14;
    let next = AtomicU64::new(0);
    let worker = || loop {
        let start = next.fetch_add(CHUNK, Ordering::Relaxed);
        if start >= end {
            return;
        }
        (start..end.min(start + CHUNK)).for_each(&check);
    };
    thread::scope(|scope| {
        for _ in 0..thread::available_parallelism().map_or(1, |cores| cores.get()) {
            scope.spawn(worker);
        }
    });
}

/// Patterns of every kind: random ones; each sign and exponent field with many fractions; each whole number and each half
/// of the component unit, to just past the range, with the patterns beside it.
fn patterns() -> Vec<u32> {
    let mut random = Random::new(1);
    let mut patterns: Vec<u32> = (0..200_000).map(|_| random.next_u32()).collect();
    for sign_and_field in (0..512).map(|i| i << 23) {
        let last = 0x7F_FFFF;
        patterns.extend([0, 3, last, last - 1, last - 2].map(|fraction| sign_and_field | fraction));
        patterns.extend((0..23).map(|place| sign_and_field | 1 << place));
        patterns.extend((0..36).map(|_| sign_and_field | random.next_u32() & last));
    }
    for halves in 0..=2 * 32770 {
        // half a component is 1/512
        let bits = (halves as f32 / 512.0).to_bits();
        let near = [bits.saturating_sub(1), bits, bits + 1];
        patterns.extend(near.into_iter().chain(near.map(|bits| 1 << 31 | bits)));
    }
    patterns
}

/// The component of a value by whole numbers alone, one binary place at a time.
fn exact_component(bits: u32) -> Result<i32, u32> {
    let (field, fraction) = ((bits >> 23) & 0xFF, u64::from(bits & 0x7F_FFFF));
    // 256 times the value's size is size · 2^power
    let (mut size, mut power) = match field {
        255 if fraction == 0 => return Err(15),
        255 => return Err(14),
        0 => (fraction, 8 - 149),
        _ => (1 << 23 | fraction, field as i32 + 8 - 150),
    };
    while power > 0 && size < 1 << 32 {
        (size, power) = (size << 1, power - 1);
    }
    // the place cut off last, and whether one cut off before it was not 0
    let (mut half, mut less) = (0, 0);
    while power < 0 {
        (size, half, less, power) = (size >> 1, size & 1, less | half, power + 1);
    }
    let nearest = (size + (half & (less | size & 1))) as i64;
    let component = if bits >> 31 == 1 { -nearest } else { nearest };
    if (-32768..=32767).contains(&component) {
        Ok(component as i32)
    } else {
        Err(15)
    }
}

/// The reference's sum of floats loses nothing.
#[test]
fn the_reference_is_exact() {
    for bits in patterns() {
        assert_eq!(reference::intake(Reading::Fresh(bits)), exact_component(bits), "{bits:08X}");
    }
}

/// All 4,294,967,296 values of a fresh reading.
#[test]
fn every_fresh_pattern() {
    on_all_cores(1 << 32, |bits| {
        let bits = bits as u32;
        assert_eq!(interface::fresh(bits), reference::intake(Reading::Fresh(bits)), "{bits:08X}");
    });
}

/// Every NaN, quiet and signalling, of both signs: none passes for a number in the optimised build.
#[test]
fn no_nan_is_taken_for_a_number() {
    for bits in (0x7F80_0001..=0x7FFF_FFFF).chain(0xFF80_0001..=0xFFFF_FFFF) {
        assert_eq!(interface::fresh_value(f32::from_bits(bits)), Err(14), "{bits:08X}");
        assert_eq!(interface::held_value(f32::from_bits(bits), 20), Err(14), "{bits:08X}, held");
    }
}

/// A float handed in has the component of its bits.
#[test]
fn floats_go_by_their_bits() {
    for bits in patterns() {
        let taken = interface::fresh_value(f32::from_bits(bits));
        assert_eq!(taken, reference::intake(Reading::Fresh(bits)), "{bits:08X}");
    }
}

/// At every age: above 20 a held reading is 13, whatever its value, and up to 20 it is as a fresh one.
#[test]
fn no_held_reading_is_taken_past_the_age_limit() {
    let patterns = patterns();
    on_all_cores(patterns.len() as u64, |i| {
        let bits = patterns[i as usize];
        for age in 0..=255 {
            let expected = reference::intake(Reading::Held(bits, age));
            assert_eq!(interface::held(bits, age), expected, "{bits:08X} at age {age}");
            assert_eq!(interface::held_value(f32::from_bits(bits), age), expected, "the float {bits:08X} at age {age}");
        }
    });
}

#[test]
fn no_lost_reading_is_taken() {
    assert_eq!(interface::lost(), Err(13));
}

/// Document 01, "Cases".
#[test]
fn the_cases_of_document_01() {
    use Reading::{Fresh, Held};
    let cases = [
        ("P1", Fresh(0x3F80_0000), Ok(256)),
        ("P2", Fresh(0x3B00_0000), Ok(0)),
        ("P3", Fresh(0x3BC0_0000), Ok(2)),
        ("P4", Fresh(0x42FF_FEFF), Ok(32767)),
        ("P5", Fresh(0x42FF_FF00), Err(15)),
        ("P6", Fresh(0xC300_0000), Ok(-32768)),
        ("P7", Fresh(0x7FC0_0000), Err(14)),
        ("P8, age 21", Held(0x3F80_0000, 21), Err(13)),
        ("P8, age 20", Held(0x3F80_0000, 20), Ok(256)),
        ("also: 128", Fresh(0x4300_0000), Err(15)),
        ("also: infinity", Fresh(0x7F80_0000), Err(15)),
        ("also: minus zero", Fresh(0x8000_0000), Ok(0)),
    ];
    for (name, reading, expected) in cases {
        assert_eq!(interface::intake(reading), expected, "{name}");
        assert_eq!(reference::intake(reading), expected, "{name}, by the reference");
    }
}
