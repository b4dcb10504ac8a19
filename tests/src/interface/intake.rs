//! Readings, by the first intake and by the second. A refusal leaves the component as it was.

use crate::reference::Reading;

extern "C" {
    fn matcher_fresh(bits: u32, component: *mut i32) -> u32;
    fn matcher_held(bits: u32, age: u8, component: *mut i32) -> u32;
    fn matcher_lost(component: *mut i32) -> u32;
    fn matcher_fresh_value(value: f32, component: *mut i32) -> u32;
    fn matcher_held_value(value: f32, age: u8, component: *mut i32) -> u32;
    fn matcher_fresh_present(bits: u32, component: *mut i32, present: *mut u32) -> u32;
    fn matcher_held_present(bits: u32, age: u8, component: *mut i32, present: *mut u32) -> u32;
    fn matcher_lost_present(component: *mut i32, present: *mut u32) -> u32;
    fn matcher_fresh_value_present(value: f32, component: *mut i32, present: *mut u32) -> u32;
    fn matcher_held_value_present(value: f32, age: u8, component: *mut i32, present: *mut u32) -> u32;
}

/// What the component's place holds before a call: no component.
const UNTOUCHED: i32 = 0x5AC3_69B7;

/// Safe for each call above: it does no more than write an i32 through the pointer, which leads to one.
#[inline]
fn outcome(call: impl FnOnce(*mut i32) -> u32) -> Result<i32, u32> {
    let mut component = UNTOUCHED;
    match call(&mut component) {
        0 => Ok(component),
        number => {
            assert_eq!(component, UNTOUCHED, "refused with {number}, and the component was written");
            Err(number)
        }
    }
}

/// A fresh reading of the value with these bits.
#[inline]
pub fn fresh(bits: u32) -> Result<i32, u32> {
    outcome(|component| unsafe { matcher_fresh(bits, component) })
}

/// A held reading of the value with these bits.
#[inline]
pub fn held(bits: u32, age: u8) -> Result<i32, u32> {
    outcome(|component| unsafe { matcher_held(bits, age, component) })
}

/// A lost reading.
#[inline]
pub fn lost() -> Result<i32, u32> {
    outcome(|component| unsafe { matcher_lost(component) })
}

/// A fresh reading of a float itself.
#[inline]
pub fn fresh_value(value: f32) -> Result<i32, u32> {
    outcome(|component| unsafe { matcher_fresh_value(value, component) })
}

/// A held reading of a float itself.
#[inline]
pub fn held_value(value: f32, age: u8) -> Result<i32, u32> {
    outcome(|component| unsafe { matcher_held_value(value, age, component) })
}

/// The call for a reading.
#[inline]
pub fn intake(reading: Reading) -> Result<i32, u32> {
    match reading {
        Reading::Fresh(bits) => fresh(bits),
        Reading::Held(bits, age) => held(bits, age),
        Reading::Lost => lost(),
    }
}

// ---- the second intake

/// What the second intake makes of a reading: none where it is absent, with the filler 0 in the component's place. Safe
/// for each call above: it does no more than write an i32 and a u32 through the pointers, each of which leads to one.
#[inline]
fn taken(call: impl FnOnce(*mut i32, *mut u32) -> u32) -> Result<Option<i32>, u32> {
    let (mut component, mut present) = (UNTOUCHED, UNTOUCHED as u32);
    match (call(&mut component, &mut present), present) {
        (0, 1) => Ok(Some(component)),
        (0, 0) => {
            assert_eq!(component, 0, "absent, and the filler is not 0");
            Ok(None)
        }
        (0, other) => panic!("present is {other}, neither 0 nor 1"),
        (number, present) => {
            assert_eq!(component, UNTOUCHED, "refused with {number}, and the component was written");
            assert_eq!(present, 0, "refused with {number}, and present");
            Err(number)
        }
    }
}

/// A fresh reading of the value with these bits.
#[inline]
pub fn fresh_present(bits: u32) -> Result<Option<i32>, u32> {
    taken(|component, present| unsafe { matcher_fresh_present(bits, component, present) })
}

/// A held reading of the value with these bits.
#[inline]
pub fn held_present(bits: u32, age: u8) -> Result<Option<i32>, u32> {
    taken(|component, present| unsafe { matcher_held_present(bits, age, component, present) })
}

/// A lost reading.
#[inline]
pub fn lost_present() -> Result<Option<i32>, u32> {
    taken(|component, present| unsafe { matcher_lost_present(component, present) })
}

/// A fresh reading of a float itself.
#[inline]
pub fn fresh_value_present(value: f32) -> Result<Option<i32>, u32> {
    taken(|component, present| unsafe { matcher_fresh_value_present(value, component, present) })
}

/// A held reading of a float itself.
#[inline]
pub fn held_value_present(value: f32, age: u8) -> Result<Option<i32>, u32> {
    taken(|component, present| unsafe { matcher_held_value_present(value, age, component, present) })
}

/// The call of the second intake for a reading.
#[inline]
pub fn intake_present(reading: Reading) -> Result<Option<i32>, u32> {
    match reading {
        Reading::Fresh(bits) => fresh_present(bits),
        Reading::Held(bits, age) => held_present(bits, age),
        Reading::Lost => lost_present(),
    }
}
