//! The machine code of the optimised build: what the compiler left of the tests for a NaN.

use std::{collections::BTreeSet, process::Command};
use tests::{c, machine_code::Code};

/// The calls that a float is handed in to.
const CALLS: [&str; 4] =
    ["matcher_fresh_value", "matcher_held_value", "matcher_fresh_value_present", "matcher_held_value_present"];

/// The name of the function whose listing a place stands in.
fn function_at(listing: &str, place: usize) -> &str {
    let heads = listing[..place].lines().rev();
    let mut names = heads.filter_map(|line| Some(line.strip_suffix(">:")?.split_once(" <")?.1));
    names.next().expect("a function stands there")
}

/// A listing in which no float is compared with itself, each such instruction replaced by one that does nothing.
fn without_comparisons_with_itself(listing: &str) -> String {
    let of_itself = |line: &str| {
        let operands = line.split_once("ucomiss ")?.1.split_once(',')?;
        (operands.0 == operands.1.trim()).then(|| line.replace("ucomiss", "nop    "))
    };
    listing.lines().map(|line| of_itself(line).unwrap_or_else(|| line.to_string()) + "\n").collect()
}

/// The bits of a float are taken, and never those of a NaN: the comparisons that refuse it still stand before, and refuse it
/// without any comparison of a float with itself. If one of them were gone, this would be told of each call that comes to it.
#[test]
fn no_bits_of_a_nan_are_taken() {
    let library = c::root().join("target/staticlib/libmatcher.a");
    let listing = c::output(Command::new("objdump").args(["-dr", "--no-show-raw-insn"]).arg(library));
    let as_built = Code::of(&listing);
    let listing = without_comparisons_with_itself(&listing);
    let code = Code::of(&listing);
    for call in CALLS {
        for code in [&as_built, &code] {
            let taken = code.bits_taken(call);
            assert!(taken.all > 0, "{call}: no instruction takes the bits of a float");
            assert_eq!(taken.of_a_nan, 0, "{call}: places where the bits of a NaN are taken, of {}", taken.all);
        }
    }
    let mut told = BTreeSet::new();
    for (place, _) in listing.match_indices("ucomiss") {
        let without = format!("{}nop    {}", &listing[..place], &listing[place + "ucomiss".len()..]);
        let (without, function) = (Code::of(&without), function_at(&listing, place));
        let concerned: Vec<&str> = CALLS.into_iter().filter(|call| code.reached(call).contains(function)).collect();
        assert!(!concerned.is_empty(), "no call comes to the comparison in {function}");
        for call in concerned {
            assert_ne!(
                without.bits_taken(call).of_a_nan,
                0,
                "{call}, without the comparison at {place}, in {function}"
            );
            told.insert(call);
        }
    }
    assert_eq!(told, CALLS.into(), "the calls that come to a comparison");
}
