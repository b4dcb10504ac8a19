//! The program (document 01, "The program"; document 02, Slip 1: "goes over to both and no longer gives 13"): its whole
//! output for an input.

use super::{
    causes,
    distance::{present_bounds, present_distance, Cell},
    library::{load, query_present},
    partition::{parts, region_of},
    presence::present,
    search::{reading, scanned},
};
use crate::input::{LoadRoom, Loaded, Query};

/// "Standard input: a library, k (2 bytes), a query. Its first fault from the left comes out as `refused ` and the
/// number"; "each line ended by byte 10".
pub fn program(input: &[u8]) -> String {
    let lines = matched(input).unwrap_or_else(|number| vec![format!("refused {number}")]);
    lines.into_iter().map(|line| line + "\n").collect()
}

/// "line one is k and the read count; then one line for each entry: number, settings, distance": the answer is the full
/// scan's, the count the reading order's.
fn matched(input: &[u8]) -> Result<Vec<String>, u32> {
    let library = load(input, LoadRoom::LARGEST)?;
    let (k, rest) = causes::whole(input[library.used..].split_first_chunk())?;
    let k = usize::from(u16::from_le_bytes(*k));
    causes::neighbours(library.n, k)?;
    let Query { components: query, word } = query_present(library.d, rest, library.d)?;
    let present = present(word);

    let vectors: Vec<&[i32]> = library.components.chunks(library.d).collect();
    let bounds: Vec<i128> =
        vectors.iter().map(|vector| present_bounds(&present, &query, &cell(&library, vector)).0).collect();
    let read = reading(&bounds, k, |number| Ok(present_distance(&present, &query, vectors[number])))?;
    let mut lines = vec![format!("{k} {}", read.len())];
    for (distance, number) in scanned(&present, &query, &library.components, k) {
        lines.push(format!("{number} {} {distance}", library.settings[number]));
    }
    Ok(lines)
}

/// The cell of a vector's own code: the regions that its components lie in.
fn cell(library: &Loaded, vector: &[i32]) -> Cell {
    let values = |(part, &component): (std::ops::Range<usize>, &i32)| {
        let marks = &library.marks[part];
        let region = region_of(marks, component).expect("what is loaded lies inside the marks");
        marks[region]..=marks[region + 1] - 1
    };
    parts(library.d, library.b).into_iter().zip(vector).map(values).collect()
}

#[cfg(test)]
mod tests {
    use super::program;
    use crate::samples::{file, library_a};

    /// Document 01, "Cases": "A written out (391 bytes), 02 00, then 05 00 00 40 3D 05 00 00 C0 3C".
    const REST: [u8; 12] = [0x02, 0x00, 0x05, 0x00, 0x00, 0x40, 0x3D, 0x05, 0x00, 0x00, 0xC0, 0x3C];

    fn with_a(rest: &[u8]) -> String {
        program(&[&file(&library_a([0, 0], 1)), rest].concat())
    }

    #[test]
    fn the_case_prints_its_three_lines() {
        assert_eq!(with_a(&REST), "2 3\n3 104 1\n4 105 61\n");
    }

    #[test]
    fn the_first_fault_from_the_left_is_told() {
        assert_eq!(program(&[]), "refused 12\n");
        assert_eq!(with_a(&[]), "refused 12\n", "before k");
        assert_eq!(with_a(&REST[..1]), "refused 12\n", "inside k");
        assert_eq!(with_a(&[0, 0, 7]), "refused 4\n", "k is 0, and the reading lost");
        assert_eq!(with_a(&[6, 0, 7]), "refused 4\n", "k above n");
        assert_eq!(with_a(&[5, 0, 7]), "refused 12\n", "change request 1: a lost reading is no fault by itself");
        assert_eq!(with_a(&[5, 0, 7, 7]), "refused 18\n", "both lost");
        assert_eq!(with_a(&[&[5, 0, 7], &REST[2..7]].concat()), "refused 18\n", "one lost of two");
        assert_eq!(with_a(&[5, 0, 7, 7, 7]), "refused 16\n", "both lost, and a byte behind");
        assert_eq!(with_a(&REST[..11]), "refused 12\n", "inside the query");
        assert_eq!(with_a(&[&REST[..], &[0]].concat()), "refused 16\n");
    }
}
