//! The calls on numbers: what each is given, and the causes that it can be refused for.

use crate::{input::Input, interface, reference};
use std::fmt::Debug;

/// One thing that calls are given.
#[derive(Clone, Copy, PartialEq, Eq, Debug)]
pub enum Given {
    /// the number of a batch's queries
    M,
    D,
    B,
    N,
    K,
    /// a dimension
    J,
    /// the presence word
    Word,
    /// a query, of d components
    Query,
    /// a query whose length is d, and a vector
    Pair,
    Marks,
    /// one dimension's marks, with their number of regions
    DimensionMarks,
    /// a value whose region is sought
    Value,
    Codes,
    Regions,
    /// vectors, of which the call tests the length alone
    Vectors,
    /// vectors whose components the call tests
    Components,
    Settings,
    /// a vector to add, whose components the call tests
    NewVector,
    /// the number of a vector to remove
    Number,
    /// vectors that the call reads if the reading order does
    Cells,
    /// the queries of a batch, one behind the other
    Queries,
    /// their presence words
    Words,
    RoomMarks,
    RoomRegions,
    RoomCodes,
    RoomEntries,
    RoomReads,
    RoomLowers,
    RoomUppers,
    RoomBytes,
    RoomNewVectors,
    RoomNewSettings,
    RoomNewCodes,
    RoomAnswers,
    RoomBatchEntries,
    RoomBatchReads,
}

/// A call, in the interface and in the reference.
pub struct Call {
    pub name: &'static str,
    pub takes: &'static [Given],
    /// in the order in which they are tested
    pub causes: &'static [u32],
    number: fn(&Input) -> u32,
}

impl Call {
    /// Holds the call to the reference, and gives the number of its refusal, or 0.
    pub fn number(&self, input: &Input) -> u32 {
        (self.number)(input)
    }

    /// The call agrees with the reference, and this is its number.
    #[track_caller]
    pub fn gives(&self, number: u32, input: &Input) {
        let given = self.number(input);
        let _told = input.told();
        assert_eq!(given, number, "{}: the number due is on the right", self.name);
    }
}

/// The number of the outcome of both, which is the same.
fn agreed<T: PartialEq + Debug>(
    name: &str,
    input: &Input,
    interface: impl Fn(&Input) -> Result<T, u32>,
    reference: impl Fn(&Input) -> Result<T, u32>,
) -> u32 {
    let _told = input.told();
    let outcome = interface(input);
    assert_eq!(outcome, reference(input), "{name}: the reference is on the right");
    outcome.err().unwrap_or(0)
}

macro_rules! call {
    ($name:ident, [$($given:ident),*], [$($cause:literal),*]) => {
        Call {
            name: stringify!($name),
            takes: &[$(Given::$given),*],
            causes: &[$($cause),*],
            number: |input| agreed(stringify!($name), input, interface::$name, reference::$name),
        }
    };
}

pub const STRETCH: Call = call!(stretch, [D, B, J], [1, 2]);
pub const CHECK_MARKS: Call = call!(check_marks, [D, B, Marks], [1, 2, 5, 7]);
pub const PART: Call = call!(part, [D, B, J, Marks], [1, 2, 5, 7]);
pub const DIMENSION_REGION: Call = call!(dimension_region, [D, B, J, Marks, Value], [1, 2, 5, 7, 8]);
pub const REGION: Call = call!(region, [DimensionMarks, Value], [2, 5, 7, 8]);
pub const MAKE_MARKS: Call = call!(make_marks, [D, B, N, Vectors, Components, RoomMarks], [1, 2, 3, 5, 6]);
pub const REGIONS: Call = call!(regions, [D, B, N, Vectors, Components, Marks, RoomRegions], [1, 2, 3, 5, 6, 7, 8]);
pub const PACK: Call = call!(pack, [D, B, N, Regions, RoomCodes], [1, 2, 3, 5, 9]);
pub const PACK_VECTORS: Call =
    call!(pack_vectors, [D, B, N, Vectors, Components, Marks, RoomCodes], [1, 2, 3, 5, 6, 7, 8]);
pub const UNPACK: Call = call!(unpack, [D, B, N, Codes, RoomRegions], [1, 2, 3, 5, 9]);
pub const CHECK_CODES: Call = call!(check_codes, [D, B, N, Marks, Codes], [1, 2, 3, 5, 7, 9]);
pub const ADD: Call = call!(
    add,
    [D, B, N, Marks, Codes, Settings, Vectors, Components, NewVector, RoomNewVectors, RoomNewSettings, RoomNewCodes],
    [1, 2, 3, 5, 20, 6, 7, 8, 9]
);
pub const REMOVE: Call = call!(
    remove,
    [D, B, N, Marks, Codes, Settings, Vectors, Components, Number, RoomNewVectors, RoomNewSettings, RoomNewCodes],
    [1, 2, 3, 5, 21, 6, 7, 8, 9]
);
pub const DISTANCE: Call = call!(distance, [Pair], [1, 5, 6]);
pub const BOUNDS: Call =
    call!(bounds, [D, B, N, Word, Query, Marks, Codes, RoomLowers, RoomUppers], [1, 2, 3, 19, 18, 5, 6, 7, 9]);
pub const SCAN: Call = call!(scan, [D, N, K, Word, Query, Vectors, Components, RoomEntries], [1, 3, 4, 19, 18, 5, 6]);
pub const SEARCH: Call = call!(
    search,
    [D, B, N, K, Word, Query, Marks, Codes, Vectors, Cells, RoomEntries, RoomReads],
    [1, 2, 3, 4, 19, 18, 5, 6, 7, 9, 10]
);
/// The causes are those of the whole batch; a query's own are in its status.
pub const BATCH: Call = call!(
    batch,
    [M, D, B, N, K, Queries, Words, Marks, Codes, Vectors, RoomAnswers, RoomBatchEntries, RoomBatchReads],
    [22, 1, 2, 3, 4, 5, 7, 9]
);
pub const WRITE: Call = call!(write, [D, B, N, Marks, Settings, Vectors, Components, RoomBytes], [1, 2, 3, 5, 6, 7, 8]);
pub const LIBRARY_LENGTH: Call = call!(library_length, [D, B, N], [1, 2, 3]);

/// All of them.
pub const ALL: [&Call; 20] = [
    &STRETCH,
    &CHECK_MARKS,
    &PART,
    &DIMENSION_REGION,
    &REGION,
    &MAKE_MARKS,
    &REGIONS,
    &PACK,
    &PACK_VECTORS,
    &UNPACK,
    &CHECK_CODES,
    &ADD,
    &REMOVE,
    &DISTANCE,
    &BOUNDS,
    &SCAN,
    &SEARCH,
    &BATCH,
    &WRITE,
    &LIBRARY_LENGTH,
];
