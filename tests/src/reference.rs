//! Document 01 in Rust, with the change requests of document 02 that have landed (the first five), written from the
//! documents alone: what the matcher's answers are held to. Where there is an obvious method, this is another one. A
//! call's outcome is what it answers, or the number of the refusal.

mod approximation;
mod batch;
mod causes;
mod distance;
mod library;
mod partition;
mod presence;
mod program;
mod reading;
mod search;
mod updates;

pub use approximation::{check_codes, codes_length, pack, pack_vectors, packed, regions_of, unpack};
pub use batch::batch;
pub use distance::{bounds, cell_vectors, distance, distance_between};
pub use library::{bytes_length, library_length, load, query, query_present, write};
pub use partition::{
    bits_of, check_marks, dimension_region, former_marks, made_marks, make_marks, marks_length, part, parts, region,
    region_of, regions, stretch,
};
pub use presence::{full_word, kept, present, word_of};
pub use program::program;
pub use reading::{intake, intake_present, is_nan, Reading};
pub use search::{best, scan, search};
pub use updates::{add, remove};
