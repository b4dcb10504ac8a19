//! The matcher's C interface. Each call is wrapped in a function that gives what the call answers, or the number of the
//! refusal, and that holds the call to leaving as it was what it has no right to change, refused or not.

mod approximation;
mod batch;
mod distance;
mod intake;
mod layout;
mod lent;
mod library;
mod partition;
mod program;
mod search;
mod updates;

pub use approximation::{check_codes, pack, pack_vectors, unpack};
pub use batch::batch;
pub use distance::{bounds, distance};
pub use intake::{
    fresh, fresh_present, fresh_value, fresh_value_present, held, held_present, held_value, held_value_present, intake,
    intake_present, lost, lost_present,
};
pub use layout::{answer_layout, batch_from_c, entry_layout, scan_from_c};
pub use library::{library_length, load, query, query_present, write};
pub use partition::{check_marks, dimension_region, make_marks, part, region, regions, stretch};
pub use program::program;
pub use search::{scan, search};
pub use updates::{add, remove};
