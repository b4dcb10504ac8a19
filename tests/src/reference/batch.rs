//! A batch of queries (document 02, Slip 5): single searches in turn, once nothing refuses the batch whole.

use super::{
    approximation::{codes_length, good_codes},
    causes,
    partition::marks_length,
    search,
};
use crate::input::{Found, Input, Room};

/// Each query's own outcome, "equal to what single calls give in turn", where "Causes of the library (10 aside, which is
/// the query's), of k and of lengths" do not "refuse the batch whole".
pub fn batch(input: &Input) -> Result<Vec<Result<Found, u32>>, u32> {
    let Input { d, b, n, k, marks, codes, vectors, batch, room, .. } = input;
    causes::queries(batch.m)?;
    causes::shape(*d, *b)?;
    causes::count(*n)?;
    causes::neighbours(*n, *k)?;
    causes::lengths(&[(marks.len(), marks_length(*d, *b)), (codes.len(), codes_length(*n, *b))])?;
    causes::lengths(&[(vectors.len(), n * d), (batch.queries.len(), batch.m * d), (batch.words.len(), batch.m)])?;
    let filled = [(room.answers, batch.m), (room.batch_entries, batch.m * k), (room.batch_reads, batch.m * n)];
    causes::lengths(&filled)?;
    causes::marks(*d, *b, marks)?;
    good_codes(input)?;

    let alone = Input { room: Room { entries: *k, reads: *n, ..room.clone() }, ..input.clone() };
    let query = |(query, &word): (&[i32], &u32)| search(&Input { query: query.to_vec(), word, ..alone.clone() });
    Ok(batch.queries.chunks(*d).zip(&batch.words).map(query).collect())
}
