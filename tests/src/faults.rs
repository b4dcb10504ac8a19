//! What can be wrong with an input, each fault with its cause's number, and the calls held to the order of the causes.

use crate::{
    calls::{Call, Given, BATCH, SEARCH},
    input::Input,
    interface, reference,
    samples::{GREATEST, LEAST},
};
use Given::*;

/// The causes of calls on numbers, in the order in which they are tested: that of document 01's table, with "18 .. after 19
/// in search and scan" and "19 .. after 4" (document 02, Slip 1), with 20 and 21, "both straight after 5" (Slip 3), and with
/// 22, "before all else" (Slip 5).
const ORDER: [u32; 15] = [22, 1, 2, 3, 4, 19, 18, 5, 20, 21, 6, 7, 8, 9, 10];

/// A cause's place in the order.
fn place_of(cause: u32) -> usize {
    ORDER.iter().position(|&other| other == cause).expect("the cause has a place")
}

/// A fault of an input that was right.
pub struct Fault {
    cause: u32,
    name: String,
    /// a call has this cause if it is given all of these
    of: &'static [Given],
    make: Box<dyn Fn(&mut Input)>,
}

impl Fault {
    fn concerns(&self, call: &Call) -> bool {
        self.of.iter().all(|given| call.takes.contains(given))
    }
}

/// Buffers whose length is fixed by the other numbers.
const BUFFERS: [Given; 24] = [
    Query,
    Marks,
    DimensionMarks,
    Codes,
    Regions,
    Vectors,
    Settings,
    NewVector,
    RoomMarks,
    RoomRegions,
    RoomCodes,
    RoomEntries,
    RoomReads,
    RoomLowers,
    RoomUppers,
    RoomBytes,
    RoomNewVectors,
    RoomNewSettings,
    RoomNewCodes,
    Queries,
    Words,
    RoomAnswers,
    RoomBatchEntries,
    RoomBatchReads,
];

fn length(input: &Input, buffer: Given) -> usize {
    match buffer {
        Query => input.query.len(),
        Marks => input.marks.len(),
        DimensionMarks => input.one.marks.len(),
        Codes => input.codes.len(),
        Regions => input.regions.len(),
        Vectors => input.vectors.len(),
        Settings => input.settings.len(),
        RoomMarks => input.room.marks,
        RoomRegions => input.room.regions,
        RoomCodes => input.room.codes,
        RoomEntries => input.room.entries,
        RoomReads => input.room.reads,
        RoomLowers => input.room.lowers,
        RoomUppers => input.room.uppers,
        RoomBytes => input.room.bytes,
        RoomNewVectors => input.room.new_vectors,
        RoomNewSettings => input.room.new_settings,
        RoomNewCodes => input.room.new_codes,
        Queries => input.batch.queries.len(),
        Words => input.batch.words.len(),
        RoomAnswers => input.room.answers,
        RoomBatchEntries => input.room.batch_entries,
        RoomBatchReads => input.room.batch_reads,
        Pair | NewVector => input.one.vector.len(),
        other => panic!("{other:?} is no buffer"),
    }
}

/// Cuts a buffer, or adds elements that are right by themselves.
fn resize(input: &mut Input, buffer: Given, length: usize) {
    let last = |marks: &[i32]| marks.last().copied().unwrap_or_default();
    match buffer {
        Query => input.query.resize(length, 0),
        Marks => input.marks.resize(length, last(&input.marks)),
        DimensionMarks => input.one.marks.resize(length, last(&input.one.marks)),
        Codes => input.codes.resize(length, 0),
        Regions => input.regions.resize(length, 0),
        Vectors => input.vectors.resize(length, last(&input.vectors)),
        Settings => input.settings.resize(length, 0),
        RoomMarks => input.room.marks = length,
        RoomRegions => input.room.regions = length,
        RoomCodes => input.room.codes = length,
        RoomEntries => input.room.entries = length,
        RoomReads => input.room.reads = length,
        RoomLowers => input.room.lowers = length,
        RoomUppers => input.room.uppers = length,
        RoomBytes => input.room.bytes = length,
        RoomNewVectors => input.room.new_vectors = length,
        RoomNewSettings => input.room.new_settings = length,
        RoomNewCodes => input.room.new_codes = length,
        Queries => input.batch.queries.resize(length, 0),
        Words => input.batch.words.resize(length, reference::full_word(input.d)),
        RoomAnswers => input.room.answers = length,
        RoomBatchEntries => input.room.batch_entries = length,
        RoomBatchReads => input.room.batch_reads = length,
        Pair | NewVector => input.one.vector.resize(length, 0),
        other => panic!("{other:?} is no buffer"),
    }
}

struct Faults(Vec<Fault>);

impl Faults {
    fn add(&mut self, cause: u32, of: &'static [Given], name: String, make: impl Fn(&mut Input) + 'static) {
        self.0.push(Fault { cause, name, of, make: Box::new(make) });
    }

    /// A count put in its place, each of these.
    fn counts(&mut self, cause: u32, of: &'static [Given], counts: &[usize], place: fn(&mut Input) -> &mut usize) {
        for &count in counts {
            self.add(cause, of, format!("{of:?} {count}"), move |input| *place(input) = count);
        }
    }

    /// A number put at an index, each of these.
    fn numbers(
        &mut self,
        cause: u32,
        of: &'static [Given],
        at: usize,
        numbers: &[i32],
        place: fn(&mut Input) -> &mut Vec<i32>,
    ) {
        for &number in numbers {
            self.add(cause, of, format!("{number} at {at} of {of:?}"), move |input| place(input)[at] = number);
        }
    }

    /// One dimension's marks out of range, each by itself, or falling. They begin at an index.
    fn marks(&mut self, of: &'static [Given], start: usize, marks: &[i32], place: fn(&mut Input) -> &mut Vec<i32>) {
        let last = marks.len() - 1;
        self.numbers(7, of, start, &[LEAST - 1, i32::MIN], place);
        self.numbers(7, of, start + last, &[GREATEST + 2, i32::MAX], place);
        for at in [0, last - 1] {
            if marks[at] > LEAST {
                self.numbers(7, of, start + at + 1, &[marks[at] - 1], place);
            }
            if marks[at + 1] <= GREATEST {
                self.numbers(7, of, start + at, &[marks[at + 1] + 1], place);
            }
        }
    }
}

/// Numbers that are no components.
const NO_COMPONENTS: [i32; 4] = [LEAST - 1, GREATEST + 1, i32::MIN, i32::MAX];

/// The first and the last of so many.
fn ends(count: usize) -> Vec<usize> {
    let mut ends = vec![0, count - 1];
    ends.dedup();
    ends
}

/// Faults of an input that is right: each has its cause, whatever faults of later causes there are besides.
fn faults(input: &Input) -> Vec<Fault> {
    // not seen in a count's low 32 bits
    const WIDE: usize = 1 << 32;
    let mut faults = Faults(vec![]);
    let Input { d, b, n, k, j, .. } = *input;

    let too_many = [65, 66, 128, input.batch.m + WIDE, input.batch.m + (1 << 58), 1 << 63, usize::MAX];
    faults.counts(22, &[M], &too_many, |input| &mut input.batch.m);
    faults.counts(1, &[D], &[0, 33, 64, d + WIDE, 1 << 63, usize::MAX], |input| &mut input.d);
    faults.counts(1, &[J], &[0, d + 1, 33, j + WIDE, usize::MAX], |input| &mut input.j);
    for length in [0, 33, 64] {
        faults.add(1, &[Pair], format!("query of {length}"), move |input| resize(input, Query, length));
    }
    faults.counts(2, &[B], &[6 * d + 1, 6 * d + 2, b + WIDE, 1 << 63, usize::MAX], |input| &mut input.b);
    let none = [0, 3, 5, 6, 63, 65, 96, 128, WIDE, WIDE + input.one.regions, 1 << 63, usize::MAX];
    faults.counts(2, &[DimensionMarks], &none, |input| &mut input.one.regions);
    faults.counts(3, &[N], &[0, 513, 1024, n + WIDE, n + (1 << 61), usize::MAX], |input| &mut input.n);
    faults.counts(4, &[K], &[0, n + 1, 513, k + WIDE, usize::MAX], |input| &mut input.k);
    word_faults(input, &mut faults);

    for (at, buffer) in BUFFERS.into_iter().enumerate() {
        let exact = length(input, buffer);
        for length in [0, exact.saturating_sub(1), exact + 1, 2 * exact + 1].into_iter().filter(|&l| l != exact) {
            let name = format!("{buffer:?} of {length} for {exact}");
            faults.add(5, &BUFFERS[at..at + 1], name, move |input| resize(input, buffer, length));
        }
    }
    for length in [0, d - 1, d + 1, 2 * d].into_iter().filter(|&l| l != d) {
        faults.add(5, &[Pair], format!("vector of {length} for {d}"), move |input| resize(input, Pair, length));
    }
    let not_stored = [n, n + 1, 512, input.one.number + WIDE, usize::MAX];
    faults.counts(21, &[Number], &not_stored, |input| &mut input.one.number);

    for at in ends(d) {
        faults.numbers(6, &[NewVector], at, &NO_COMPONENTS, |input| &mut input.one.vector);
        faults.numbers(6, &[Query], at, &NO_COMPONENTS, |input| &mut input.query);
        faults.numbers(6, &[Pair], at, &NO_COMPONENTS, |input| &mut input.query);
        faults.numbers(6, &[Pair], at, &NO_COMPONENTS, |input| &mut input.one.vector);
    }
    for at in ends(n * d) {
        faults.numbers(6, &[Components], at, &NO_COMPONENTS, |input| &mut input.vectors);
    }

    let parts = reference::parts(d, b);
    for dimension in ends(d) {
        let part = parts[dimension].clone();
        faults.marks(&[Marks], part.start, &input.marks[part], |input| &mut input.marks);
    }
    faults.marks(&[DimensionMarks], 0, &input.one.marks, |input| &mut input.one.marks);

    outside_faults(input, &mut faults);
    code_faults(input, &mut faults);
    cell_faults(input, &mut faults);
    faults.0
}

/// 19: bits at and above d; 18: too few dimensions present, the first of them or the last.
fn word_faults(input: &Input, faults: &mut Faults) {
    let d = input.d;
    let full = reference::full_word(d);
    if d < 32 {
        for bits in [1 << d, 1 << 31, !full] {
            faults.add(19, &[Word], format!("bits {bits:x} at or above d"), move |input| input.word |= bits);
        }
    }
    for count in 0..d.min(4) {
        for word in [reference::full_word(count), full & !reference::full_word(d - count)] {
            faults.add(18, &[Word], format!("word {word:x}"), move |input| input.word = word);
        }
    }
}

/// 8: components and values just outside the marks.
fn outside_faults(input: &Input, faults: &mut Faults) {
    let Input { d, b, n, .. } = *input;
    let parts = reference::parts(d, b);
    let outside = |at: usize| -> Vec<i32> {
        let marks = &input.marks[parts[at % d].clone()];
        [marks[0] - 1, marks[marks.len() - 1]].into_iter().filter(|v| (LEAST..=GREATEST).contains(v)).collect()
    };
    for at in ends(n * d) {
        faults.numbers(8, &[Components, Marks], at, &outside(at), |input| &mut input.vectors);
    }
    for at in ends(d) {
        faults.numbers(8, &[NewVector, Marks], at, &outside(at), |input| &mut input.one.vector);
    }
    let marks = &input.one.marks;
    for value in [marks[0] - 1, marks[marks.len() - 1], LEAST - 1, GREATEST + 1, i32::MIN, i32::MAX] {
        let make = move |input: &mut Input| input.one.value = value;
        faults.add(8, &[DimensionMarks, Value], format!("value {value}"), make);
        faults.add(8, &[J, Marks, Value], format!("value {value}"), make);
    }
}

/// 9: region numbers past the last, spare bits set, empty regions named.
fn code_faults(input: &Input, faults: &mut Faults) {
    let Input { d, b, n, .. } = *input;
    let parts = reference::parts(d, b);
    for at in ends(n * d) {
        let regions = parts[at % d].len() as u8 - 1;
        for region in [regions, regions + 1, 255] {
            let make = move |input: &mut Input| input.regions[at] = region;
            faults.add(9, &[Regions], format!("region {region} of {regions} at {at}"), make);
        }
    }
    for bit in 0..8 * input.codes.len() - n * b {
        let make = move |input: &mut Input| *input.codes.last_mut().expect("there are spare bits") |= 1 << bit;
        faults.add(9, &[Codes], format!("spare bit {bit} set"), make);
    }
    for at in ends(n * d) {
        let marks = &input.marks[parts[at % d].clone()];
        let empty = (0..marks.len() - 1).filter(|&r| marks[r] == marks[r + 1]);
        for region in empty.take(2) {
            let mut regions = input.regions.clone();
            regions[at] = region as u8;
            let codes = reference::packed(d, b, &regions);
            let name = format!("empty region {region} named at {at}");
            faults.add(9, &[Codes, Marks], name, move |input| input.codes.clone_from(&codes));
        }
    }
}

/// 10: a vector that is read, put outside its code's cell.
fn cell_faults(input: &Input, faults: &mut Faults) {
    let Input { d, b, .. } = *input;
    let parts = reference::parts(d, b);
    let reads = reference::search(input).expect("the input is right").reads;
    for read in ends(reads.len()) {
        for dimension in ends(d) {
            let at = reads[read] as usize * d + dimension;
            let (marks, region) = (&input.marks[parts[dimension].clone()], usize::from(input.regions[at]));
            let outside = [marks[region] - 1, marks[region + 1], i32::MIN, i32::MAX];
            faults.numbers(10, &[Cells], at, &outside, |input| &mut input.vectors);
        }
    }
}

/// The faults of an input that concern a call, in the order in which their causes are tested.
fn faults_for(call: &Call, input: &Input) -> Vec<Fault> {
    call.gives(0, input);
    let faults: Vec<Fault> = faults(input).into_iter().filter(|fault| fault.concerns(call)).collect();
    assert!(faults.is_sorted_by_key(|fault| place_of(fault.cause)));
    faults
}

/// Each fault by itself is refused with its number.
pub fn assert_each_refusal(call: &Call, input: &Input) {
    faults_for(call, input).iter().for_each(|fault| assert_refused(call, input, &[fault]));
}

/// Each fault is refused with its number, and of any two faults the one whose cause is tested first decides. Each cause of
/// the call is there.
pub fn assert_refusals(call: &Call, inputs: &[Input]) {
    assert_tried(call, tried_in_order(call, inputs), call.causes);
}

/// The same, where some inputs are right but for a cause that lies in how large the library is. It decides unless a fault
/// is there whose cause is tested before it.
pub fn assert_refusals_of_size(call: &Call, inputs: &[Input], cause: u32, refused: &[Input]) {
    let mut causes = tried_in_order(call, inputs);
    for input in refused {
        call.gives(cause, input);
        for fault in faults(input).iter().filter(|fault| fault.concerns(call)) {
            let first = if place_of(fault.cause) < place_of(cause) { fault.cause } else { cause };
            call.gives(first, &spoilt(input, &[fault]));
        }
        causes.push(cause);
    }
    assert_tried(call, causes, call.causes);
}

/// Tries each fault of each input, and any two of them; the causes that were there.
fn tried_in_order(call: &Call, inputs: &[Input]) -> Vec<u32> {
    let mut causes = vec![];
    for input in inputs {
        let faults = faults_for(call, input);
        assert_in_order(call, input, &faults);
        causes.extend(faults.iter().map(|fault| fault.cause));
    }
    causes
}

/// Two inputs that differ in their marks alone are refused with the same numbers, for all faults but those in the
/// content of marks and codes and in vectors that are read (7, 9, 10).
pub fn assert_same_refusals(call: &Call, pairs: &[[Input; 2]]) {
    let due: Vec<u32> = call.causes.iter().copied().filter(|cause| ![7, 9, 10].contains(cause)).collect();
    let mut causes = vec![];
    for pair in pairs {
        let mut faults = faults_for(call, &pair[0]);
        faults.retain(|fault| due.contains(&fault.cause));
        pair.iter().for_each(|input| assert_in_order(call, input, &faults));
        causes.extend(faults.iter().map(|fault| fault.cause));
    }
    assert_tried(call, causes, &due);
}

/// The causes that are a query's own in a batch, in the order in which they are tested.
const OF_A_QUERY: [u32; 4] = [19, 18, 6, 10];

/// The faults of a batch that is right which refuse one of its queries: those of a single search for it that are the query's
/// own.
fn faults_of_query(input: &Input, i: usize) -> Vec<Fault> {
    let own = faults_for(&SEARCH, &input.single(i)).into_iter().filter(|fault| OF_A_QUERY.contains(&fault.cause));
    let in_batch = |Fault { cause, name, of, make }: Fault| {
        let make = move |input: &mut Input| {
            let mut single = input.single(i);
            make(&mut single);
            input.batch.queries[i * input.d..(i + 1) * input.d].copy_from_slice(&single.query);
            (input.batch.words[i], input.vectors) = (single.word, single.vectors);
        };
        Fault { cause, name: format!("query {i}: {name}"), of, make: Box::new(make) }
    };
    own.map(in_batch).collect()
}

/// Each fault of each query refuses it with its number, and not the batch. Of any two faults of a query the one whose cause
/// is tested first decides. The other queries have what they had, unless a vector is another. Each cause of a query is
/// there.
pub fn assert_query_refusals(inputs: &[Input]) {
    let mut causes = vec![];
    for input in inputs {
        for i in 0..input.batch.m {
            let faults = faults_of_query(input, i);
            for (place, second) in faults.iter().enumerate() {
                assert_query_refused(input, i, &[second]);
                faults[..place].iter().for_each(|first| assert_query_refused(input, i, &[second, first]));
            }
            causes.extend(faults.iter().map(|fault| fault.cause));
        }
    }
    causes.sort_by_key(|&cause| place_of(cause));
    causes.dedup();
    assert_eq!(causes, OF_A_QUERY, "the causes of a query that were tried");
}

fn assert_query_refused(input: &Input, i: usize, faults: &[&Fault]) {
    let faulty = spoilt(input, faults);
    BATCH.gives(0, &faulty);
    let _told = faulty.told();
    let outcomes = interface::batch(&faulty).expect("the batch is not refused");
    let cause = faults.iter().map(|fault| fault.cause).min_by_key(|&cause| place_of(cause));
    assert_eq!(outcomes[i].as_ref().err(), cause.as_ref(), "query {i}: the number due is on the right");
    if faulty.vectors == input.vectors {
        let mut others = interface::batch(input).expect("the input is right");
        others[i] = outcomes[i].clone();
        assert_eq!(outcomes, others, "the other queries before are on the right");
    }
}

/// With any fault of a query, each fault of the batch refuses it whole, with its number.
pub fn assert_refused_whole(inputs: &[Input]) {
    for input in inputs {
        let whole = faults_for(&BATCH, input);
        for of_query in (0..input.batch.m).flat_map(|i| faults_of_query(input, i)) {
            whole.iter().for_each(|fault| BATCH.gives(fault.cause, &spoilt(input, &[&of_query, fault])));
        }
    }
}

fn assert_in_order(call: &Call, input: &Input, faults: &[Fault]) {
    for (place, second) in faults.iter().enumerate() {
        assert_refused(call, input, &[second]);
        faults[..place].iter().for_each(|first| assert_refused(call, input, &[second, first]));
    }
}

fn assert_tried(call: &Call, mut causes: Vec<u32>, due: &[u32]) {
    causes.sort_by_key(|&cause| place_of(cause));
    causes.dedup();
    assert_eq!(causes, due, "the causes of {} that were tried", call.name);
}

fn assert_refused(call: &Call, input: &Input, faults: &[&Fault]) {
    let cause = faults.iter().map(|fault| fault.cause).min_by_key(|&cause| place_of(cause));
    call.gives(cause.expect("there is a fault"), &spoilt(input, faults));
}

/// The input with these faults. They stand with the later cause first, so that a length is changed after the contents.
fn spoilt(input: &Input, faults: &[&Fault]) -> Input {
    let mut faulty = input.clone();
    for fault in faults {
        (fault.make)(&mut faulty);
        faulty.origin += &format!("; {}", fault.name);
    }
    faulty
}

/// Each buffer that the call takes is refused with 5 at every other length.
pub fn assert_lengths(call: &Call, input: &Input) {
    for buffer in BUFFERS.into_iter().filter(|buffer| call.takes.contains(buffer)) {
        let exact = length(input, buffer);
        for length in (0..exact + 10).chain([2 * exact, 8 * exact, 16_384]).filter(|&length| length != exact) {
            let mut faulty = input.clone();
            resize(&mut faulty, buffer, length);
            faulty.origin += &format!("; {buffer:?} of {length} for {exact}");
            call.gives(5, &faulty);
        }
    }
}
