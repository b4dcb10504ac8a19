//! Makes the sample inputs of the program: a library, k, and a query. The folder is named on the command line.

use std::{env, error::Error, fs, path::PathBuf};

/// A stored tractor: its settings number and its components.
struct Vector {
    settings: u32,
    components: Vec<i16>,
}

/// The records of a reading (document 01, "Library file").
enum Reading {
    Fresh(f32),
    /// with its age in tenths of a second
    Held(f32, u8),
    Lost,
}
use Reading::{Fresh, Held, Lost};

// ---- records

/// One head, the marks, the vectors, one end.
fn library(b: usize, marks: &[Vec<i32>], vectors: &[Vector]) -> Vec<u8> {
    let mut bytes = vec![1, marks.len() as u8, b as u8];
    bytes.extend((vectors.len() as u16).to_le_bytes());
    for mark in marks.concat() {
        bytes.push(2);
        bytes.extend(mark.to_le_bytes());
    }
    for vector in vectors {
        bytes.push(3);
        bytes.extend(vector.settings.to_le_bytes());
        let mut components = [0; 32];
        components[..vector.components.len()].copy_from_slice(&vector.components);
        bytes.extend(components.iter().flat_map(|component| component.to_le_bytes()));
    }
    bytes.push(4);
    bytes
}

fn query(readings: &[Reading]) -> Vec<u8> {
    let record = |reading: &Reading| match reading {
        Fresh(value) => [&[5][..], &value.to_le_bytes()].concat(),
        Held(value, age) => [&[6][..], &value.to_le_bytes(), &[*age]].concat(),
        Lost => vec![7],
    };
    readings.iter().flat_map(record).collect()
}

/// The program's input.
fn input(library: Vec<u8>, k: u16, query: Vec<u8>) -> Vec<u8> {
    [library, k.to_le_bytes().to_vec(), query].concat()
}

// ---- library A of document 01, with its query, (12, 6)

fn library_a() -> Vec<u8> {
    let marks = [vec![0, 3, 9, 16, 21], vec![0, 5, 11]];
    let components = [[1, 3], [2, 3], [4, 10], [13, 6], [18, 1]];
    let vector = |(settings, components): (u32, [i16; 2])| Vector { settings, components: components.to_vec() };
    let vectors: Vec<Vector> = (101..).zip(components).map(vector).collect();
    input(library(3, &marks, &vectors), 2, query(&[Fresh(12.0 / 256.0), Fresh(6.0 / 256.0)]))
}

// ---- forty tractors: eight models, each in five states

/// What is measured on the first headland, on a step of the wheel to one side and back.
const READINGS: usize = 8;

/// Dead time, from the command until the front wheels move (s); lag, from there to 63 % of the way (s); gain, degrees of
/// front wheels for a degree of command; overshoot (degrees); play, degrees of command lost when the direction changes;
/// greatest rate (degrees a second); drift, how far straight ahead is off, to the right (degrees); radius of the
/// smallest turn (m).
const MODELS: [[f64; READINGS]; 8] = [
    [0.12, 0.18, 1.05, 2.4, 0.6, 38.0, 0.10, 3.4],  // orchard, narrow
    [0.15, 0.22, 1.02, 2.1, 0.8, 34.0, -0.20, 3.9], // compact, two driven wheels
    [0.17, 0.24, 0.98, 1.9, 0.9, 31.0, 0.35, 4.3],  // compact, four driven wheels
    [0.20, 0.28, 1.00, 1.7, 1.1, 28.0, -0.10, 4.7], // utility
    [0.22, 0.33, 0.95, 1.5, 1.0, 26.0, 0.25, 5.1],  // row crop
    [0.26, 0.38, 0.92, 1.3, 1.4, 23.0, -0.45, 5.6], // row crop, long
    [0.31, 0.45, 0.88, 1.0, 1.6, 19.0, 0.15, 6.2],  // large, suspended front axle
    [0.42, 0.61, 0.79, 0.6, 2.1, 14.0, -0.30, 7.4], // old, hydrostatic
];

/// How each state changes the readings: factors.
const STATES: [[f64; READINGS]; 5] = [
    [1.0, 1.0, 1.0, 1.0, 1.0, 1.0, 1.0, 1.0],       // bare
    [1.05, 1.1, 1.03, 0.9, 1.0, 0.95, 1.0, 0.98],   // weights in front
    [1.1, 1.2, 1.06, 0.8, 1.1, 0.9, 1.3, 0.97],     // loader in front
    [0.95, 0.9, 0.85, 1.3, 1.0, 1.05, 0.8, 1.12],   // plough behind: the front axle is light
    [1.35, 1.15, 0.94, 1.2, 2.5, 0.92, -1.6, 1.03], // worn joints
];

/// Settings 1000 to 1704: a hundred for each model.
fn forty_tractors() -> Vec<Vector> {
    let component = |(value, factor): (&f64, &f64)| (256.0 * value * factor).round() as i16;
    let vector = |model: usize, state: usize| Vector {
        settings: (1000 + 100 * model + state) as u32,
        components: MODELS[model].iter().zip(&STATES[state]).map(component).collect(),
    };
    (0..MODELS.len()).flat_map(|model| (0..STATES.len()).map(move |state| vector(model, state))).collect()
}

/// The bits of their codes.
const BITS: usize = 24;

/// What gives a dimension's outer marks, from its components in order.
type Outer = fn(&[i32]) -> [i32; 2];

/// Those of marks made now, the ends of the scale (document 02, Slip 2).
const MADE: Outer = |_| [-32768, 32768];

/// Those of document 01's rule before it, a dimension's least component and its greatest plus 1. Files already written
/// hold them.
const FORMER: Outer = |components| [components[0], components[components.len() - 1] + 1];

/// Between the outer marks, inner mark i is at place (i·n) div 2^w of a dimension's components in order.
fn marks(outer: Outer, vectors: &[Vector]) -> Vec<Vec<i32>> {
    let dimension = |j: usize| {
        let regions = 1 << (BITS / READINGS + usize::from(j < BITS % READINGS));
        let mut components: Vec<i32> = vectors.iter().map(|vector| i32::from(vector.components[j])).collect();
        components.sort();
        let [first, last] = outer(&components);
        let inner = (1..regions).map(|i| components[i * components.len() / regions]);
        [first].into_iter().chain(inner).chain([last]).collect()
    };
    (0..READINGS).map(dimension).collect()
}

/// The three of these tractors that are nearest to what was measured.
fn nearest_three(outer: Outer, vectors: &[Vector], measured: &[Reading; READINGS]) -> Vec<u8> {
    input(library(BITS, &marks(outer, vectors), vectors), 3, query(measured))
}

/// A long row crop tractor with a plough, not one of the forty. The smallest turn was measured some time before. This
/// library is a file already written: it keeps the marks of document 01's rule.
fn forty() -> Vec<u8> {
    let [dead_time, lag, gain, overshoot, play, rate, drift] = [0.25, 0.35, 0.79, 1.7, 1.5, 24.25, -0.375].map(Fresh);
    let measured = [dead_time, lag, gain, overshoot, play, rate, drift, Held(6.25, 14)];
    nearest_three(FORMER, &forty_tractors(), &measured)
}

/// The same tractor under trees, with the same library. What the receiver's track gives is gone: overshoot and smallest
/// turn are older than two seconds, the drift is lost. What is measured at the wheels is there.
fn trees() -> Vec<u8> {
    let [dead_time, lag, gain, play, rate] = [0.25, 0.35, 0.79, 1.5, 24.25].map(Fresh);
    let measured = [dead_time, lag, gain, Held(1.7, 26), play, rate, Lost, Held(6.25, 44)];
    nearest_three(FORMER, &forty_tractors(), &measured)
}

// ---- the forty and a large one

/// A large articulated tractor, which steers by its frame, behind the forty. It is slower to answer than any of them,
/// its gain and its rate are lower, its smallest turn is wider.
fn forty_one_tractors() -> Vec<Vector> {
    let large = [0.65, 0.95, 0.58, 0.5, 1.8, 9.5, 0.20, 8.9].map(|value: f64| (256.0 * value).round() as i16);
    let mut vectors = forty_tractors();
    vectors.push(Vector { settings: 1800, components: large.to_vec() });
    vectors
}

/// Another large articulated tractor. Its smallest turn was measured some time before. The marks are made anew from all
/// forty-one.
fn large() -> Vec<u8> {
    let [dead_time, lag, gain, overshoot, play, rate, drift] = [0.625, 0.9, 0.6, 0.55, 1.75, 10.0, 0.125].map(Fresh);
    let measured = [dead_time, lag, gain, overshoot, play, rate, drift, Held(9.25, 11)];
    nearest_three(MADE, &forty_one_tractors(), &measured)
}

fn main() -> Result<(), Box<dyn Error>> {
    let folder = PathBuf::from(env::args_os().nth(1).ok_or("name a folder")?);
    fs::write(folder.join("a.match"), library_a())?;
    fs::write(folder.join("forty.match"), forty())?;
    fs::write(folder.join("trees.match"), trees())?;
    fs::write(folder.join("large.match"), large())?;
    Ok(())
}
