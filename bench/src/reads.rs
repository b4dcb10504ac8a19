//! Vectors read with the marks that are made, with marks of document 01's rule before change request 2, and with more and more bits: counts,
//! and no times.

use crate::call::{Answer, Call, Side};
use crate::data::Data;
use crate::peer::{codes, marks};
use crate::table::Row;

/// A row's data with its vectors divided, so that queries reach beyond them, and with marks made so and the codes in them.
fn library(row: &Row, divisor: i32, make: fn(usize, usize, &[i32], &mut [i32])) -> Data {
    let mut data = row.data();
    let Data { d, b, ref mut vectors, ref mut marks, ref mut regions, ref mut codes, .. } = data;
    vectors.iter_mut().for_each(|component| *component /= divisor);
    make(d, b, vectors, marks);
    codes::regions(d, b, vectors, marks, regions);
    codes::pack(d, b, regions, codes);
    data
}

/// The codes are the same with both marks, and so are a search's entries for each query.
fn agree(k: usize, former: &Data, made: &Data) {
    assert!(former.codes == made.codes, "the codes differ");
    let [mut before, mut now] = [former, made].map(|data| Answer::new(Call::Search, data, k));
    for i in 0..Data::QUERIES {
        Call::Search.run(Side::Matcher, former, i, &mut before);
        Call::Search.run(Side::Matcher, made, i, &mut now);
        assert!(before.entries == now.entries, "query {i}, k {k}: the entries differ");
    }
}

pub fn print() {
    println!("\nVectors read by a search, means: with marks of 01's rule, with the marks made now");
    println!(" d  data       k  01's rule     now   vectors halved: 01's rule     now");
    for row in Row::all(&[Call::Search]) {
        let [[before, now], [halved_before, halved_now]] = [1, 2].map(|divisor| {
            let [former, made] = [marks::make_former, marks::make].map(|make| library(&row, divisor, make));
            agree(row.k, &former, &made);
            [former, made].map(|data| row.call.agrees(&data, row.k))
        });
        println!(
            "{:2}  {:9} {:3} {before:10.2} {now:7.2} {halved_before:27.2} {halved_now:7.2}",
            row.d,
            row.spread.name(),
            row.k,
        );
    }
    print_by_bits();
}

/// What one bit more a dimension saves: b, in a caller's choice, is so many times d.
fn print_by_bits() {
    println!("\nVectors read by a search, means, with 1 to 6 bits a dimension");
    for row in Row::all(&[Call::Search]).into_iter().filter(|row| row.k < row.n) {
        print!("{:2}  {:9} {:3}", row.d, row.spread.name(), row.k);
        for bits in 1..=6 {
            print!("{:7.1}", row.call.agrees(&Data::new(row.d, bits, row.n, row.spread, row.k), row.k));
        }
        println!();
    }
}
