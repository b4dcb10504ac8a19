//! The benchmarks; bench/run builds and runs them.

mod call;
mod counts;
mod cpp;
mod data;
mod matcher;
mod peer;
mod random;
mod reads;
mod table;
mod timing;

use call::{Answer, Call, Side};
use data::Data;
use std::env;
use table::Row;
use timing::{Times, ROUNDS};

fn main() {
    let words: Vec<String> = env::args().skip(1).collect();
    match words.iter().map(String::as_str).collect::<Vec<_>>()[..] {
        ["times"] => print_times(),
        ["reads"] => reads::print(),
        ["cpp"] => cpp::print(),
        ["counts"] => counts::print(),
        ["calls", ref words @ ..] => counts::work(words),
        _ => panic!("times, reads, cpp, counts, or what counts runs under valgrind"),
    }
}

fn measure(row: &Row, data: &Data) -> Times {
    let [mut ours, mut theirs] = Side::BOTH.map(|_| Answer::new(row.call, data, row.k));
    let all = |side, answer: &mut Answer| (0..row.call.calls()).for_each(|i| row.call.run(side, data, i, answer));
    let queries = row.call.calls() * row.call.queries();
    timing::in_turns(ROUNDS, queries, || all(Side::Matcher, &mut ours), || all(Side::Other, &mut theirs))
}

fn print_times() {
    println!(
        "\nTimes of a call, of a query in a batch of {}, microseconds, {ROUNDS} rounds in turns, medians",
        Data::BATCH
    );
    Row::print_heads("us");
    for row in Row::all(Call::ALL) {
        let data = row.data();
        let read = row.call.agrees(&data, row.k);
        let times = measure(&row, &data);
        row.print(read, times.matcher / 1000.0, times.other / 1000.0);
    }
    println!("\nTimes as a multiple of n log n, n 64 being 1: d 8, uniform, k 10");
    for rows in Row::growing().chunks(4) {
        let costs: Vec<_> = rows.iter().map(|row| (row.n, measure(row, &row.data()))).collect();
        let name = rows[0].call.name();
        table::print_growth(
            &format!("{name} by matcher"),
            &costs.iter().map(|c| (c.0, c.1.matcher)).collect::<Vec<_>>(),
        );
        table::print_growth(&format!("{name} by rust"), &costs.iter().map(|c| (c.0, c.1.other)).collect::<Vec<_>>());
    }
}
