//! Instruction counts by callgrind, which do not depend on the machine's load: this program again under valgrind, with and without
//! the calls.

use crate::call::{Answer, Call, Side};
use crate::data::Spread;
use crate::table::{print_growth, Row};
use std::collections::HashMap;
use std::env;
use std::process::Command;

/// What the program does under valgrind: the calls for all queries, so many times.
pub fn work(words: &[&str]) {
    let &[call, side, d, spread, n, k, times] = words else { panic!("calls CALL SIDE D SPREAD N K TIMES") };
    let number = |word: &str| word.parse::<usize>().expect("a number");
    let &call = Call::ALL.iter().find(|c| c.name() == call).expect("a call");
    let side = Side::BOTH.into_iter().find(|s| s.name() == side).expect("a side");
    let spread = Spread::ALL.into_iter().find(|s| s.name() == spread).expect("a spread");
    let data = Row { call, d: number(d), n: number(n), spread, k: number(k) }.data();
    let mut answer = Answer::new(call, &data, number(k));
    for _ in 0..number(times) {
        (0..call.calls()).for_each(|i| call.run(side, &data, i, &mut answer));
    }
}

/// Clearing and copying by vector instructions: callgrind would count a repeated string instruction once for each byte.
const NO_STRING_INSTRUCTIONS: &str =
    "glibc.cpu.x86_rep_stosb_threshold=1000000000:glibc.cpu.x86_rep_movsb_threshold=1000000000";

fn instructions(row: &Row, side: Side, times: usize) -> f64 {
    let program = env::current_exe().expect("this program's file");
    let numbers = [row.n, row.k, times].map(|x| x.to_string());
    let output = Command::new("valgrind")
        .env("GLIBC_TUNABLES", NO_STRING_INSTRUCTIONS)
        .args(["--tool=callgrind", "--callgrind-out-file=/dev/null"])
        .arg(program)
        .args(["calls", row.call.name(), side.name(), &row.d.to_string(), row.spread.name()])
        .args(numbers)
        .output()
        .expect("valgrind runs");
    let said = String::from_utf8_lossy(&output.stderr);
    let count = said.lines().find_map(|line| line.split_once("Collected : ")).expect("callgrind tells its count").1;
    count.trim().parse().expect("a count")
}

/// What is done before the calls depends on these: d, n, the spread, and how many entries there is room for.
type Before = (usize, usize, &'static str, usize);

/// Thousands of instructions of a call, the mean over the queries, on either side. What is done before the calls is counted once for
/// each library and room.
fn thousands(row: &Row, before: &mut HashMap<Before, f64>) -> [f64; 2] {
    let &Row { call, d, n, spread, k } = row;
    let room = call.queries() * k;
    let before = *before.entry((d, n, spread.name(), room)).or_insert_with(|| instructions(row, Side::Other, 0));
    let queries = (call.calls() * call.queries()) as f64;
    Side::BOTH.map(|side| (instructions(row, side, 1) - before) / queries / 1000.0)
}

pub fn print() {
    let mut before = HashMap::new();
    println!("\nInstructions of a call, of a query in a batch, by callgrind, thousands");
    Row::print_heads("k");
    for row in Row::all(Call::ALL) {
        let [matcher, other] = thousands(&row, &mut before);
        row.print(row.call.agrees(&row.data(), row.k), matcher, other);
    }
    println!("\nInstructions as a multiple of n log n, n 64 being 1: d 8, uniform, k 10");
    for rows in Row::growing().chunks(4) {
        let costs: Vec<_> = rows.iter().map(|row| (row.n, thousands(row, &mut before))).collect();
        for (i, side) in ["matcher", "rust"].into_iter().enumerate() {
            let costs: Vec<_> = costs.iter().map(|(n, cost)| (*n, cost[i])).collect();
            print_growth(&format!("{} by {side}", rows[0].call.name()), &costs);
        }
    }
}
