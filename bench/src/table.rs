//! The tables that are printed.

use crate::call::Call;
use crate::data::{Data, Spread};

/// One measurement: a call on one library for one k.
#[derive(Clone, Copy)]
pub struct Row {
    pub call: Call,
    pub d: usize,
    pub n: usize,
    pub spread: Spread,
    pub k: usize,
}

impl Row {
    pub const BITS: usize = 5;

    /// Each call on 512 vectors of 8 and of 32 dimensions, or on as many as it can be.
    pub fn all(calls: &[Call]) -> Vec<Row> {
        let mut rows = Vec::new();
        for &call in calls {
            for d in [8, 32] {
                for spread in Spread::ALL {
                    rows.extend(call.neighbours().iter().map(|&k| Row { call, d, n: call.count(), spread, k }));
                }
            }
        }
        rows
    }

    /// A search and a scan on more and more vectors.
    pub fn growing() -> Vec<Row> {
        let row = |call, n| Row { call, d: 8, n, spread: Spread::Uniform, k: 10 };
        [Call::Search, Call::Scan].into_iter().flat_map(|call| [64, 128, 256, 512].map(|n| row(call, n))).collect()
    }

    pub fn data(&self) -> Data {
        Data::new(self.d, Self::BITS, self.n, self.spread, self.k)
    }

    pub fn print_heads(unit: &str) {
        println!("The other side is plain Rust; for a batch it is the matcher, by single searches.");
        println!(
            "call     d  n   data      k    read  {:>11} {:>11}  ratio target",
            format!("matcher {unit}"),
            format!("other {unit}")
        );
    }

    /// The two costs, in a unit that `print_heads` names, with their ratio as a bar: a mark for each tenth, `|` at the target.
    pub fn print(&self, read: f64, matcher: f64, other: f64) {
        let ratio = matcher / other;
        let (target, verdict) = match self.call.target() {
            Some(target) => (format!("{target:.1}"), if ratio <= target { "" } else { " over" }),
            None => (String::new(), ""),
        };
        let reads = [Call::Search, Call::Batch].contains(&self.call);
        let read = if reads { format!("{read:.1}") } else { String::new() };
        println!(
            "{:7} {:2} {:3}  {:9} {:3} {read:>6}  {matcher:11.1} {other:11.1} {ratio:6.2} {target:>6}  {}{verdict}",
            self.call.name(),
            self.d,
            self.n,
            self.spread.name(),
            self.k,
            bar(ratio, self.call.target()),
        );
    }
}

/// A ratio in tenths, cut at 4.
fn bar(ratio: f64, target: Option<f64>) -> String {
    const LONGEST: usize = 40;
    let tenths = |x: f64| (x * 10.0).round() as usize;
    let mut bar: Vec<char> = vec!['#'; tenths(ratio).min(LONGEST)];
    if let Some(target) = target.map(tenths) {
        bar.resize(bar.len().max(target + 1), ' ');
        bar[target] = '|';
    }
    if tenths(ratio) > LONGEST {
        bar.push('>');
    }
    bar.into_iter().collect()
}

/// Costs for growing n: each is told as a multiple of n log n, against that of the first n.
pub fn print_growth(what: &str, costs: &[(usize, f64)]) {
    let scaled = |&(n, cost): &(usize, f64)| cost / (n as f64 * (n as f64).log2());
    print!("{what:28}");
    for cost in costs {
        print!("  n {}: {:.2}", cost.0, scaled(cost) / scaled(&costs[0]));
    }
    println!();
}
