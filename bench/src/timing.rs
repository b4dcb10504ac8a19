//! Times of two sides, measured in turns, so that the machine's load falls on both alike.

use std::time::Instant;

pub const ROUNDS: usize = 101;

/// Nanoseconds of a call on either side, medians over the rounds.
#[derive(Clone, Copy)]
pub struct Times {
    pub matcher: f64,
    pub other: f64,
}

/// The two sides in turns, `calls` calls to a turn, for so many rounds; each begins every second round.
pub fn in_turns(rounds: usize, calls: usize, mut matcher: impl FnMut(), mut other: impl FnMut()) -> Times {
    let mut times = [Vec::with_capacity(rounds), Vec::with_capacity(rounds)];
    for round in 0..rounds {
        for turn in [round % 2, 1 - round % 2] {
            let start = Instant::now();
            if turn == 0 {
                matcher();
            } else {
                other();
            }
            times[turn].push(start.elapsed().as_nanos() as f64 / calls as f64);
        }
    }
    let [matcher, other] = times.map(median);
    Times { matcher, other }
}

fn median(mut times: Vec<f64>) -> f64 {
    times.sort_unstable_by(f64::total_cmp);
    times[times.len() / 2]
}
