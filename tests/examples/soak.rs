//! The soak: random inputs, right and damaged, by the C interface against the reference, until the time is up. It is given
//! the time in seconds, 60 if none is named, and the first seed, one of the clock if none is named.

use std::{
    env, process,
    sync::{
        atomic::{AtomicU64, AtomicUsize, Ordering::Relaxed},
        Mutex,
    },
    thread,
    time::{Duration, Instant, SystemTime, UNIX_EPOCH},
};
use tests::{
    interface,
    matches::{damage, noise, Match, TEXT_ROOM},
    random::Random,
    reference,
};

/// The inputs of a seed: a match that is right, with absent readings or without, the same damaged some times, bytes of no
/// plan.
fn inputs(seed: u64) -> Vec<Vec<u8>> {
    let mut random = Random::new(seed);
    let most = random.one_of(&[3, 10, 10, 30, 30, 512]);
    let made = random.one_of(&[Match::random, Match::random_with_absent]);
    let right = made(seed, most).bytes();
    let mut inputs = vec![noise(&mut random), right.clone()];
    for _ in 0..6 {
        let mut input = right.clone();
        damage(&mut random, &mut input);
        inputs.push(input);
    }
    inputs
}

/// The number of an input's refusal, or 0, or what is wrong.
fn number(input: &[u8]) -> Result<usize, String> {
    let (text, due) = (interface::program(input, TEXT_ROOM), reference::program(input));
    if text.as_deref() != Ok(due.as_bytes()) {
        return Err(format!("{text:?}, and by the reference {due:?}, for {input:?}"));
    }
    let number = due.strip_prefix("refused ").map_or("0", str::trim_end);
    number.parse().map_err(|_| format!("{due:?} has no number"))
}

fn argument<T: std::str::FromStr>(place: usize, absent: T) -> T {
    match env::args().nth(place).map(|argument| argument.parse()) {
        None => absent,
        Some(Ok(number)) => number,
        Some(Err(_)) => {
            eprintln!("usage: soak [SECONDS [SEED]]");
            process::exit(2);
        }
    }
}

fn main() {
    let clock = SystemTime::now().duration_since(UNIX_EPOCH).map_or(0, |time| time.as_nanos() as u64);
    let (seconds, first) = (argument(1, 60), argument(2, clock));
    let end = Instant::now() + Duration::from_secs(seconds);
    let (next, faults) = (AtomicU64::new(first), Mutex::new(vec![]));
    let counts: [AtomicUsize; 20] = Default::default();
    let worker = || {
        while Instant::now() < end && faults.lock().is_ok_and(|faults| faults.is_empty()) {
            let seed = next.fetch_add(1, Relaxed);
            for input in inputs(seed) {
                match number(&input) {
                    Ok(number) => drop(counts[number].fetch_add(1, Relaxed)),
                    Err(fault) => faults.lock().expect("no worker fails").push(format!("seed {seed}: {fault}")),
                }
            }
        }
    };
    println!("soak: {seconds} s from seed {first}");
    thread::scope(|scope| {
        for _ in 0..thread::available_parallelism().map_or(1, |cores| cores.get()) {
            scope.spawn(worker);
        }
    });
    let counts: Vec<usize> = counts.iter().map(|count| count.load(Relaxed)).collect();
    println!("soak: {} inputs; answered, then refused by number: {counts:?}", counts.iter().sum::<usize>());
    let faults = faults.into_inner().expect("no worker fails");
    faults.iter().for_each(|fault| println!("soak: FAILED: {fault}"));
    process::exit(i32::from(!faults.is_empty()));
}
