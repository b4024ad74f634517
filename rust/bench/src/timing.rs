//! How two functions compare: the least time of each over several rounds, taken in turn.

use std::time::{Duration, Instant};

/// The time of a call.
fn timed<A>(call: &mut impl FnMut() -> A) -> Duration {
    let start = Instant::now();
    std::hint::black_box(call());
    start.elapsed()
}

/// Prints the least times of the product and of the other program over so many rounds, and their ratio.
pub fn compare<A, B>(
    name: &str,
    rounds: usize,
    mut product: impl FnMut() -> A,
    mut other: impl FnMut() -> B,
) {
    let mut best = (Duration::MAX, Duration::MAX);
    for _ in 0..rounds {
        best.0 = best.0.min(timed(&mut product));
        best.1 = best.1.min(timed(&mut other));
    }
    let ratio = best.0.as_secs_f64() / best.1.as_secs_f64();
    println!("{name}: product {:?}, other {:?}, ratio {ratio:.2}", best.0, best.1);
}
