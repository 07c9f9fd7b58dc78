//! How long calls take: the best of some rounds of each, in turn.
use std::time::Instant;

/// A measured round takes at least so long, where one call does not take longer; the best of the rounds counts.
const ROUND_SECONDS: f64 = 0.2;
const ROUNDS: usize = 5;

/// A call that takes longer than this is made once.
const LONG_SECONDS: f64 = 10.0 * ROUND_SECONDS;

/// What a call gives, and the seconds that it takes.
pub fn timed<R>(call: impl FnOnce() -> R) -> (R, f64) {
    let start = Instant::now();
    let result = call();
    (result, start.elapsed().as_secs_f64())
}

/// The seconds that so many calls take, for each of them.
fn round(call: &mut dyn FnMut(), calls: usize) -> f64 {
    let start = Instant::now();
    (0..calls).for_each(|_| call());
    start.elapsed().as_secs_f64() / calls as f64
}

/// The least times of the calls: rounds of as many calls as fill a round, in turn, so that what else the machine does meets all.
pub fn least_times<const N: usize>(calls: [&mut dyn FnMut(); N]) -> [f64; N] {
    least(calls.map(|call| (round(call, 1), call)))
}

/// The same of calls that were made once already and took so long.
pub fn least<const N: usize>(mut timed: [(f64, &mut dyn FnMut()); N]) -> [f64; N] {
    for _ in 0..ROUNDS {
        for (best, call) in &mut timed {
            if *best < LONG_SECONDS {
                let calls = (ROUND_SECONDS / *best).ceil().max(1.0) as usize;
                *best = best.min(round(*call, calls));
            }
        }
    }
    timed.map(|(best, _)| best)
}
