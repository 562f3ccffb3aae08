//! Times of calls in nanoseconds.

use std::hint::black_box;
use std::time::Instant;

const RUNS: usize = 9;

/// The median time of each call, without the time it takes to put the tables back; a run is so many calls of it.
pub fn median_nanoseconds<Lent, const N: usize>(
    count: u32,
    lent: &mut Lent,
    put_back: &dyn Fn(&mut Lent),
    calls: [&dyn Fn(&mut Lent) -> u16; N],
) -> [f64; N] {
    let mut idle = Vec::new();
    let mut times: [Vec<f64>; N] = std::array::from_fn(|_| Vec::new());
    for run in 0..=RUNS {
        let idle_time = time(count, lent, put_back, &|_| 0);
        // The first run of each only warms it up.
        if run > 0 {
            idle.push(idle_time);
        }
        for (call, times) in calls.iter().zip(&mut times) {
            let call_time = time(count, lent, put_back, call);
            if run > 0 {
                times.push(call_time);
            }
        }
    }
    let idle = median(&mut idle);
    times.map(|mut times| (median(&mut times) - idle).max(0.0))
}

/// Nanoseconds for one call with the tables put back before it.
fn time<Lent>(count: u32, lent: &mut Lent, put_back: &dyn Fn(&mut Lent), call: &dyn Fn(&mut Lent) -> u16) -> f64 {
    let start = Instant::now();
    for _ in 0..count {
        put_back(black_box(lent));
        black_box(call(black_box(lent)));
    }
    start.elapsed().as_nanos() as f64 / f64::from(count)
}

fn median(times: &mut [f64]) -> f64 {
    times.sort_by(f64::total_cmp);
    times[times.len() / 2]
}
