//! The program `bench` against the plain program and `wc -l`, on whole inputs.
//!
//! REGISTRY_BENCH names the proved program, PLAIN_BENCH the plain one.
//! All must give the same bytes before anything is measured. Runs alternate
//! between the programs, and the median of each program's runs is told.

mod formless;
mod inputs;
mod long_lists;
mod timing;

use std::process::exit;
use timing::{median_times, Job};

const RUNS: usize = 9;

fn main() {
    let variable = |name: &str| std::env::var(name).unwrap_or_else(|_| panic!("{name} names a program"));
    let (bench, plain) = (variable("REGISTRY_BENCH"), variable("PLAIN_BENCH"));
    let jobs = [
        Job::new("bench", &bench, &[]),
        Job::new("plain", &plain, &[]),
        Job::new("plain, no test", &plain, &["--no-soundness-test"]),
        Job::new("wc -l", "wc", &["-l"]),
    ];
    println!("milliseconds, median of {RUNS} alternating runs; \"no test\" leaves the soundness test out");
    println!(
        "{:<42} {:>7} {:>7} {:>7} {:>8} {:>6} {:>12} {:>14}",
        "input", "lines", "bench", "plain", "no test", "wc -l", "bench/plain", "bench/no test"
    );
    for (name, input) in inputs::all() {
        let expected = jobs[0].output(&input);
        for job in &jobs[1..3] {
            if job.output(&input) != expected {
                println!("DIFFERENT BYTES from bench and {} on: {name}", job.name);
                exit(1);
            }
        }
        let lines = input.iter().filter(|&&byte| byte == b'\n').count();
        let times = median_times(&jobs, &input, RUNS);
        let [bench, plain, untested, wc] = times[..] else { unreachable!("one time for each of the four jobs") };
        println!(
            "{name:<42} {lines:>7} {bench:>7.1} {plain:>7.1} {untested:>8.1} {wc:>6.1} {:>12.2} {:>14.2}",
            bench / plain,
            bench / untested
        );
    }
}
