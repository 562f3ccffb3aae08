//! Wrong on purpose: each twist of the model must be found by the same cases
//! that the library and the program are checked with.
//!
//! `wrong` hunts with random cases, and with the sweeps where those miss;
//! `wrong --both` hunts with both; `wrong NAME` does so for one twist and shows its shrunk case.

mod batches_hunt;
mod lines_hunt;
mod steps_hunt;

use model::{Shows, Twist};

/// Where a hunt found its twist, and the shrunk case if it was asked for.
#[derive(Default)]
pub struct Found {
    pub at_random: Option<String>,
    pub by_sweep: Option<String>,
    pub shrunk: String,
}

/// How thorough a hunt is.
#[derive(Clone, Copy)]
pub struct Hunt {
    /// Go through the sweeps even if a random case has found the twist.
    pub both: bool,
    pub shrink: bool,
}

fn main() {
    let wish = std::env::args().nth(1);
    let named = wish.as_deref().filter(|wish| *wish != "--both");
    let hunt = Hunt { both: wish.is_some(), shrink: named.is_some() };
    let mut missed = Vec::new();
    println!("{:<24} {:<28} {:<28} what is wrong", "twist", "found at random (cases)", "found by a sweep (cases)");
    for &(twist, shows, wrong) in Twist::ALL {
        let name = format!("{twist:?}");
        if named.is_some_and(|wanted| wanted != name) {
            continue;
        }
        let found = match shows {
            Shows::InSteps => steps_hunt::hunt(twist, hunt),
            Shows::InLines => lines_hunt::hunt(twist, hunt),
            Shows::InFull => lines_hunt::hunt_full(twist),
            Shows::InBatches => batches_hunt::hunt(twist, hunt),
        };
        let told = |place: &Option<String>| place.clone().unwrap_or_else(|| "-".to_string());
        println!("{name:<24} {:<28} {:<28} {wrong}", told(&found.at_random), told(&found.by_sweep));
        print!("{}", found.shrunk);
        if found.at_random.is_none() && found.by_sweep.is_none() {
            missed.push(name);
        }
    }
    if missed.is_empty() {
        println!("wrong on purpose: all {} twists found", Twist::ALL.len());
    } else {
        println!("wrong on purpose: NOT FOUND: {}", missed.join(", "));
        std::process::exit(1);
    }
}
