//! Single calls of the proved library against the same calls in plain Rust.
//!
//! Nanoseconds per call, median of several runs that take turns. Before each call
//! the tables are put back; what that takes is measured too and left out.
//! Then the soundness test and async on tables and lists of several sizes, and
//! whole batches against the library's own single calls.

mod batches;
mod growth;
mod scenes;
mod sides;
mod timing;

use scenes::{scene, Call};
use sides::{ratio, times};

const SIZES: [(usize, usize); 3] = [(4, 8), (16, 64), (64, 256)];
const CHAINS: [usize; 3] = [1, 8, 63];

fn main() {
    println!("nanoseconds per call; a chain of k means that get finds k owners");
    println!(
        "{:>3} {:>4} {:>6}  {:<12} {:>9} {:>9} {:>15} {:>14} {:>16}",
        "T", "P", "chain", "call", "library", "plain", "plain, no test", "library/plain", "library/no test"
    );
    for (tasks, promises) in SIZES {
        for chain in CHAINS.into_iter().filter(|&chain| chain < tasks) {
            let scene = scene(tasks, promises, chain);
            for call in &scene.calls {
                measure(&scene.tasks, &scene.promises, chain, call);
            }
        }
    }
    growth::soundness_table();
    growth::list_table();
    batches::table();
}

fn measure(tasks: &[u16], promises: &[u16], chain: usize, call: &Call) {
    let [library, plain, untested] = times(tasks, promises, call, call.expected_number());
    println!(
        "{:>3} {:>4} {chain:>6}  {:<12} {library:>9.0} {plain:>9.0} {untested:>15.0} {:>14} {:>16}",
        tasks.len(),
        promises.len(),
        call.name(),
        ratio(library, plain),
        ratio(library, untested)
    );
}
