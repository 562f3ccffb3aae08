//! The soundness test, directly on the words.

pub const READY: u16 = 1;
pub const ENDED: u16 = 2;
pub const BASE: u16 = 16;
pub const BLAMED: u16 = 80;

pub const MOST_TASKS: usize = 64;
pub const MOST_PROMISES: usize = 256;

/// Whether the word says that its promise is owned; T is at most 64.
#[inline]
fn is_owned(word: u16) -> bool {
    (BASE..BLAMED).contains(&word)
}

/// Whether tables within bounds are sound.
pub fn is_sound(tasks: &[u16], promises: &[u16]) -> bool {
    let (task_count, promise_count) = (tasks.len() as u16, promises.len() as u16);
    for &word in promises {
        let good = match word {
            0 | 1 => true,
            BASE..BLAMED => {
                let owner = word - BASE;
                owner < task_count && (tasks[owner as usize] == READY || tasks[owner as usize] >= BASE)
            }
            BLAMED.. => word - BLAMED < task_count && tasks[(word - BLAMED) as usize] == ENDED,
            _ => false,
        };
        if !good {
            return false;
        }
    }
    for &word in tasks {
        let good =
            word <= ENDED || word >= BASE && word - BASE < promise_count && is_owned(promises[(word - BASE) as usize]);
        if !good {
            return false;
        }
    }
    chains_end(tasks, promises)
}

/// Whether each waiting task's chain comes to a ready task; every other condition holds.
fn chains_end(tasks: &[u16], promises: &[u16]) -> bool {
    // The tasks whose chain is known to end well, one bit each.
    let mut settled = 0u64;
    for start in 0..tasks.len() {
        let mut path = 0u64;
        let mut at = start;
        while tasks[at] >= BASE && settled >> at & 1 == 0 {
            if path >> at & 1 == 1 {
                return false;
            }
            path |= 1 << at;
            at = (promises[(tasks[at] - BASE) as usize] - BASE) as usize;
        }
        settled |= path;
    }
    true
}
