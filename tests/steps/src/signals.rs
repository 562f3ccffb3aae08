//! Tells which case was under way when the library crashed or did not come back.

use std::sync::atomic::{AtomicBool, AtomicU64, Ordering};
use std::sync::OnceLock;

static PROGRAM: OnceLock<&'static str> = OnceLock::new();
static CASE: AtomicU64 = AtomicU64::new(0);
static IN_SWEEP: AtomicBool = AtomicBool::new(false);

/// The longest a case may take.
const MOST_SECONDS: u32 = 60;
/// Illegal instruction, trap, abort, bus error, arithmetic error, segmentation fault, alarm.
const SIGNALS: [i32; 7] = [4, 5, 6, 7, 8, 11, 14];

extern "C" {
    fn signal(number: i32, handler: extern "C" fn(i32)) -> usize;
    fn alarm(seconds: u32) -> u32;
    fn write(file: i32, bytes: *const u8, length: usize) -> isize;
    fn _exit(status: i32) -> !;
}

pub fn tell_the_case_on_a_crash(program: &'static str) {
    PROGRAM.get_or_init(|| program);
    for number in SIGNALS {
        // SAFETY: the handler only reads atomics, writes to standard output and ends.
        unsafe { signal(number, tell) };
    }
}

/// Says which case is under way: one of the sweeps by its number, or a random one by its seed.
pub fn now_at(in_sweep: bool, case: u64) {
    IN_SWEEP.store(in_sweep, Ordering::Relaxed);
    CASE.store(case, Ordering::Relaxed);
    // SAFETY: setting the alarm anew touches no memory.
    unsafe { alarm(MOST_SECONDS) };
}

extern "C" fn tell(number: i32) {
    let put = |text: &[u8]| {
        // SAFETY: the pointer goes with the length of its slice.
        unsafe { write(1, text.as_ptr(), text.len()) };
    };
    let program = PROGRAM.get().copied().unwrap_or_default().as_bytes();
    put(program);
    put(b": CRASH or no return, signal ");
    put(digits(number as u64, &mut [0; 20]));
    put(b"; again with: ");
    put(program);
    put(if IN_SWEEP.load(Ordering::Relaxed) { b" --sweep " } else { b" --case " });
    put(digits(CASE.load(Ordering::Relaxed), &mut [0; 20]));
    put(b"\n");
    // SAFETY: ends the process at once.
    unsafe { _exit(1) }
}

/// The number in decimal, written without allocating.
fn digits(mut number: u64, room: &mut [u8; 20]) -> &[u8] {
    let mut start = room.len();
    loop {
        start -= 1;
        room[start] = b'0' + (number % 10) as u8;
        number /= 10;
        if number == 0 {
            return &room[start..];
        }
    }
}
