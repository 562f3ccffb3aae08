//! The C interface of the proved library, all of it in this one file.
//!
//! Every slice is a pointer and a length in words of 16 bits. A step returns its
//! answer's number and writes four words: the number, then up to three values,
//! unused ones 0. A refusal has the paper's number, with the place as first value
//! for a list entry; the blamed task is the next value of a 17. Accepted answers: 101
//! made, 102 set, 103 value, 104 blamed, 105 waits, 106 cycle, 107 started, 108 ended.
//! If fewer than four answer words are lent, a step returns 1 and writes nothing.
//!
//! A batch takes records of five words: the kind (0 new, 1 set, 2 get, 3 async, 4 end), the
//! acting task, the promise or child, and for async the start and the length of its part of the
//! list. It writes four words per record as the single steps do, 16 being the refusal of a part
//! that passes the list's end, and the steps' report words one after another. It returns 0, or 1
//! or 2 if the whole call was refused with nothing written.

mod c {
    macro_rules! step {
        ($name:ident($($argument:ident: $kind:ty),*)) => {
            extern "C" {
                pub fn $name(
                    tasks: *mut u16, task_count: usize,
                    promises: *mut u16, promise_count: usize,
                    report: *mut u16, report_length: usize,
                    $($argument: $kind,)*
                    answer: *mut u16, answer_length: usize,
                ) -> u16;
            }
        };
    }

    step!(registry_step_new(t: u16, p: u16));
    step!(registry_step_set(t: u16, p: u16));
    step!(registry_step_get(t: u16, p: u16));
    step!(registry_step_async(t: u16, c: u16, list: *const u16, list_length: usize));
    step!(registry_step_end(t: u16));

    extern "C" {
        pub fn registry_batch(
            tasks: *mut u16,
            task_count: usize,
            promises: *mut u16,
            promise_count: usize,
            report: *mut u16,
            report_length: usize,
            steps: *const u16,
            steps_length: usize,
            list: *const u16,
            list_length: usize,
            answers: *mut u16,
            answers_length: usize,
        ) -> u16;
        pub fn registry_is_sound(
            tasks: *const u16,
            task_count: usize,
            promises: *const u16,
            promise_count: usize,
        ) -> u8;
        pub fn registry_fresh(tasks: *mut u16, task_count: usize, promises: *mut u16, promise_count: usize) -> u16;
    }
}

macro_rules! safe_step {
    ($name:ident, $inner:ident($($argument:ident),*)) => {
        pub fn $name(
            tasks: &mut [u16], promises: &mut [u16], report: &mut [u16],
            $($argument: u16,)*
            answer: &mut [u16],
        ) -> u16 {
            // SAFETY: each pointer goes with the length of the slice it was taken from.
            unsafe {
                c::$inner(
                    tasks.as_mut_ptr(), tasks.len(),
                    promises.as_mut_ptr(), promises.len(),
                    report.as_mut_ptr(), report.len(),
                    $($argument,)*
                    answer.as_mut_ptr(), answer.len(),
                )
            }
        }
    };
}

safe_step!(step_new, registry_step_new(t, p));
safe_step!(step_set, registry_step_set(t, p));
safe_step!(step_get, registry_step_get(t, p));
safe_step!(step_end, registry_step_end(t));

pub fn step_async(
    tasks: &mut [u16],
    promises: &mut [u16],
    report: &mut [u16],
    t: u16,
    c: u16,
    list: &[u16],
    answer: &mut [u16],
) -> u16 {
    // SAFETY: each pointer goes with the length of the slice it was taken from.
    unsafe {
        c::registry_step_async(
            tasks.as_mut_ptr(),
            tasks.len(),
            promises.as_mut_ptr(),
            promises.len(),
            report.as_mut_ptr(),
            report.len(),
            t,
            c,
            list.as_ptr(),
            list.len(),
            answer.as_mut_ptr(),
            answer.len(),
        )
    }
}

/// 0 if the batch was carried out, else the refusal of the whole call.
pub fn batch(
    tasks: &mut [u16],
    promises: &mut [u16],
    report: &mut [u16],
    steps: &[u16],
    list: &[u16],
    answers: &mut [u16],
) -> u16 {
    // SAFETY: each pointer goes with the length of the slice it was taken from.
    unsafe {
        c::registry_batch(
            tasks.as_mut_ptr(),
            tasks.len(),
            promises.as_mut_ptr(),
            promises.len(),
            report.as_mut_ptr(),
            report.len(),
            steps.as_ptr(),
            steps.len(),
            list.as_ptr(),
            list.len(),
            answers.as_mut_ptr(),
            answers.len(),
        )
    }
}

/// 1 for sound tables, 0 for damaged ones.
pub fn is_sound(tasks: &[u16], promises: &[u16]) -> u8 {
    // SAFETY: each pointer goes with the length of the slice it was taken from.
    unsafe { c::registry_is_sound(tasks.as_ptr(), tasks.len(), promises.as_ptr(), promises.len()) }
}

/// 0 if fresh tables were written, 1 if T or P is out of bounds and nothing was.
pub fn fresh(tasks: &mut [u16], promises: &mut [u16]) -> u16 {
    // SAFETY: each pointer goes with the length of the slice it was taken from.
    unsafe { c::registry_fresh(tasks.as_mut_ptr(), tasks.len(), promises.as_mut_ptr(), promises.len()) }
}
