//! Fresh tables of every size around the bounds.

use cases::case::Subject;
use std::process::exit;

pub fn compare(model: &mut dyn Subject, library: &mut dyn Subject, small: bool) {
    let task_counts = (0..=if small { 2 } else { 70 }).chain([63, 64, 65, 256, 65536, 65537]);
    for tasks in task_counts {
        let promise_counts = (0..=if small { 2 } else { 260 }).chain([255, 256, 257, 65535, 65536, 65537]);
        for promises in promise_counts {
            let before = (vec![0xBEEF; tasks], vec![0xBEEF; promises]);
            let (mut expected, mut found) = (before.clone(), before);
            let expected_reply = model.fresh(&mut expected.0, &mut expected.1);
            let found_reply = library.fresh(&mut found.0, &mut found.1);
            if expected_reply != found_reply || expected != found {
                println!("steps: DIFFERENCE in fresh tables, T={tasks} P={promises}");
                println!("  expected {expected_reply:?}, found {found_reply:?}");
                exit(1);
            }
        }
    }
}
