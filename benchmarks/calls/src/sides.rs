//! The same call on both sides: the proved library and the plain code.

use crate::scenes::Call;
use crate::timing::median_nanoseconds;
use plain::registry::Answer;

/// How many calls are timed in a row.
const CALLS: u32 = 4_000;

#[derive(Clone, PartialEq, Eq)]
struct Lent {
    tasks: Vec<u16>,
    promises: Vec<u16>,
    report: Vec<u16>,
    answer: [u16; 4],
}

impl Lent {
    fn new(tasks: &[u16], promises: &[u16]) -> Lent {
        let report = vec![0; promises.len() + 2 * tasks.len()];
        Lent { tasks: tasks.to_vec(), promises: promises.to_vec(), report, answer: [0; 4] }
    }

    fn put_back(&mut self, tasks: &[u16], promises: &[u16]) {
        self.tasks.copy_from_slice(tasks);
        self.promises.copy_from_slice(promises);
    }
}

/// The nanoseconds of the call by the library, by the plain code, and by this without its soundness test; both sides
/// have first given the same words, and the number that is expected.
pub fn times(tasks: &[u16], promises: &[u16], call: &Call, expected_number: u16) -> [f64; 3] {
    let mut lent = Lent::new(tasks, promises);
    let mut plain_lent = lent.clone();
    let number = library_call(&mut lent, call);
    let plain_number = plain_call(&mut plain_lent, call, true);
    assert!(number == plain_number && lent == plain_lent, "library and plain code differ on {call:?}");
    assert_eq!(number, expected_number, "{call:?} does not show what it is meant to");
    median_nanoseconds(
        CALLS,
        &mut lent,
        &|lent| lent.put_back(tasks, promises),
        [&|lent| library_call(lent, call), &|lent| plain_call(lent, call, true), &|lent| plain_call(lent, call, false)],
    )
}

/// One time as a share of another, as the tables tell it.
pub fn ratio(time: f64, other: f64) -> String {
    if other > 0.0 {
        format!("{:.2}", time / other)
    } else {
        "-".to_string()
    }
}

/// The number that the library's call returns.
#[inline(never)]
fn library_call(lent: &mut Lent, call: &Call) -> u16 {
    let Lent { tasks, promises, report, answer } = lent;
    match call {
        Call::IsSound => u16::from(library::is_sound(tasks, promises)),
        Call::New { t, p } => library::step_new(tasks, promises, report, *t, *p, answer),
        Call::Set { t, p } => library::step_set(tasks, promises, report, *t, *p, answer),
        Call::GetValue { t, p } | Call::GetWaits { t, p } | Call::GetCycle { t, p } => {
            library::step_get(tasks, promises, report, *t, *p, answer)
        }
        Call::Async { t, c, list } => library::step_async(tasks, promises, report, *t, *c, list, answer),
        Call::End { t } => library::step_end(tasks, promises, report, *t, answer),
    }
}

/// The number that the plain call returns.
#[inline(never)]
fn plain_call(lent: &mut Lent, call: &Call, tests_soundness: bool) -> u16 {
    let Lent { tasks, promises, report, answer } = lent;
    if let Call::IsSound = call {
        return u16::from(plain::sound::is_sound(tasks, promises));
    }
    let mut lent = plain::registry::Lent { tasks, promises, report, tests_soundness };
    let given = match call {
        Call::IsSound => unreachable!("answered above"),
        Call::New { t, p } => lent.make(*t, *p),
        Call::Set { t, p } => lent.set(*t, *p),
        Call::GetValue { t, p } | Call::GetWaits { t, p } | Call::GetCycle { t, p } => lent.get(*t, *p),
        Call::Async { t, c, list } => lent.start(*t, *c, list),
        Call::End { t } => lent.end(*t),
    };
    *answer = words(given);
    answer[0]
}

/// The answer as the library's four words.
fn words(answer: Answer) -> [u16; 4] {
    match answer {
        Answer::Refused(number) => [number, 0, 0, 0],
        Answer::RefusedAt(number, place) => [number, place, 0, 0],
        Answer::RefusedBlamed(task) => [17, task, 0, 0],
        Answer::RefusedBlamedAt(place, task) => [17, place, task, 0],
        Answer::Made => [101, 0, 0, 0],
        Answer::Set(woken) => [102, woken, 0, 0],
        Answer::Value => [103, 0, 0, 0],
        Answer::Blamed(task) => [104, task, 0, 0],
        Answer::Waits(owners) => [105, owners, 0, 0],
        Answer::Cycle(owners) => [106, owners, 0, 0],
        Answer::Started => [107, 0, 0, 0],
        Answer::Ended(omitted, woken) => [108, omitted, woken, 0],
    }
}
