//! How tallies call the answers, and what of them must have been seen.

use model::batch::ANSWER_WORDS;
use model::Answer;

/// How a tally calls a step's answer of this number.
pub fn answer_name(number: u16) -> String {
    match number {
        101..=108 => Answer::name(number).to_string(),
        _ => format!("refused {number:02}"),
    }
}

/// The 17s that must be seen: in set, in async by where the place lies, and by the blamed task.
pub const BLAMED_NAMES: [&str; 8] = [
    "17 in set",
    "17 at place 0",
    "17 at place to 15",
    "17 at place to 254",
    "17 at place 255",
    "17 on task 0",
    "17 on task to 62",
    "17 on task 63",
];

/// How a tally calls a 17 with these values: one for its step and place, one for its task.
pub fn blamed_names(place: Option<u16>, task: u16) -> [&'static str; 2] {
    let by_place = match place {
        None => 0,
        Some(0) => 1,
        Some(1..=15) => 2,
        Some(16..=254) => 3,
        Some(_) => 4,
    };
    let by_task = match task {
        0 => 5,
        1..=62 => 6,
        _ => 7,
    };
    [BLAMED_NAMES[by_place], BLAMED_NAMES[by_task]]
}

/// All names of the answer that these words of a step give.
pub fn names_of(words: [u16; ANSWER_WORDS], is_async: bool) -> Vec<String> {
    let mut names = vec![answer_name(words[0])];
    if words[0] == 17 {
        let (place, task) = if is_async { (Some(words[1]), words[2]) } else { (None, words[1]) };
        names.extend(blamed_names(place, task).map(str::to_string));
    }
    names
}
