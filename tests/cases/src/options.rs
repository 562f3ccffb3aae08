//! What a check was asked for on its command line.

/// The number after this option, if the option is there.
pub fn number_after(option: &str) -> Option<u64> {
    let arguments: Vec<String> = std::env::args().collect();
    let place = arguments.iter().position(|argument| argument == option)?;
    match arguments.get(place + 1).map(|number| number.parse()) {
        Some(Ok(number)) => Some(number),
        _ => panic!("{option} needs a number"),
    }
}

pub fn present(option: &str) -> bool {
    std::env::args().any(|argument| argument == option)
}
