//! Traces that cross the blocks in which the program reads: what it keeps of a line, of the count of lines, of the
//! session and of the tables must last from block to block.

/// How many bytes the program asks for in a read.
const BLOCK: usize = 16_384;

/// Traces of some 40 kB, with their names.
pub fn traces() -> Vec<(&'static str, Vec<u8>)> {
    vec![
        ("steps over three blocks", steps(40_000)),
        ("a line over each edge", lines_over_edges(3, 1_000)),
        ("a line that just fits over each edge", lines_over_edges(3, model::LINE_BYTES - 1)),
        ("a line that is too long over each edge", lines_over_edges(3, 5_000)),
    ]
}

/// An open session whose steps alter the tables until so many bytes are there, and a last line without LF.
pub fn steps(length: usize) -> Vec<u8> {
    let mut trace = b"open\t64\t256\n".to_vec();
    let mut round = 0;
    while trace.len() < length {
        let (child, promise) = (round % 63 + 1, round % 256);
        for line in [
            format!("new\t0\t{promise}"),
            format!("async\t0\t{child}\t{promise}"),
            format!("get\t0\t{promise}"),
            format!("set\t{child}\t{promise}"),
            format!("end\t{child}"),
            format!("get\t0\t{promise}"),
        ] {
            trace.extend(line.as_bytes());
            trace.push(b'\n');
        }
        round += 1;
    }
    trace.extend(b"end\t0");
    trace
}

/// Steps, with a bad line of so many bytes across the edge of each of the first blocks.
fn lines_over_edges(edges: usize, bytes: usize) -> Vec<u8> {
    let mut trace = Vec::new();
    for edge in 1..=edges {
        let until = edge * BLOCK - bytes / 2;
        let more = steps(until - trace.len());
        let whole = more.iter().rposition(|&byte| byte == b'\n').map_or(0, |end| end + 1);
        trace.extend(&more[..whole]);
        trace.truncate(until);
        trace.extend(vec![b'x'; bytes]);
        trace.push(b'\n');
    }
    trace.extend(b"new\t0\t255");
    trace
}
