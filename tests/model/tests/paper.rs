//! The examples and edges that the paper itself gives.

use model::{Answer, Model, Session, Step};

const PAPER: Model = Model::PAPER;

fn tabs(text: &str) -> Vec<u8> {
    text.replace(' ', "\t").into_bytes()
}

/// One step on fresh tables of this size, with this many report words.
fn fresh_step(tasks: usize, promises: usize, report: usize, step: Step) -> Answer {
    let (mut t, mut p, mut r) = (vec![0; tasks], vec![0; promises], vec![7; report]);
    if let Some(first) = t.first_mut() {
        *first = 1;
    }
    PAPER.step(&step, &mut t, &mut p, &mut r)
}

#[test]
fn whole_run() {
    let input =
        "open 3 4\nnew 0 0\nnew 0 1\nasync 0 1 1\nget 1 0\nget 0 1\nset 0 0\nset 0 0\nend 1\nget 0 1\nend 0\nnew 0 2\n";
    let output = "1 opened\n2 made\n3 made\n4 started\n5 waits 1\n6 cycle 2 0 1 1 0\n7 set 1 1\n8 refused 9\n\
                  9 ended 1 1 0\n10 blamed 1\n11 ended 0 0\n12 refused 4\n";
    assert_eq!(PAPER.bench(&tabs(input)), tabs(output));
}

#[test]
fn bounds() {
    let new = || Step::New { t: 0, p: 0 };
    assert_eq!(fresh_step(64, 256, 384, new()), Answer::Made);
    assert_eq!(fresh_step(65, 256, 500, new()), Answer::Refused(1));
    assert_eq!(fresh_step(0, 4, 500, new()), Answer::Refused(1));
    assert_eq!(fresh_step(64, 257, 500, new()), Answer::Refused(1));
    assert_eq!(fresh_step(1, 0, 2, new()), Answer::Refused(6));
    assert_eq!(fresh_step(1, 0, 1, new()), Answer::Refused(1));
    assert_eq!(fresh_step(3, 4, 9, new()), Answer::Refused(1));
    assert_eq!(fresh_step(3, 4, 10, new()), Answer::Made);
}

#[test]
fn soundness() {
    assert!(PAPER.is_sound(&[1, 0, 1], &[18]));
    assert!(!PAPER.is_sound(&[1, 0, 1], &[19]));
    assert!(PAPER.is_sound(&[1, 0, 2], &[82]));
    assert!(!PAPER.is_sound(&[1, 0, 2], &[83]));
    assert!(!PAPER.is_sound(&[17, 16], &[16, 17]), "two tasks waiting on each other");
    assert!(PAPER.is_sound(&[0, 0], &[0, 0, 0]), "all zero");
}

#[test]
fn own_promise_is_a_cycle_of_one() {
    let (mut tasks, mut promises, mut report) = ([1], [16], [9; 4]);
    let answer = PAPER.step(&Step::Get { t: 0, p: 0 }, &mut tasks, &mut promises, &mut report);
    assert_eq!(answer, Answer::Cycle(1));
    assert_eq!((tasks, promises, report), ([1], [16], [0, 0, 9, 9]));
}

#[test]
fn async_edges() {
    let (mut tasks, mut promises, mut report) = ([1, 0], [16, 16], [9; 6]);
    let mut start = |c, list: &[u16]| {
        let step = Step::Async { t: 0, c, list: list.to_vec() };
        PAPER.step(&step, &mut tasks, &mut promises, &mut report)
    };
    assert_eq!(start(1, &[1, 1]), Answer::RefusedAt(13, 1));
    assert_eq!(start(0, &[]), Answer::Refused(12));
    assert_eq!(start(1, &[1]), Answer::Started);
    assert_eq!((tasks, promises, report), ([1, 1], [16, 17], [9; 6]));
}

#[test]
fn line_edges() {
    assert_eq!(PAPER.bench(&tabs("open 1 1\nget 0 00\n")), tabs("1 opened\n2 refused 14 7\n"));
    assert_eq!(
        PAPER.bench(&tabs("open 65 1\nopen 1 257\nnew 0 0\nopen 64 256\nopen 0 0")),
        tabs("1 refused 1\n2 refused 1\n3 refused 15\n4 opened\n5 refused 15\n")
    );
    assert_eq!(PAPER.bench(b""), b"");
    assert_eq!(PAPER.bench(b"\n"), tabs("1 refused 14 0\n"));
}

/// The column that `bench` tells of a line, with its LF and as a last line without one.
fn told_column(line: &[u8]) -> usize {
    let with_lf = PAPER.bench(&[line, b"\n"].concat());
    assert!(line.is_empty() || PAPER.bench(line) == with_lf, "an LF at the end changes nothing");
    let answer = String::from_utf8(with_lf).expect("an answer is text");
    let column = answer.strip_prefix("1\trefused\t14\t").and_then(|rest| rest.strip_suffix('\n'));
    column.unwrap_or_else(|| panic!("{answer:?} is no refusal 14 with a column")).parse().expect("a column is a number")
}

/// Every line is written with a blank for each tab, and goes bad at its column.
fn expect_columns(lines: &[(&str, usize)]) {
    for &(line, column) in lines {
        assert_eq!(told_column(&tabs(line)), column, "{line:?}");
    }
}

#[test]
fn columns_of_early_ends() {
    expect_columns(&[
        ("", 0),
        ("n", 1),
        ("se", 2),
        ("ope", 3),
        ("async", 5),
        ("end", 3),
        ("end ", 4),
        ("new 0", 5),
        ("new 0 ", 6),
        ("open 65535", 10),
        ("async 0", 7),
        ("async 0 ", 8),
        ("async 0 1 ", 10),
        ("async 0 1 2 ", 12),
    ]);
}

#[test]
fn columns_of_words() {
    expect_columns(&[
        ("x", 0),
        ("New 0 1", 0),
        (" new 0 1", 0),
        ("newx", 3),
        ("newx 0 1", 3),
        ("ne 0 1", 2),
        ("eet 0 1", 1),
        ("sew 0 1", 2),
        ("gett 0 1", 3),
        ("asyncx", 5),
        ("openopen 1 1", 4),
        ("x y z", 0),
    ]);
}

#[test]
fn columns_of_numbers() {
    expect_columns(&[
        ("end 00", 5),
        ("end 01", 5),
        ("end 65536", 8),
        ("end 655350", 9),
        ("end 655360", 8),
        ("end 70000", 8),
        ("end 99999", 8),
        ("end 100000", 9),
        ("end x", 4),
        ("end +1", 4),
        ("end 1x", 5),
        ("end 65535x", 9),
        ("new  1", 4),
        ("new 0  1", 6),
        ("new 70000 1", 8),
        ("async 0 1 65536 2", 14),
        ("async 0 1 2 00", 13),
        ("async 0 1 2  3", 12),
    ]);
}

#[test]
fn columns_of_surplus_fields() {
    expect_columns(&[
        ("end 1 ", 5),
        ("end 1 2", 5),
        ("new 0 1 ", 7),
        ("new 0 1 2", 7),
        ("new 0 1 x", 7),
        ("open 1 1 1", 8),
        ("new 00 1 2", 5),
    ]);
}

#[test]
fn columns_of_other_bytes() {
    for (line, column) in [
        (&b"new 0 1"[..], 3),
        (b"new\t0\t1\r", 7),
        (b"new\t0\t1\0", 7),
        (b"new\t0\t\xb2", 6),
        (b"\xef\xbb\xbfnew\t0\t1", 0),
        (b"new\t0/1", 5),
        (b"new\t0\t1:", 7),
    ] {
        assert_eq!(told_column(line), column, "{}", line.escape_ascii());
    }
}

/// A line of this length that is well formed, but for the length if that is too large.
fn long_line(length: usize) -> Vec<u8> {
    let mut line = b"async\t0\t1".to_vec();
    while line.len() < length {
        line.extend_from_slice(if length - line.len() == 3 { b"\t10" } else { b"\t0" });
    }
    line
}

#[test]
fn columns_round_the_limit() {
    for length in [2047, 2048, 2049, 2050, 5000] {
        assert_eq!(long_line(length).len(), length);
        assert!(PAPER.is_well_formed(&long_line(length)));
        let longest_column = length.min(2048);
        let unfinished = [&long_line(length - 1)[..], b"\t"].concat();
        assert_eq!(told_column(&unfinished), longest_column, "unfinished, of {length} bytes");
        for place in [0, 3, 5, 1000, length - 1] {
            let mut bad = long_line(length);
            bad[place] = b'x';
            let column = if length > 2048 { 2048 } else { place };
            assert_eq!(told_column(&bad), column, "bad at {place}, of {length} bytes");
        }
    }
    for length in [2049, 2050, 5000] {
        assert_eq!(told_column(&long_line(length)), 2048, "well formed but for its {length} bytes");
        assert_eq!(told_column(&vec![b'x'; length]), 2048);
    }
    assert_eq!(told_column(&[b'x'; 2048]), 0);
}

#[test]
fn an_lf_in_the_lent_line_is_a_bad_byte() {
    let mut lent = ([0; 64], [0; 256], [0; 384], [b'x'; 2048]);
    let mut session = Session::Unopened;
    let length = PAPER.line(b"new\t0\n", 7, &mut session, &mut lent.0, &mut lent.1, &mut lent.2, &mut lent.3);
    assert_eq!(length, Ok("7 refused 14 5\n".len()));
    assert_eq!(&lent.3[..16], b"7\trefused\t14\t5\nx");
}

#[test]
fn only_14_has_a_column() {
    assert_eq!(
        PAPER.bench(&tabs("new 0 1\nnew 0 x\nopen 2 2\nopen 2 2\nnew 9 9\nnew 0\n")),
        tabs("1 refused 15\n2 refused 14 6\n3 opened\n4 refused 15\n5 refused 3\n6 refused 14 5\n")
    );
}

#[test]
fn line_entry_lends() {
    let mut lent = (vec![0; 64], vec![0; 256], vec![0; 384], vec![b'x'; 2048]);
    let mut try_line = |number, session: Session, tasks: usize, bytes: usize| {
        let mut session = session;
        let (t, p, r, a) = (&mut lent.0, &mut lent.1, &mut lent.2, &mut lent.3);
        PAPER.line(b"open\t3\t4", number, &mut session, &mut t[..tasks], p, r, &mut a[..bytes])
    };
    assert_eq!(try_line(0, Session::Unopened, 64, 2048), Err(1));
    assert_eq!(try_line(1_000_000, Session::Unopened, 64, 2048), Err(1));
    assert_eq!(try_line(1, Session::Open { tasks: 65, promises: 0 }, 64, 2048), Err(1));
    assert_eq!(try_line(1, Session::Unopened, 63, 2048), Err(1));
    assert_eq!(try_line(1, Session::Unopened, 64, 2047), Err(1));
    assert_eq!(try_line(999_999, Session::Unopened, 64, 2048), Ok("999999\topened\n".len()));
    assert_eq!(&lent.3[..15], b"999999\topened\nx");
}
