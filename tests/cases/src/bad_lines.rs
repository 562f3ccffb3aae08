//! Lines that are nearly well formed.

use crate::random::Random;

/// The fields that a reader may take wrongly for a number.
const BAD_NUMBERS: [&[u8]; 28] = [
    b"",
    b"00",
    b"01",
    b"007",
    b"0x",
    b"000000",
    b"65536",
    b"65537",
    b"65540",
    b"65600",
    b"66000",
    b"70000",
    b"99999",
    b"100000",
    b"065535",
    b"655350",
    b"655360",
    b"131072",
    b"4294967296",
    b"18446744073709551616",
    b"+1",
    b"-0",
    b"-1",
    b" 1",
    b"1 ",
    b"0x1",
    b"1a",
    b"\xb2",
];

/// The fields that a reader may take wrongly for the first word; many begin or end like one.
const BAD_WORDS: [&[u8]; 31] = [
    b"",
    b"Open",
    b"NEW",
    b"Set",
    b"sEt",
    b"gets",
    b"gett",
    b"ge",
    b"asyn",
    b"async ",
    b"asyncs",
    b"asyncx",
    b"sync",
    b"endd",
    b"en",
    b"et",
    b"e",
    b" end",
    b"ope",
    b"opne",
    b"opened",
    b"o",
    b"ne",
    b"net",
    b"newx",
    b"se",
    b"sew",
    b"sett",
    b"full",
    b"\xef\xbb\xbfnew",
    b"new\0",
];

/// The line with something changed; it may come out well formed.
pub fn spoil_line(r: &mut Random, line: &[u8]) -> Vec<u8> {
    let mut fields: Vec<Vec<u8>> = line.split(|&byte| byte == b'\t').map(|field| field.to_vec()).collect();
    let place = r.below(fields.len());
    let number_place = if fields.len() > 1 { 1 + r.below(fields.len() - 1) } else { 0 };
    match r.below(21) {
        0 | 1 => fields[number_place] = r.pick(&BAD_NUMBERS).to_vec(),
        2 => fields[0] = r.pick(&BAD_WORDS).to_vec(),
        3 => fields.insert(place, Vec::new()),
        4 => fields.push(Vec::new()),
        5 => fields.push(r.below(70).to_string().into_bytes()),
        6 => {
            fields.remove(place);
        }
        7 => fields.truncate(place),
        8 => fields.swap(0, place),
        9 => fields[number_place].insert(0, b'0'),
        10 => fields[0].make_ascii_uppercase(),
        11 => fields.push(b"\r".to_vec()),
        12 => fields[number_place] = number_round_limit(r),
        13 => fields[0].truncate(r.below(6)),
        14 => return line[..r.below(line.len() + 1)].to_vec(),
        15 => return [line, &[any_byte(r)]].concat(),
        _ => return change_bytes(r, line.to_vec()),
    }
    let mut spoiled = fields.join(&b'\t');
    if r.once_in(10) {
        spoiled.push(r.pick(b"\r \t\0\x0b\x0c"));
    }
    spoiled
}

/// A number about as large as the largest, or one with a few digits more.
fn number_round_limit(r: &mut Random) -> Vec<u8> {
    let number = if r.once_in(4) { 60_000 + r.below(40_000) } else { 65_525 + r.below(20) };
    let more = ["", "", "0", "5", "00", "99999"];
    format!("{number}{}", r.pick(&more)).into_bytes()
}

/// Any byte but LF, often one that stands in lines or beside those.
fn any_byte(r: &mut Random) -> u8 {
    let byte = if r.once_in(2) { r.pick(b"\t\t 0159\r\0/:+-aA") } else { r.bits() as u8 };
    if byte == b'\n' {
        b'\t'
    } else {
        byte
    }
}

/// The line with a few bytes changed, put in or taken out; never an LF.
fn change_bytes(r: &mut Random, mut line: Vec<u8>) -> Vec<u8> {
    for _ in 0..1 + r.below(2) {
        let byte = any_byte(r);
        let place = r.below(line.len() + 1);
        match r.below(4) {
            0 if place < line.len() => line[place] = byte,
            1 if place < line.len() => {
                line.remove(place);
            }
            2 => line = line.iter().map(|&b| if b == b'\t' { b' ' } else { b }).collect(),
            _ => line.insert(place, byte),
        }
    }
    line
}
