//! A session of lines: one line in, one answer line added to the output.

use crate::column::column;
use crate::registry::{fresh, Answer, Lent};
use crate::sound::{MOST_PROMISES, MOST_TASKS};

pub const LINE_BYTES: usize = 2048;

pub struct Session {
    sizes: Option<(usize, usize)>,
    tests_soundness: bool,
    tasks: [u16; MOST_TASKS],
    promises: [u16; MOST_PROMISES],
    report: [u16; MOST_PROMISES + 2 * MOST_TASKS],
    list: Vec<u16>,
}

/// What a well-formed line asks for; the list of an async is kept beside it.
enum Record {
    Open(u16, u16),
    New(u16, u16),
    Set(u16, u16),
    Get(u16, u16),
    Async(u16, u16),
    End(u16),
}

impl Session {
    pub fn new(tests_soundness: bool) -> Session {
        Session {
            sizes: None,
            tests_soundness,
            tasks: [0; MOST_TASKS],
            promises: [0; MOST_PROMISES],
            report: [0; MOST_PROMISES + 2 * MOST_TASKS],
            list: Vec::new(),
        }
    }

    /// Answers one line without its LF.
    pub fn answer(&mut self, number: u32, line: &[u8], output: &mut Vec<u8>) {
        push_number(output, number);
        let record = if line.len() > LINE_BYTES { None } else { self.parse(line) };
        let answer = match (record, self.sizes) {
            (None, _) => Answer::RefusedAt(14, column(line) as u16),
            (Some(Record::Open(..)), Some(_)) => Answer::Refused(15),
            (Some(Record::Open(tasks, promises)), None) => {
                if self.open(tasks as usize, promises as usize) {
                    output.extend_from_slice(b"\topened\n");
                    return;
                }
                Answer::Refused(1)
            }
            (Some(_), None) => Answer::Refused(15),
            (Some(record), Some((tasks, promises))) => {
                let mut lent = Lent {
                    tasks: &mut self.tasks[..tasks],
                    promises: &mut self.promises[..promises],
                    report: &mut self.report,
                    tests_soundness: self.tests_soundness,
                };
                match record {
                    Record::New(t, p) => lent.make(t, p),
                    Record::Set(t, p) => lent.set(t, p),
                    Record::Get(t, p) => lent.get(t, p),
                    Record::Async(t, c) => lent.start(t, c, &self.list),
                    Record::End(t) => lent.end(t),
                    Record::Open(..) => unreachable!("opens are answered above"),
                }
            }
        };
        self.push_answer(answer, output);
        output.push(b'\n');
    }

    fn open(&mut self, tasks: usize, promises: usize) -> bool {
        if tasks > MOST_TASKS || promises > MOST_PROMISES {
            return false;
        }
        let opened = fresh(&mut self.tasks[..tasks], &mut self.promises[..promises]);
        if opened {
            self.sizes = Some((tasks, promises));
        }
        opened
    }

    fn parse(&mut self, line: &[u8]) -> Option<Record> {
        let mut fields = line.split(|&byte| byte == b'\t');
        let word = fields.next()?;
        let first = parse_number(fields.next()?)?;
        if word == b"end" {
            return fields.next().is_none().then_some(Record::End(first));
        }
        let second = parse_number(fields.next()?)?;
        if word == b"async" {
            self.list.clear();
            for field in fields {
                self.list.push(parse_number(field)?);
            }
            return Some(Record::Async(first, second));
        }
        if fields.next().is_some() {
            return None;
        }
        match word {
            b"open" => Some(Record::Open(first, second)),
            b"new" => Some(Record::New(first, second)),
            b"set" => Some(Record::Set(first, second)),
            b"get" => Some(Record::Get(first, second)),
            _ => None,
        }
    }

    fn push_answer(&self, answer: Answer, output: &mut Vec<u8>) {
        let (name, values): (&[u8], &[u16]) = match &answer {
            Answer::Refused(number) => (b"refused", &[*number]),
            Answer::RefusedAt(number, place) => (b"refused", &[*number, *place]),
            Answer::RefusedBlamed(task) => (b"refused", &[17, *task]),
            Answer::RefusedBlamedAt(place, task) => (b"refused", &[17, *place, *task]),
            Answer::Made => (b"made", &[]),
            Answer::Set(woken) => (b"set", &[*woken]),
            Answer::Value => (b"value", &[]),
            Answer::Blamed(task) => (b"blamed", &[*task]),
            Answer::Waits(owners) => (b"waits", &[*owners]),
            Answer::Cycle(owners) => (b"cycle", &[*owners]),
            Answer::Started => (b"started", &[]),
            Answer::Ended(omitted, _) => (b"ended", &[*omitted]),
        };
        output.push(b'\t');
        output.extend_from_slice(name);
        push_fields(output, values);
        match answer {
            Answer::Set(woken) => push_fields(output, &self.report[..woken as usize]),
            Answer::Cycle(owners) => push_fields(output, &self.report[..2 * owners as usize]),
            Answer::Ended(omitted, woken) => {
                let (omitted, woken) = (omitted as usize, woken as usize);
                push_fields(output, &self.report[..omitted]);
                push_fields(output, &[woken as u16]);
                push_fields(output, &self.report[omitted..omitted + woken]);
            }
            _ => {}
        }
    }
}

fn parse_number(field: &[u8]) -> Option<u16> {
    if field.is_empty() || field.len() > 5 || field[0] == b'0' && field.len() > 1 {
        return None;
    }
    let mut value = 0u32;
    for &byte in field {
        let digit = byte.wrapping_sub(b'0');
        if digit > 9 {
            return None;
        }
        value = value * 10 + u32::from(digit);
    }
    u16::try_from(value).ok()
}

fn push_fields(output: &mut Vec<u8>, values: &[u16]) {
    for &value in values {
        output.push(b'\t');
        push_number(output, u32::from(value));
    }
}

fn push_number(output: &mut Vec<u8>, mut value: u32) {
    let mut digits = [0; 10];
    let mut start = digits.len();
    loop {
        start -= 1;
        digits[start] = b'0' + (value % 10) as u8;
        value /= 10;
        if value == 0 {
            break;
        }
    }
    output.extend_from_slice(&digits[start..]);
}
