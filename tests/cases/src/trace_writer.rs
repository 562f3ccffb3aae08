//! Writes a trace line by line, with the tables it leads to kept beside it.

use model::{Model, Session, Step, LINE_REPORT_WORDS, MOST_PROMISES, MOST_TASKS};

pub struct TraceWriter {
    pub bytes: Vec<u8>,
    session: Session,
    tasks: Vec<u16>,
    promises: Vec<u16>,
    report: Vec<u16>,
}

impl TraceWriter {
    pub fn unopened() -> TraceWriter {
        TraceWriter {
            bytes: Vec::new(),
            session: Session::Unopened,
            tasks: vec![0; MOST_TASKS],
            promises: vec![0; MOST_PROMISES],
            report: vec![0; LINE_REPORT_WORDS],
        }
    }

    pub fn opened(tasks: usize, promises: usize) -> TraceWriter {
        let mut trace = TraceWriter::unopened();
        trace.blanks(&format!("open {tasks} {promises}"));
        trace
    }

    /// The tables the session uses.
    pub fn tables(&self) -> (&[u16], &[u16]) {
        match self.session {
            Session::Unopened => (&[], &[]),
            Session::Open { tasks, promises } => (&self.tasks[..tasks], &self.promises[..promises]),
        }
    }

    /// Adds a line, and carries it out.
    pub fn line(&mut self, line: &[u8]) {
        self.bytes.extend_from_slice(line);
        self.bytes.push(b'\n');
        let mut answer_line = [0; 2048];
        Model::PAPER
            .line(line, 1, &mut self.session, &mut self.tasks, &mut self.promises, &mut self.report, &mut answer_line)
            .expect("everything lent to the line entry is of the right size");
    }

    /// Adds a line written with a blank for each tab.
    pub fn blanks(&mut self, line: &str) {
        self.line(line.replace(' ', "\t").as_bytes());
    }

    pub fn step(&mut self, step: &Step) {
        self.line(&step_line(step));
    }
}

/// The line that asks for the step, without LF.
pub fn step_line(step: &Step) -> Vec<u8> {
    let text = match step {
        Step::New { t, p } => format!("new\t{t}\t{p}"),
        Step::Set { t, p } => format!("set\t{t}\t{p}"),
        Step::Get { t, p } => format!("get\t{t}\t{p}"),
        Step::Async { t, c, list } => {
            let entries: String = list.iter().map(|p| format!("\t{p}")).collect();
            format!("async\t{t}\t{c}{entries}")
        }
        Step::End { t } => format!("end\t{t}"),
    };
    text.into_bytes()
}
