//! The program under check, run on an input.

use crate::feed::{write_pieces, Feed};
use std::fs::File;
use std::io::{Read, Seek, Write};
use std::process::{Child, Command, ExitStatus, Stdio};
use std::sync::mpsc;
use std::time::Duration;

/// The longest a run may take.
const MOST_TIME: Duration = Duration::from_secs(60);

#[derive(Clone)]
pub struct Program {
    path: String,
    under_valgrind: bool,
    quiet: bool,
}

impl Program {
    /// The program that REGISTRY_BENCH names.
    pub fn from_environment(under_valgrind: bool) -> Program {
        let path = std::env::var("REGISTRY_BENCH").expect("REGISTRY_BENCH names the program");
        Program { path, under_valgrind, quiet: false }
    }

    /// The same program with its complaints left unheard, for runs that only repeat them.
    pub fn quietly(&self) -> Program {
        Program { quiet: true, ..self.clone() }
    }

    pub fn spawn(&self, input: Stdio) -> Child {
        let mut command = if self.under_valgrind {
            let mut valgrind = Command::new("valgrind");
            valgrind.args(["--error-exitcode=1", "-q", &self.path]);
            valgrind
        } else {
            Command::new(&self.path)
        };
        if self.quiet {
            command.stderr(Stdio::null());
        }
        command
            .stdin(input)
            .stdout(Stdio::piped())
            .spawn()
            .unwrap_or_else(|error| panic!("{} does not start: {error}", self.path))
    }

    /// What the program writes when given the input, or what went wrong.
    pub fn run(&self, input: &[u8], feed: Feed) -> Result<Vec<u8>, String> {
        match feed {
            Feed::File => {
                let child = self.spawn(Stdio::from(temporary_file(input)));
                collect(child)
            }
            Feed::Whole | Feed::Pieces => std::thread::scope(|scope| {
                let mut child = self.spawn(Stdio::piped());
                let mut pipe = child.stdin.take().expect("the input is a pipe");
                scope.spawn(move || match feed {
                    Feed::Pieces => write_pieces(input, &mut pipe),
                    // A program that stops reading is no trouble.
                    _ => drop(pipe.write_all(input)),
                });
                collect(child)
            }),
        }
    }
}

/// A file that holds the input, read from its start, and that nothing else can name.
fn temporary_file(input: &[u8]) -> File {
    let path = std::env::temp_dir().join(format!("registry-lines-{}", std::process::id()));
    let mut options = File::options();
    let mut file = options.read(true).write(true).create(true).truncate(true).open(&path).expect("a file can be made");
    std::fs::remove_file(&path).expect("the file can be unlinked");
    file.write_all(input).expect("the file takes the input");
    file.rewind().expect("the file can be read again");
    file
}

/// All output of the program, which must end well and in time.
fn collect(mut child: Child) -> Result<Vec<u8>, String> {
    let mut pipe = child.stdout.take().expect("the output is a pipe");
    let (sender, receiver) = mpsc::channel();
    std::thread::spawn(move || {
        let mut output = Vec::new();
        let read = pipe.read_to_end(&mut output);
        let _ = sender.send(read.map(|_| output));
    });
    match receiver.recv_timeout(MOST_TIME) {
        Ok(Ok(output)) => {
            let status = child.wait().map_err(|error| error.to_string())?;
            ended_well(status).map(|()| output)
        }
        Ok(Err(error)) => Err(format!("the output can't be read: {error}")),
        Err(_) => {
            let _ = child.kill();
            let _ = child.wait();
            Err(format!("the program did not end within {} s", MOST_TIME.as_secs()))
        }
    }
}

pub fn ended_well(status: ExitStatus) -> Result<(), String> {
    if status.success() {
        Ok(())
    } else {
        Err(format!("the program ended with {status}"))
    }
}
