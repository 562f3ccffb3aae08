//! Runs programs on an input and takes their times.

use std::fs::File;
use std::process::{Command, Stdio};
use std::time::Instant;

/// A program with its arguments, and what the table calls it.
pub struct Job {
    pub name: &'static str,
    path: String,
    arguments: Vec<&'static str>,
}

impl Job {
    pub fn new(name: &'static str, path: &str, arguments: &[&'static str]) -> Job {
        Job { name, path: path.to_string(), arguments: arguments.to_vec() }
    }

    fn command(&self, input: &InputFile) -> Command {
        let mut command = Command::new(&self.path);
        command.args(&self.arguments).stdin(input.open());
        command
    }

    /// Everything the program writes.
    pub fn output(&self, input: &[u8]) -> Vec<u8> {
        let file = InputFile::new(input);
        let output = self.command(&file).stderr(Stdio::inherit()).output();
        output.unwrap_or_else(|error| panic!("{} does not start: {error}", self.path)).stdout
    }

    /// How many milliseconds one run takes, its output thrown away.
    fn time(&self, input: &InputFile) -> f64 {
        let mut command = self.command(input);
        command.stdout(Stdio::null());
        let start = Instant::now();
        let status = command.status();
        let time = start.elapsed();
        assert!(status.is_ok_and(|status| status.success()), "{} did not end well", self.name);
        time.as_secs_f64() * 1000.0
    }
}

/// The median time of each job, in milliseconds; the jobs take turns.
pub fn median_times(jobs: &[Job], input: &[u8], runs: usize) -> Vec<f64> {
    let file = InputFile::new(input);
    let mut times = vec![Vec::new(); jobs.len()];
    for run in 0..=runs {
        for (job, times) in jobs.iter().zip(&mut times) {
            let time = job.time(&file);
            // The first run of each only warms it up.
            if run > 0 {
                times.push(time);
            }
        }
    }
    times.iter_mut().map(|times| median(times)).collect()
}

fn median(times: &mut [f64]) -> f64 {
    times.sort_by(f64::total_cmp);
    times[times.len() / 2]
}

/// An input in a file, removed when it is no longer needed.
struct InputFile {
    path: std::path::PathBuf,
}

impl InputFile {
    fn new(input: &[u8]) -> InputFile {
        let path = std::env::temp_dir().join(format!("registry-benchmark-{}", std::process::id()));
        std::fs::write(&path, input).expect("the input can be written to a file");
        InputFile { path }
    }

    fn open(&self) -> File {
        File::open(&self.path).expect("the input can be read from its file")
    }
}

impl Drop for InputFile {
    fn drop(&mut self) {
        let _ = std::fs::remove_file(&self.path);
    }
}
