//! The smallest stack with which the program spans still runs its jobs.

use std::io::Write;
use std::path::Path;
use std::process::{Command, Stdio};

/// The system moves the start of a stack by up to 8 KiB, so each job is run several times.
const RUNS: usize = 4;
const MOST_KIBIBYTES: usize = 8192;

/// What the program prints with a stack of so many KiB and no environment, or none where it does not end well.
fn printed(spans: &Path, kibibytes: usize, job: &[u8]) -> Option<Vec<u8>> {
    let mut child = Command::new("/bin/sh")
        .args(["-c", "ulimit -c 0 && ulimit -s \"$1\" && exec \"$0\""])
        .arg(spans)
        .arg(kibibytes.to_string())
        .env_clear()
        .stdin(Stdio::piped())
        .stdout(Stdio::piped())
        .stderr(Stdio::null())
        .spawn()
        .expect("a shell runs");
    if let Some(mut input) = child.stdin.take() {
        // A program that died does not read its job; its status tells.
        input.write_all(job).ok();
    }
    let output = child.wait_with_output().expect("a program ends");
    output.status.success().then_some(output.stdout)
}

/// The smallest stack in KiB with which the program prints what it prints with a large one, and the last job that needed more.
pub fn smallest_stack(spans: &Path, jobs: &[(String, Vec<u8>)]) -> (usize, String) {
    let expected: Vec<Vec<u8>> = jobs
        .iter()
        .map(|(name, job)| {
            printed(spans, MOST_KIBIBYTES, job).unwrap_or_else(|| panic!("{name}: spans fails"))
        })
        .collect();
    let failing = |kibibytes: usize| {
        let fails = |(job, expected): &(&(String, Vec<u8>), &Vec<u8>)| {
            (0..RUNS).any(|_| printed(spans, kibibytes, &job.1).as_ref() != Some(*expected))
        };
        jobs.iter()
            .zip(&expected)
            .find(fails)
            .map(|(job, _)| &job.0)
    };
    let (mut least, mut enough, mut last) = (0, MOST_KIBIBYTES, String::new());
    while enough - least > 1 {
        let middle = (least + enough) / 2;
        match failing(middle) {
            Some(name) => (least, last) = (middle, name.clone()),
            None => enough = middle,
        }
    }
    (enough, last)
}
