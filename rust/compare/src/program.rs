//! Runs the program `spans` on an input, with a time limit.

use crate::machine;
use std::io::{Read, Write};
use std::path::{Path, PathBuf};
use std::process::{Child, Stdio};
use std::sync::{Arc, Mutex};
use std::time::{Duration, Instant};

const LIMIT_SECONDS: u64 = 10;

type Watched = Arc<Mutex<Option<(Child, Instant)>>>;

pub struct Program {
    path: PathBuf,
    limit: Duration,
    running: Watched,
}

impl Program {
    /// The program at a path. A thread ends a run that takes longer than the limit.
    pub fn new(path: &Path) -> Program {
        let running: Watched = Arc::new(Mutex::new(None));
        let watched = Arc::clone(&running);
        let limit = machine::limit(LIMIT_SECONDS);
        std::thread::spawn(move || loop {
            std::thread::sleep(Duration::from_millis(200));
            if let Ok(mut running) = watched.lock() {
                if let Some((child, since)) = running.as_mut() {
                    if since.elapsed() > limit {
                        let _ = child.kill();
                    }
                }
            }
        });
        Program {
            path: path.to_path_buf(),
            limit,
            running,
        }
    }

    /// What the program prints for the input. It must end well, in time, and write nothing to its error output.
    pub fn run(&self, input: &[u8]) -> Result<Vec<u8>, String> {
        let mut command = machine::command(&self.path);
        command
            .stdin(Stdio::piped())
            .stdout(Stdio::piped())
            .stderr(Stdio::piped());
        let mut child = command
            .spawn()
            .map_err(|error| format!("{} does not run: {error}", self.path.display()))?;
        let since = Instant::now();
        let stdin = child.stdin.take();
        let stdout = child.stdout.take();
        let stderr = child.stderr.take();
        *self.running.lock().map_err(|_| "the watch is broken")? = Some((child, since));
        if let Some(mut stdin) = stdin {
            // A program that has seen enough may close its input.
            let _ = stdin.write_all(input);
        }
        let mut printed = Vec::new();
        let mut complaint = Vec::new();
        read_all(stdout, &mut printed)?;
        read_all(stderr, &mut complaint)?;
        let status = self.wait()?;
        if since.elapsed() > self.limit {
            return Err(format!("it ran longer than {} s", self.limit.as_secs()));
        }
        if !status.success() {
            return Err(format!("it ended with {status}"));
        }
        if !complaint.is_empty() {
            return Err(format!(
                "it wrote to its error output: {}",
                String::from_utf8_lossy(&complaint)
            ));
        }
        Ok(printed)
    }

    fn wait(&self) -> Result<std::process::ExitStatus, String> {
        loop {
            let mut running = self.running.lock().map_err(|_| "the watch is broken")?;
            let (child, _) = running.as_mut().ok_or("nothing runs")?;
            if let Some(status) = child.try_wait().map_err(|error| error.to_string())? {
                *running = None;
                return Ok(status);
            }
            drop(running);
            std::thread::sleep(Duration::from_micros(50));
        }
    }
}

fn read_all(source: Option<impl Read>, into: &mut Vec<u8>) -> Result<(), String> {
    match source {
        Some(mut source) => source
            .read_to_end(into)
            .map(|_| ())
            .map_err(|error| error.to_string()),
        None => Ok(()),
    }
}
