//! What runs a program for x86-64: the machine itself, or the emulator that the environment variable EMULATOR names.

use std::env;
use std::ffi::OsString;
use std::path::Path;
use std::process::Command;
use std::time::Duration;

/// How many times as long everything may take under an emulator.
const SLOWER: u64 = 10;

fn emulator() -> Option<OsString> {
    env::var_os("EMULATOR").filter(|name| !name.is_empty())
}

/// The command that runs the program at a path.
pub fn command(program: &Path) -> Command {
    match emulator() {
        None => Command::new(program),
        Some(emulator) => {
            let mut command = Command::new(emulator);
            command.arg(program);
            command
        }
    }
}

/// A limit of so many seconds, or of more under an emulator.
pub fn limit(seconds: u64) -> Duration {
    Duration::from_secs(match emulator() {
        None => seconds,
        Some(_) => seconds * SLOWER,
    })
}
