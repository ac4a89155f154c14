//! Runs `spans` on random byte strings and on mutated jobs, and compares what is printed with the reference.
//!
//! fuzz_spans --spans PATH [--seed S] [--bytes K] [--jobs K] [--long]
//!
//! Each run must end well, in time, with nothing on the error output, and print exactly what the reference prints. The path can be
//! given by the environment variable SPANS too. The last line is `N passed, M failed`.

use compare::job::show_bytes;
use compare::program::Program;
use compare::random::Random;
use compare::tally::Tally;
use compare::{jobs, spans};
use std::path::PathBuf;
use std::process::ExitCode;
use std::time::{SystemTime, UNIX_EPOCH};

const USUAL_COUNT: u64 = 2_000;
const LONG_COUNT: u64 = 1_000_000;
const PROGRESS: u64 = 100_000;

struct Options {
    seed: u64,
    bytes: u64,
    jobs: u64,
    spans: PathBuf,
}

fn options() -> Result<Options, String> {
    let clock = SystemTime::now()
        .duration_since(UNIX_EPOCH)
        .map_or(1, |time| time.as_nanos() as u64);
    let mut path = std::env::var_os("SPANS")
        .filter(|path| !path.is_empty())
        .map(PathBuf::from);
    let (mut seed, mut bytes, mut jobs) = (clock, USUAL_COUNT, USUAL_COUNT);
    let mut words = std::env::args().skip(1);
    while let Some(word) = words.next() {
        if word == "--long" {
            (bytes, jobs) = (LONG_COUNT, LONG_COUNT);
            continue;
        }
        let value = words.next().ok_or(format!("{word} needs a value"))?;
        let number = || {
            value
                .parse::<u64>()
                .map_err(|_| format!("{word} needs a number"))
        };
        match word.as_str() {
            "--seed" => seed = number()?,
            "--bytes" => bytes = number()?,
            "--jobs" => jobs = number()?,
            "--spans" => path = Some(PathBuf::from(value)),
            _ => return Err(format!("no such option: {word}")),
        }
    }
    let spans =
        path.ok_or("the path of spans is not given (--spans PATH, or SPANS in the environment)")?;
    Ok(Options {
        seed,
        bytes,
        jobs,
        spans,
    })
}

fn check(program: &Program, input: &[u8], tally: &mut Tally) -> Result<(), String> {
    let expected = spans::printed(input);
    tally.add_printed(&expected);
    let printed = program.run(input)?;
    if printed == expected {
        return Ok(());
    }
    Err(format!(
        "it printed\n{}expected\n{}",
        String::from_utf8_lossy(&printed),
        String::from_utf8_lossy(&expected)
    ))
}

fn main() -> ExitCode {
    let options = match options() {
        Ok(options) => options,
        Err(fault) => {
            println!("{fault}\n0 passed, 1 failed");
            return ExitCode::FAILURE;
        }
    };
    println!("seed {}", options.seed);
    let program = Program::new(&options.spans);
    let mut tally = Tally::default();
    let (mut passed, mut failed) = (0u64, 0u64);
    for number in 0..options.bytes + options.jobs {
        if number % PROGRESS == 0 && number > 0 {
            println!("{number} runs compared");
        }
        let mut random = Random::of_case(options.seed, number);
        let (kind, input) = if number < options.bytes {
            ("any bytes", jobs::any_bytes(&mut random))
        } else {
            ("mutated job", jobs::mutated(&mut random))
        };
        tally.add_kind(kind);
        match check(&program, &input, &mut tally) {
            Ok(()) => passed += 1,
            Err(difference) => {
                failed += 1;
                println!(
                    "DIFFERENCE in {number} ({kind}): {difference}\nthe input: {}\n",
                    show_bytes(&input)
                );
                if failed == 3 {
                    break;
                }
            }
        }
    }
    tally.print_printed();
    println!("{passed} passed, {failed} failed");
    if failed == 0 {
        ExitCode::SUCCESS
    } else {
        ExitCode::FAILURE
    }
}
