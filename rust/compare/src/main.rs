//! Compares the proved library and the program `spans` with the reference.
//!
//! compare [--seed S] [--cases K] [--only K] [--long] [--spans PATH] [--spans-cases K]
//!
//! The kept cases come first, then random ones; the seed is printed. `--only K` runs the random case of that number again. The
//! path of the program can be given by the environment variable SPANS too. The last line is `N passed, M failed`.

use compare::asking::Asker;
use compare::job::{self, Kept};
use compare::program::Program;
use compare::questions::judge;
use compare::random::Random;
use compare::tally::Tally;
use compare::{cases, document, jobs, plan, spans, watch};
use std::path::{Path, PathBuf};
use std::process::ExitCode;
use std::time::{SystemTime, UNIX_EPOCH};

const USUAL_CASES: u64 = 30_000;
const LONG_CASES: u64 = 1_000_000;
const USUAL_SPANS_CASES: u64 = 1_500;
/// From so many cases on, an answer to each question and each refusal of the library must have been met.
const CASES_THAT_MEET_ALL: u64 = 10_000;
const PROGRESS: u64 = 100_000;

struct Options {
    seed: u64,
    cases: u64,
    only: Option<u64>,
    spans: Option<PathBuf>,
    spans_cases: u64,
}

fn options() -> Result<Options, String> {
    let clock = SystemTime::now()
        .duration_since(UNIX_EPOCH)
        .map_or(1, |time| time.as_nanos() as u64);
    let mut options = Options {
        seed: clock,
        cases: USUAL_CASES,
        only: None,
        spans: std::env::var_os("SPANS")
            .filter(|path| !path.is_empty())
            .map(PathBuf::from),
        spans_cases: USUAL_SPANS_CASES,
    };
    let mut words = std::env::args().skip(1);
    while let Some(word) = words.next() {
        let mut number = || {
            words
                .next()
                .and_then(|value| value.parse().ok())
                .ok_or(format!("{word} needs a number"))
        };
        match word.as_str() {
            "--seed" => options.seed = number()?,
            "--cases" => options.cases = number()?,
            "--only" => options.only = Some(number()?),
            "--spans-cases" => options.spans_cases = number()?,
            "--long" => (options.cases, options.spans_cases) = (LONG_CASES, LONG_CASES / 20),
            "--spans" => {
                options.spans = Some(
                    words
                        .next()
                        .map(PathBuf::from)
                        .ok_or("--spans needs a path")?,
                )
            }
            _ => return Err(format!("no such option: {word}")),
        }
    }
    Ok(options)
}

/// What has been compared so far; it stops telling after some differences.
#[derive(Default)]
struct Run {
    tally: Tally,
    passed: u64,
    failed: u64,
}

impl Run {
    fn note(&mut self, name: &str, outcome: Result<(), String>) {
        match outcome {
            Ok(()) => self.passed += 1,
            Err(difference) => {
                self.failed += 1;
                println!("DIFFERENCE in {name}\n{difference}\n");
            }
        }
    }

    fn enough(&self) -> bool {
        self.failed >= 3
    }
}

/// Every question of a kept job's grammar and line, several times over with other memory; the job's own questions too.
fn library_kept(kept: &Kept, seed: u64, tally: &mut Tally) -> Result<(), String> {
    let parts = match spans::read_job(&kept.input) {
        Ok(parts) => parts,
        Err(_) => return Ok(()),
    };
    let judged = judge(&parts.grammar, &parts.line);
    let mut asker = Asker::new(
        &parts.grammar,
        &parts.line,
        &judged,
        Random::new(seed),
        tally,
    );
    for numbers in &parts.questions {
        plan::ask_span(&mut asker, numbers.map(usize::from))?;
    }
    for _ in 0..3 {
        plan::ask_everything(&mut asker)?;
        plan::ask_each_once(&mut asker)?;
    }
    Ok(())
}

/// The reference agrees with what the file says is printed, and the program with the reference.
fn program_agrees(
    program: Option<&Program>,
    input: &[u8],
    written: Option<&[u8]>,
    tally: &mut Tally,
) -> Result<(), String> {
    let expected = spans::printed(input);
    if let Some(written) = written {
        compare_text("the file", written, &expected, input)?;
    }
    if let Some(program) = program {
        tally.add_printed(&expected);
        let printed = program
            .run(input)
            .map_err(|fault| format!("spans: {fault}\nthe job: {}", job::show_bytes(input)))?;
        compare_text("spans", &printed, &expected, input)?;
    }
    Ok(())
}

fn compare_text(name: &str, is: &[u8], should: &[u8], input: &[u8]) -> Result<(), String> {
    if is == should {
        return Ok(());
    }
    let (is, should) = (String::from_utf8_lossy(is), String::from_utf8_lossy(should));
    let line = is
        .lines()
        .zip(should.lines())
        .take_while(|(is, should)| is == should)
        .count();
    Err(format!(
        "{name} says at line {}: {:?}, expected {:?}\nthe job: {}",
        line + 1,
        is.lines().nth(line),
        should.lines().nth(line),
        job::show_bytes(input)
    ))
}

fn run_kept(
    run: &mut Run,
    folder: &Path,
    program: Option<&Program>,
    seed: u64,
) -> Result<(), String> {
    let kept = job::kept(folder)?;
    for case in &kept {
        run.tally.add_kind("kept");
        let outcome = library_kept(case, seed, &mut run.tally)
            .map_err(|difference| {
                format!("{difference}\nthe job: {}", job::show_bytes(&case.input))
            })
            .and_then(|()| {
                program_agrees(
                    program,
                    &case.input,
                    case.printed.as_deref(),
                    &mut run.tally,
                )
            });
        run.note(&format!("the kept case {}", case.name), outcome);
    }
    println!("kept cases: {}", kept.len());
    Ok(())
}

fn run_random(run: &mut Run, options: &Options) {
    for number in 0..options.cases {
        if run.enough() {
            return;
        }
        if number % PROGRESS == 0 && number > 0 {
            println!("{number} cases compared");
        }
        watch::case(number);
        let outcome = cases::run(options.seed, number, &mut run.tally);
        let again = format!("--seed {} --only {number}", options.seed);
        run.note(&format!("case {number} (run it again: {again})"), outcome);
    }
    if options.cases >= CASES_THAT_MEET_ALL {
        for outcome in run.tally.never_met() {
            run.note("the counts", Err(format!("{outcome} was never met")));
        }
    }
}

fn run_jobs(run: &mut Run, options: &Options, program: &Program) {
    for number in 0..options.spans_cases {
        if run.enough() {
            return;
        }
        let input = jobs::job(&mut Random::of_case(!options.seed, number));
        let outcome = program_agrees(Some(program), &input, None, &mut run.tally);
        run.note(&format!("job {number}"), outcome);
    }
}

fn compare_all(options: &Options) -> Result<Run, String> {
    let mut run = Run::default();
    watch::start(options.seed);
    if let Some(number) = options.only {
        watch::case(number);
        let outcome = cases::run(options.seed, number, &mut run.tally);
        run.note(&format!("case {number}"), outcome);
        return Ok(run);
    }
    run.note("the document's examples", document::check());
    let program = options.spans.as_deref().map(Program::new);
    if let Some(program) = &program {
        program
            .run(&[])
            .map_err(|fault| format!("spans: {fault}"))?;
    }
    let folder = Path::new(env!("CARGO_MANIFEST_DIR")).join("kept");
    run_kept(&mut run, &folder, program.as_ref(), options.seed)?;
    run_random(&mut run, options);
    watch::rest();
    match &program {
        None => println!("spans: not compared, since no path is given (--spans PATH or SPANS)"),
        Some(program) => run_jobs(&mut run, options, program),
    }
    Ok(run)
}

fn main() -> ExitCode {
    let run = options().and_then(|options| {
        println!("seed {}", options.seed);
        compare_all(&options)
    });
    match run {
        Err(fault) => {
            println!("{fault}\n0 passed, 1 failed");
            ExitCode::FAILURE
        }
        Ok(run) => {
            run.tally.print();
            println!("calls of the library compared: {}", run.tally.calls());
            println!("{} passed, {} failed", run.passed, run.failed);
            if run.failed == 0 {
                ExitCode::SUCCESS
            } else {
                ExitCode::FAILURE
            }
        }
    }
}
