//! Figures: the library beside two plain Rust versions of its method and beside the reference, in one run.
//!
//! bench [RUNS]
//! bench --write FOLDER
//!
//! Prints markdown tables: microseconds of CPU time for a line (medians of RUNS interleaved runs), ratios, rounds and facts; growth
//! with the line's length; tree and forest questions; and nanoseconds for the reading of a grammar. All must give the same chart and
//! depths before they are timed.
//! With --write it times nothing, and writes the workloads and the probes as text for other recognisers.

mod plain;
mod plain_output;
mod probes;
mod reading;
mod text;

use bench::clock::{medians, unknown};
use bench::workloads::{self, Shown, Workload};
use berylskip::Branch;
use compare::grammar::read;
use compare::reference::Reference;
use compare::tree::Trees;
use plain_output::Filled;

const MOST_WORDS: usize = 32 * 64;
const MOST_RECORDS: usize = 200_000;
const USUAL_RUNS: usize = 5;

struct Memory {
    words: Vec<u64>,
    depths: Vec<u16>,
}

impl Memory {
    fn new() -> Memory {
        Memory {
            words: vec![0; MOST_WORDS],
            depths: vec![0; MOST_WORDS * 64],
        }
    }

    fn chart(&mut self, grammar: &[u8], line: &[u8]) -> (usize, usize) {
        let answer = berylskip::chart(grammar, line, &mut self.words, &mut self.depths)
            .expect("a workload is accepted");
        (answer.rounds, answer.facts)
    }
}

fn reference_of(grammar: &[u8], line: &[u8]) -> Reference {
    Reference::new(read(grammar).expect("a workload is accepted"), line)
}

/// All agree on the line; answers rounds and facts, and the reference, which has the depths.
fn agree(workload: &Workload, line: &[u8]) -> (usize, usize, Reference) {
    let mut library = Memory::new();
    let answer = library.chart(&workload.grammar, line);
    for plain in [plain::ac, plain::c] {
        let mut beside = Memory::new();
        let found = plain(
            &workload.grammar,
            line,
            &mut beside.words,
            &mut beside.depths,
        );
        assert!(
            answer == found && library.words == beside.words && library.depths == beside.depths,
            "{}",
            workload.name
        );
    }
    let reference = reference_of(&workload.grammar, line);
    assert_eq!(
        answer,
        (reference.rounds, reference.facts),
        "{}",
        workload.name
    );
    assert_eq!(
        &library.depths[..reference.depths().len()],
        reference.depths(),
        "{}",
        workload.name
    );
    (answer.0, answer.1, reference)
}

struct Figure {
    name: &'static str,
    tokens: usize,
    times: Vec<f64>,
}

fn chart_figure(workload: &Workload, runs: usize) -> Figure {
    let answers: Vec<(usize, usize, Reference)> = workload
        .lines
        .iter()
        .map(|line| agree(workload, line))
        .collect();
    let rounds = answers.iter().map(|answer| answer.0).max().unwrap_or(0);
    let facts = answers.iter().map(|answer| answer.1).sum::<usize>() / answers.len();
    let (grammar, lines) = (&workload.grammar, &workload.lines);
    let (mut first, mut second, mut third) = (Memory::new(), Memory::new(), Memory::new());
    let mut library = || {
        for line in lines {
            unknown(first.chart(unknown(grammar), line));
        }
    };
    let mut plain_ac = || {
        for line in lines {
            let (words, depths) = (&mut second.words, &mut second.depths);
            unknown(plain::ac(unknown(grammar), line, words, depths));
        }
    };
    let mut plain_c = || {
        for line in lines {
            let (words, depths) = (&mut third.words, &mut third.depths);
            unknown(plain::c(unknown(grammar), line, words, depths));
        }
    };
    let mut reference = || {
        for line in lines {
            unknown(reference_of(unknown(grammar), line).facts);
        }
    };
    let times = medians(
        runs,
        &mut [&mut library, &mut plain_ac, &mut plain_c, &mut reference],
    );
    let times: Vec<f64> = times.iter().map(|time| time / lines.len() as f64).collect();
    println!(
        "| {} | {} | {rounds} | {facts} | {} | {} | {:.2} | {} | {:.2} | {} | {:.2} |",
        workload.name,
        workload.tokens,
        short(times[0]),
        short(times[1]),
        times[0] / times[1],
        short(times[2]),
        times[0] / times[2],
        short(times[3]),
        times[0] / times[3],
    );
    Figure {
        name: workload.name,
        tokens: workload.tokens,
        times,
    }
}

fn short(time: f64) -> String {
    match time {
        time if time < 10.0 => format!("{time:.2}"),
        time if time < 100.0 => format!("{time:.1}"),
        time => format!("{time:.0}"),
    }
}

/// The exponent of the growth from the shortest to the longest line of a kind.
fn print_growth(figures: &[Figure]) {
    println!("\n## Growth with the line: exponent from the shortest line to the longest\n");
    println!(
        "| workload | n | library | plain ac | plain c | reference |\n|---|---|---|---|---|---|"
    );
    for first in figures.iter().filter(|figure| figure.tokens <= 16) {
        let last = match figures.iter().rfind(|figure| figure.name == first.name) {
            Some(last) => last,
            None => {
                continue;
            }
        };
        let length = (last.tokens as f64 / first.tokens as f64).ln();
        let exponents: Vec<String> = last
            .times
            .iter()
            .zip(&first.times)
            .map(|(last, first)| format!("{:.1}", (last / first).ln() / length))
            .collect();
        println!(
            "| {} | {} to {} | {} |",
            first.name,
            first.tokens,
            last.tokens,
            exponents.join(" | ")
        );
    }
}

fn print_tree(case: &Shown, runs: usize) {
    let line = vec![0; case.tokens];
    let (mut first, mut second, mut third) = (Memory::new(), Memory::new(), Memory::new());
    let (mut out, mut beside) = (vec![0; 40_000], vec![0; 40_000]);
    let reference = reference_of(&case.grammar, &line);
    let ask = |memory: &mut Memory, out: &mut [u8]| {
        berylskip::tree(
            unknown(&case.grammar),
            &line,
            0,
            0,
            case.tokens,
            &mut memory.words,
            &mut memory.depths,
            out,
        )
    };
    let nodes = ask(&mut first, &mut out).expect("the tree fits");
    let expected = Trees::new(&reference)
        .nodes(0, 0, case.tokens, nodes)
        .expect("the tree fits")
        .concat();
    third.chart(&case.grammar, &line);
    let filled = Filled {
        grammar: &case.grammar,
        line: &line,
        words: &third.words,
        depths: &third.depths,
    };
    assert_eq!(
        filled.tree(0, 0, case.tokens, &mut beside, 0),
        Some(4 * nodes),
        "{}",
        case.name
    );
    assert!(
        out[..4 * nodes] == expected && beside[..4 * nodes] == expected,
        "{}",
        case.name
    );
    let mut tree = || {
        unknown(ask(&mut first, &mut out)).ok();
    };
    let mut chart = || {
        unknown(second.chart(unknown(&case.grammar), &line));
    };
    let mut plain = || {
        unknown(filled.tree(0, 0, case.tokens, &mut beside, 0));
    };
    let mut other = || {
        unknown(Trees::new(&reference).nodes(0, 0, case.tokens, nodes));
    };
    let times = medians(runs, &mut [&mut tree, &mut chart, &mut plain, &mut other]);
    let alone = times[0] - times[1];
    println!(
        "| {} | {} | {nodes} | {} | {} | {} | {} | {:.2} | {} | {} |",
        case.name,
        case.tokens,
        short(times[0]),
        short(times[1]),
        short(alone),
        short(alone / nodes as f64),
        alone / times[2],
        short(times[2]),
        short(times[3]),
    );
}

fn print_forest(workload: &Workload, runs: usize) {
    let line = &workload.lines[0];
    let (mut first, mut second, mut third) = (Memory::new(), Memory::new(), Memory::new());
    let (mut rows, mut beside) = (
        vec![Branch::default(); MOST_RECORDS],
        vec![Branch::default(); MOST_RECORDS],
    );
    let mut ask = |rows: &mut [Branch]| {
        berylskip::forest(
            unknown(&workload.grammar),
            line,
            &mut first.words,
            &mut first.depths,
            rows,
        )
    };
    let (records, written) = match ask(&mut rows) {
        Ok(count) => (count, "written"),
        Err(refused) => (refused.place, "counted only"),
    };
    third.chart(&workload.grammar, line);
    let filled = Filled {
        grammar: &workload.grammar,
        line,
        words: &third.words,
        depths: &third.depths,
    };
    assert_eq!(filled.forest(&mut beside), records, "{}", workload.name);
    assert!(rows == beside, "{}", workload.name);
    let mut forest = || {
        unknown(ask(&mut rows)).ok();
    };
    let mut chart = || {
        unknown(second.chart(unknown(&workload.grammar), line));
    };
    let mut plain = || {
        unknown(filled.forest(&mut beside));
    };
    let times = medians(runs, &mut [&mut forest, &mut chart, &mut plain]);
    let alone = times[0] - times[1];
    println!(
        "| {} | {} | {records} {written} | {} | {} | {} | {:.4} | {:.2} | {} |",
        workload.name,
        workload.tokens,
        short(times[0]),
        short(times[1]),
        short(alone),
        alone / records.max(1) as f64,
        alone / times[2],
        short(times[2]),
    );
}

fn main() {
    let mut words = std::env::args().skip(1);
    let runs = match words.next() {
        None => USUAL_RUNS,
        Some(word) if word == "--write" => {
            return text::write_all(&words.next().expect("--write names a folder"));
        }
        Some(word) => word.parse().expect("the number of runs is a number"),
    };
    println!("CPU microseconds for a line; medians of {runs} interleaved runs.\n\n## Chart\n");
    println!("| workload | n | rounds | facts | library | plain ac | library / ac | plain c | library / c | reference | library / reference |");
    println!("|---|---|---|---|---|---|---|---|---|---|---|");
    let workloads = workloads::all();
    let figures: Vec<Figure> = workloads
        .iter()
        .map(|workload| chart_figure(workload, runs))
        .collect();
    print_growth(&figures);
    println!("\n## Tree of (0, 0, n)\n");
    println!("| grammar | n | nodes | question | chart alone | tree alone | for a node | tree alone / plain | plain | reference |");
    println!("|---|---|---|---|---|---|---|---|---|---|");
    workloads::shown()
        .iter()
        .for_each(|case| print_tree(case, runs));
    println!("\n## Forest\n");
    println!("| workload | n | records | question | chart alone | forest alone | for a record | forest alone / plain | plain |");
    println!("|---|---|---|---|---|---|---|---|---|");
    let longest = workloads
        .iter()
        .filter(|workload| workload.tokens == 63 && !workload.name.starts_with("chain, 96"));
    longest.for_each(|workload| print_forest(workload, runs));
    println!("\n## Reading\n");
    reading::print(runs);
    let worst = figures
        .iter()
        .max_by(|one, other| one.times[0].total_cmp(&other.times[0]));
    if let Some(worst) = worst {
        println!(
            "\nThe longest line: {}, n = {}, {:.3} s.",
            worst.name,
            worst.tokens,
            worst.times[0] / 1e6
        );
    }
}
