//! The largest stack that each question takes, and the program spans.
//!
//! stack [SPANS]
//!
//! Prints a markdown table: for each question, the most bytes over all workloads of 63 tokens, and the workload that took them. Ends
//! and tree ask about the fact of greatest depth; every question is answered. The deepest tree that there can be, of depth 2,048, is
//! among them. Then the smallest stack with which the program runs the kept jobs; a tree of depth 512, its deepest, is among those.

mod painted;
mod program;

use bench::workloads;
use berylskip::{Branch, Refused};
use painted::stack_of;
use std::path::Path;

const MOST_WORDS: usize = 32 * 64;
const TREE_BYTES: usize = 1 << 20;

struct Case {
    name: String,
    grammar: Vec<u8>,
    line: Vec<u8>,
    depth: u16,
    deepest: [usize; 3],
    records: usize,
}

struct Memory {
    words: Vec<u64>,
    depths: Vec<u16>,
    marks: Vec<u8>,
    tree: Vec<u8>,
    records: Vec<Branch>,
}

impl Memory {
    fn new(records: usize) -> Memory {
        Memory {
            words: vec![0; MOST_WORDS],
            depths: vec![0; MOST_WORDS * 64],
            marks: vec![0; 63],
            tree: vec![0; TREE_BYTES],
            records: vec![Branch::default(); records],
        }
    }
}

type Question = fn(&Case, &mut Memory) -> Result<(), Refused>;

const QUESTIONS: [(&str, Question); 5] = [
    ("chart", |case, m| {
        berylskip::chart(&case.grammar, &case.line, &mut m.words, &mut m.depths).map(drop)
    }),
    ("ends", |case, m| {
        let [category, start, _] = case.deepest;
        let (words, depths) = (&mut m.words, &mut m.depths);
        berylskip::ends(&case.grammar, &case.line, category, start, words, depths).map(drop)
    }),
    ("marks", |case, m| {
        let (words, depths) = (&mut m.words, &mut m.depths);
        berylskip::marks(&case.grammar, &case.line, words, depths, &mut m.marks).map(drop)
    }),
    ("tree", |case, m| {
        let (grammar, line, [category, start, end]) = (&case.grammar, &case.line, case.deepest);
        let (words, depths, tree) = (&mut m.words, &mut m.depths, &mut m.tree);
        berylskip::tree(grammar, line, category, start, end, words, depths, tree).map(drop)
    }),
    ("forest", |case, m| {
        let (words, depths) = (&mut m.words, &mut m.depths);
        berylskip::forest(&case.grammar, &case.line, words, depths, &mut m.records).map(drop)
    }),
];

/// The case of a grammar and a line: its deepest fact, and how many records its forest has.
fn case(name: &str, grammar: &[u8], line: &[u8]) -> Case {
    let mut memory = Memory::new(0);
    let (words, depths) = (&mut memory.words, &mut memory.depths);
    let records = match berylskip::forest(grammar, line, words, depths, &mut []) {
        Ok(count) => count,
        Err(refused) => refused.place,
    };
    let width = line.len() + 1;
    let (at, depth) = (depths.iter().enumerate())
        .max_by_key(|(_, depth)| **depth)
        .expect("there are depths");
    Case {
        name: name.to_string(),
        grammar: grammar.to_vec(),
        line: line.to_vec(),
        depth: *depth,
        deepest: [at / width / width, at / width % width, at % width],
        records,
    }
}

fn cases() -> Vec<Case> {
    let longest = workloads::all().into_iter().filter(|of| of.tokens == 63);
    let mut cases: Vec<Case> = longest
        .map(|of| case(of.name, &of.grammar, &of.lines[0]))
        .collect();
    for shown in workloads::shown() {
        cases.push(case(shown.name, &shown.grammar, &vec![0; shown.tokens]));
    }
    cases
}

/// The kept jobs.
fn jobs() -> Vec<(String, Vec<u8>)> {
    let folder = Path::new(env!("CARGO_MANIFEST_DIR")).join("../compare/kept");
    let kept = compare::job::kept(&folder).expect("the kept jobs are read");
    kept.into_iter().map(|job| (job.name, job.input)).collect()
}

/// The bytes that each question takes on a case; every question is answered.
fn stacks(case: &Case) -> [usize; 5] {
    let mut memory = Memory::new(case.records);
    QUESTIONS.map(|(name, question)| {
        let mut answer = Ok(());
        let bytes = stack_of(&mut || answer = question(case, &mut memory));
        assert_eq!(answer, Ok(()), "{name}: {}", case.name);
        bytes
    })
}

fn main() {
    let cases = cases();
    let measured: Vec<[usize; 5]> = cases.iter().map(stacks).collect();
    println!("Without a question: {} bytes.\n", stack_of(&mut || ()));
    println!("| question | least bytes | most bytes | most on | its greatest depth |\n|---|---|---|---|---|");
    for (which, (name, _)) in QUESTIONS.iter().enumerate() {
        let bytes: Vec<usize> = measured.iter().map(|of_case| of_case[which]).collect();
        let least = bytes.iter().min().expect("there are cases");
        let most = bytes.iter().max().expect("there are cases");
        let at = bytes.iter().position(|bytes| bytes == most).unwrap_or(0);
        let (on, depth) = (&cases[at].name, cases[at].depth);
        println!("| {name} | {least} | {most} | {on} | {depth} |");
    }
    if let Some(spans) = std::env::args().nth(1) {
        let (kibibytes, job) = program::smallest_stack(Path::new(&spans), &jobs());
        println!("\nspans runs its jobs with a stack of {kibibytes} KiB; with less it does not run {job}.");
    }
}
