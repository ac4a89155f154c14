//! What the program prints for a job.

use crate::questions;
use crate::reference::Reference;
use crate::table::Numbers;
use crate::tree::Trees;
use berylskip::Refused;
use std::fmt::Write;

pub const MOST_INPUT: usize = 4096;
const WORDS: usize = 512;
const DEPTHS: usize = 16384;
const TREE_BYTES: usize = 4096;

/// A job's three sections.
pub struct Job {
    pub grammar: Vec<u8>,
    pub line: Vec<u8>,
    pub questions: Vec<[u8; 3]>,
}

/// The sections of the input, or refusal 13.
pub fn read_job(input: &[u8]) -> Result<Job, Refused> {
    if input.len() > MOST_INPUT {
        return Err(Refused {
            number: 13,
            place: MOST_INPUT,
        });
    }
    let ends_early = Refused {
        number: 13,
        place: input.len(),
    };
    let mut rest = input;
    let count = 256 * take(&mut rest, 2).ok_or(ends_early)?[1] as usize + input[0] as usize;
    let grammar = take(&mut rest, count).ok_or(ends_early)?.to_vec();
    let count = take(&mut rest, 1).ok_or(ends_early)?[0] as usize;
    let line = take(&mut rest, count).ok_or(ends_early)?.to_vec();
    let count = take(&mut rest, 1).ok_or(ends_early)?[0] as usize;
    let questions = take(&mut rest, 3 * count).ok_or(ends_early)?;
    let questions = questions
        .chunks(3)
        .map(|numbers| [numbers[0], numbers[1], numbers[2]])
        .collect();
    if !rest.is_empty() {
        return Err(Refused {
            number: 13,
            place: input.len() - rest.len(),
        });
    }
    Ok(Job {
        grammar,
        line,
        questions,
    })
}

fn take<'a>(rest: &mut &'a [u8], count: usize) -> Option<&'a [u8]> {
    if rest.len() < count {
        return None;
    }
    let (taken, left) = rest.split_at(count);
    *rest = left;
    Some(taken)
}

/// The text that the program prints.
pub fn printed(input: &[u8]) -> Vec<u8> {
    let mut text = String::new();
    if let Err(refused) = print_job(input, &mut text) {
        text = refused_line(refused);
    }
    text.into_bytes()
}

fn refused_line(refused: Refused) -> String {
    format!("refused {} {}\n", refused.number, refused.place)
}

fn print_job(input: &[u8], text: &mut String) -> Result<(), Refused> {
    let job = read_job(input)?;
    let reference = questions::judge(&job.grammar, &job.line)?;
    questions::check_work_memory(&reference, WORDS, DEPTHS)?;
    print_facts(&reference, text);
    let marks: String = questions::secret_tokens(&reference)
        .iter()
        .map(|&mark| if mark == 1 { '1' } else { '0' })
        .collect();
    if marks.is_empty() {
        text.push_str("marks\n");
    } else {
        let _ = writeln!(text, "marks {marks}");
    }
    let mut trees = Trees::new(&reference);
    for numbers in &job.questions {
        print_tree(&mut trees, *numbers, text);
    }
    Ok(())
}

fn print_facts(reference: &Reference, text: &mut String) {
    let _ = writeln!(
        text,
        "rounds {} facts {}",
        reference.rounds, reference.facts
    );
    for category in 0..reference.categories() {
        for start in 0..reference.positions() {
            for &end in reference.ends(category, start) {
                let depth = reference.depth(category, start, end as usize);
                let _ = writeln!(text, "fact {category} {start} {end} {depth}");
            }
        }
    }
}

fn print_tree(trees: &mut Trees, numbers: [u8; 3], text: &mut String) {
    let [category, start, end] = numbers;
    let _ = writeln!(text, "tree {category} {start} {end}");
    let span = numbers.map(usize::from);
    let mut bytes = [0; TREE_BYTES];
    let outcome = questions::check_numbers(trees.reference, Numbers::Span, span)
        .and_then(|()| questions::tree(trees, span, &mut bytes));
    match outcome {
        Ok(count) => {
            for node in bytes.chunks(4).take(count) {
                let _ = writeln!(text, "node {} {} {} {}", node[0], node[1], node[2], node[3]);
            }
        }
        Err(refused) => text.push_str(&refused_line(refused)),
    }
}
