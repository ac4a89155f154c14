//! Random jobs for the program: well formed ones, mutated ones, and any bytes.

use crate::cases;
use crate::grammar::Symbol::{self, Category, Class};
use crate::grammar::{self, Grammar, Rule};
use crate::job;
use crate::questions::judge;
use crate::random::Random;
use crate::spans::{read_job, MOST_INPUT};

/// A job: mostly well formed, its grammar and line sound or damaged.
pub fn job(random: &mut Random) -> Vec<u8> {
    let (grammar, line) = match random.below(8) {
        0 => at_the_memory_limit(random),
        1..=2 => one_of(random, cases::inputs),
        _ => one_of(random, |random| vec![cases::sound(random)]),
    };
    let questions = questions(random, &grammar, &line);
    let mut input = job::bytes(&grammar, &line, &questions);
    match random.below(30) {
        0 => input.truncate(random.below(input.len())),
        1 => input.push(random.byte()),
        2 => {
            let length = random.one_of(&[MOST_INPUT, MOST_INPUT + 1, MOST_INPUT + 2, 5000, 9000]);
            input.resize(length, random.byte());
        }
        3 => {
            // A job of just the largest size, or just over it, that is well formed.
            let length = random.one_of(&[MOST_INPUT - 1, MOST_INPUT, MOST_INPUT + 1]);
            let longer = [grammar.clone(), vec![0; length.saturating_sub(input.len())]].concat();
            input = job::bytes(&longer, &line, &questions);
        }
        _ => {}
    }
    input
}

fn one_of(random: &mut Random, inputs: fn(&mut Random) -> Vec<cases::Input>) -> (Vec<u8>, Vec<u8>) {
    loop {
        let mut all = inputs(random);
        let input = all.swap_remove(random.below(all.len()));
        if input.line.len() <= 255 {
            return (input.grammar, input.line);
        }
    }
}

/// Questions about facts, whole lines, parts and nothing at all; bytes out of range are among them.
fn questions(random: &mut Random, grammar: &[u8], line: &[u8]) -> Vec<[u8; 3]> {
    let tokens = line.len();
    let facts = facts(grammar, line);
    let categories = grammar::read(grammar).map_or(1, |value| value.category_flags.len());
    let most = random.one_of(&[1, 4, 4, 12]);
    let mut questions = Vec::new();
    for _ in 0..random.below(most + 1) {
        let category = random.below(categories) as u8;
        let start = random.below(tokens + 1);
        let question = match random.below(8) {
            0..=3 if !facts.is_empty() => random.one_of(&facts),
            0..=4 => [category, 0, tokens as u8],
            5..=6 => [category, start as u8, random.between(start, tokens) as u8],
            _ => [
                random.below(categories + 2) as u8,
                random.byte() % 70,
                random.byte() % 70,
            ],
        };
        questions.push(question);
    }
    questions
}

fn facts(grammar: &[u8], line: &[u8]) -> Vec<[u8; 3]> {
    let mut facts = Vec::new();
    if let Ok(reference) = judge(grammar, line) {
        for category in 0..reference.categories() {
            for start in 0..reference.positions() {
                facts.extend(
                    reference
                        .ends(category, start)
                        .iter()
                        .map(|&end| [category as u8, start as u8, end]),
                );
            }
        }
    }
    facts
}

/// A grammar and a line at which the program's memory is just enough or just too small: a list, a chain or a nest of categories.
fn at_the_memory_limit(random: &mut Random) -> (Vec<u8>, Vec<u8>) {
    let categories = random.between(1, 32);
    let by_words = 512 / categories;
    let by_depths = (1..=64)
        .take_while(|positions| categories * positions * positions <= 16384)
        .count();
    let most = by_words.min(by_depths).min(64);
    let tokens = (most + random.below(3)).saturating_sub(1).min(64);
    let (first, last) = (Category(0), Category(categories - 1));
    let mut rules = Vec::new();
    let mut add = |left: usize, right: &[Symbol]| {
        rules.push(Rule {
            left,
            right: right.to_vec(),
        })
    };
    match random.below(3) {
        0 => {
            add(0, &[Class(0)]);
            add(categories - 1, &[first, last]);
            if categories > 1 {
                add(categories - 1, &[Class(0)]);
            }
        }
        1 => {
            add(0, &[]);
            (1..categories).for_each(|left| add(left, &[Category(left - 1)]));
            add(0, &[last, Class(0)]);
        }
        _ => {
            let width = random.between(1, 8);
            (1..categories).for_each(|left| add(left, &vec![Category(left - 1); width]));
            add(0, &[]);
            add(0, &[Class(0)]);
        }
    }
    let category_flags = (0..categories).map(|_| random.below(2) as u8).collect();
    (
        grammar::write(&Grammar {
            class_flags: vec![0],
            category_flags,
            rules,
        }),
        vec![0; tokens],
    )
}

/// One to four of the bytes changed, left out, put in or copied from elsewhere.
fn mutate(random: &mut Random, bytes: &mut Vec<u8>) {
    for _ in 0..random.between(1, 4) {
        if bytes.is_empty() {
            bytes.push(random.byte());
            continue;
        }
        let place = random.below(bytes.len());
        match random.below(6) {
            0 => bytes[place] = random.byte(),
            1..=2 => bytes[place] = bytes[place].wrapping_add(random.one_of(&[1, 255, 128])),
            3 => {
                bytes.remove(place);
            }
            4 => bytes.insert(place, random.byte()),
            _ => bytes[place] = bytes[random.below(bytes.len())],
        }
    }
}

/// A mutated job: its bytes as they stand, or one of its sections, whose count is then made right.
pub fn mutated(random: &mut Random) -> Vec<u8> {
    let mut input = job(random);
    let mut parts = match read_job(&input) {
        Ok(parts) => parts,
        Err(_) => {
            mutate(random, &mut input);
            return input;
        }
    };
    match random.below(8) {
        0..=1 => {
            mutate(random, &mut input);
            return input;
        }
        2..=4 => mutate(random, &mut parts.grammar),
        5 => mutate(random, &mut parts.line),
        6 => {
            mutate(random, &mut parts.grammar);
            mutate(random, &mut parts.line);
        }
        _ => parts
            .questions
            .iter_mut()
            .for_each(|numbers| numbers[random.below(3)] = random.byte() % 70),
    }
    parts.line.truncate(255);
    job::bytes(&parts.grammar, &parts.line, &parts.questions)
}

fn some_bytes(random: &mut Random, below: usize) -> Vec<u8> {
    let length = random.below(below);
    let most = random.one_of(&[2, 6, 130, 255]);
    (0..length).map(|_| random.between(0, most) as u8).collect()
}

/// Any bytes: mostly few, often of small values, and now and then as the sections of a job whose counts are right.
pub fn any_bytes(random: &mut Random) -> Vec<u8> {
    match random.below(50) {
        0 => {
            let length = random.between(4090, 4100);
            (0..length).map(|_| random.byte()).collect()
        }
        1..=9 => some_bytes(random, 600),
        10..=24 => {
            let (grammar, line) = (some_bytes(random, 40), some_bytes(random, 8));
            job::bytes(&grammar, &line, &[])
        }
        _ => some_bytes(random, 40),
    }
}
