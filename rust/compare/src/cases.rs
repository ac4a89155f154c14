//! A case: a grammar and a line, sound or damaged, and what is asked of it.

use crate::asking::Asker;
use crate::characters::{grammar_of, Size, CHARACTERS};
use crate::damage;
use crate::grammar::{self, Grammar, Symbol};
use crate::job;
use crate::plan;
use crate::questions::judge;
use crate::random::Random;
use crate::repeats;
use crate::tally::Tally;

pub struct Input {
    pub kind: &'static str,
    pub grammar: Vec<u8>,
    pub line: Vec<u8>,
}

/// A sound grammar with a line over its classes.
pub fn sound(random: &mut Random) -> Input {
    let size = match random.below(100) {
        0 => Size::Large,
        1..=12 => Size::Middle,
        _ => Size::Small,
    };
    let character = random.one_of(&CHARACTERS);
    let mut value = grammar_of(random, &character, size);
    repeats::drop_repeats(&mut value.rules);
    value.rules.truncate(128);
    let tokens = match (size, random.below(10)) {
        (Size::Large, 0..=3) => 63,
        (Size::Large, _) => random.between(0, 63),
        (Size::Middle, _) => random.between(0, 20),
        (Size::Small, 0) => random.one_of(&[12, 18, 24, 40, 62, 63]),
        (Size::Small, _) => random.between(0, 8),
    };
    let line = line_of(random, &value, tokens);
    Input {
        kind: character.0,
        grammar: grammar::write(&value),
        line,
    }
}

/// A line of that many tokens: of one class, of random classes, or put together from phrases of the grammar.
fn line_of(random: &mut Random, value: &Grammar, tokens: usize) -> Vec<u8> {
    let classes = value.class_flags.len();
    let mut line = Vec::new();
    match random.below(5) {
        0 => line = vec![random.below(classes) as u8; tokens],
        1 => line.extend((0..tokens).map(|_| random.below(classes) as u8)),
        _ => {
            while line.len() < tokens {
                let category = random.below(value.category_flags.len());
                if !add_phrase(random, value, category, 12, tokens, &mut line) || random.chance(20)
                {
                    line.push(random.below(classes) as u8);
                }
            }
            line.truncate(tokens);
        }
    }
    line
}

/// Adds a phrase of the category to the line; false where a rule's choice led nowhere within the height or the length.
fn add_phrase(
    random: &mut Random,
    value: &Grammar,
    category: usize,
    height: usize,
    most: usize,
    line: &mut Vec<u8>,
) -> bool {
    let choices: Vec<usize> = (0..value.rules.len())
        .filter(|&rule| value.rules[rule].left == category)
        .collect();
    if choices.is_empty() || height == 0 || line.len() > most {
        return false;
    }
    let rule = &value.rules[random.one_of(&choices)];
    for symbol in &rule.right {
        match *symbol {
            Symbol::Class(class) => line.push(class),
            Symbol::Category(child) => {
                if !add_phrase(random, value, child, height - 1, most, line) {
                    return false;
                }
            }
        }
    }
    !rule.right.is_empty()
}

/// The inputs of a case: mostly one sound input, else damaged ones that come from a sound one.
pub fn inputs(random: &mut Random) -> Vec<Input> {
    if random.chance(60) {
        return vec![sound(random)];
    }
    let mut base = sound(random);
    while base.grammar.len() > 400 {
        base = sound(random);
    }
    damage::inputs(random, base)
}

/// Runs the case of that number; a difference is told with the whole input.
pub fn run(seed: u64, number: u64, tally: &mut Tally) -> Result<(), String> {
    let mut random = Random::of_case(seed, number);
    for (turn, input) in inputs(&mut random).into_iter().enumerate() {
        tally.add_kind(input.kind);
        let inner = Random::new(random.word());
        ask(&input, turn, inner, tally).map_err(|difference| tell(&input, &difference))?;
    }
    Ok(())
}

/// Asks about an input; a sound one must be accepted, so that its chart is compared.
fn ask(input: &Input, turn: usize, random: Random, tally: &mut Tally) -> Result<(), String> {
    let judged = judge(&input.grammar, &input.line);
    let damaged = damage::KINDS.contains(&input.kind);
    match judged {
        Ok(_) => tally.add_accepted(),
        Err(refused) if !damaged => return Err(format!("a sound input is refused: {refused:?}")),
        Err(_) => {}
    }
    let mut asker = Asker::new(&input.grammar, &input.line, &judged, random, tally);
    if input.kind == damage::TRUNCATED {
        plan::ask_one(&mut asker, turn)
    } else if damaged {
        plan::ask_each_once(&mut asker)
    } else {
        plan::ask_everything(&mut asker)
    }
}

pub fn tell(input: &Input, difference: &str) -> String {
    format!(
        "kind: {}\n{difference}\nthe input as a job:\n{}",
        input.kind,
        job::show(&input.grammar, &input.line, &[])
    )
}
