//! Rules that stand twice in a grammar, and rules that nearly do. A sound grammar has each rule once.

use crate::characters::{arbitrary, symbol};
use crate::damage::with_byte;
use crate::grammar::{self, Grammar, Rule};
use crate::random::Random;

const MOST_RULES: usize = 128;

/// In how many ways a rule can nearly be another.
pub const WAYS: usize = 5;

/// Keeps each rule where it stands first.
pub fn drop_repeats(rules: &mut Vec<Rule>) {
    let mut kept = Vec::new();
    for rule in rules.drain(..) {
        if !kept.contains(&rule) {
            kept.push(rule);
        }
    }
    *rules = kept;
}

/// Keeps each rule where it stands first, and adds others, each once, until there are so many.
pub fn fill_up(
    random: &mut Random,
    rules: &mut Vec<Rule>,
    count: usize,
    classes: usize,
    categories: usize,
) {
    const LENGTHS: [usize; 8] = [1, 2, 3, 4, 5, 6, 7, 8];
    drop_repeats(rules);
    while rules.len() < count {
        let missing = count - rules.len();
        rules.extend(arbitrary(
            random, missing, classes, categories, &LENGTHS, 50,
        ));
        drop_repeats(rules);
    }
}

/// A rule that differs from another in one way, where it can: in its left category, one symbol shorter, one longer, two symbols
/// exchanged, or the last symbol another.
pub fn nearly(
    random: &mut Random,
    rule: &Rule,
    way: usize,
    classes: usize,
    categories: usize,
) -> Rule {
    let Rule {
        mut left,
        mut right,
    } = rule.clone();
    let length = right.len();
    match way {
        0 if categories > 1 => left = (left + random.between(1, categories - 1)) % categories,
        1 => {
            right.pop();
        }
        2 if length < 8 => right.push(symbol(random, classes, categories, 50)),
        3 if length > 1 => right.swap(random.below(length), random.below(length)),
        4 if length > 0 => right[length - 1] = symbol(random, classes, categories, 50),
        _ => {}
    }
    Rule { left, right }
}

/// The grammar with a copy of one of its rules: right after it, further on, or last; and the copy's number.
fn repeated(random: &mut Random, value: &Grammar) -> (Grammar, usize) {
    let mut value = value.clone();
    let count = value.rules.len();
    let rule = random.below(count);
    let copy = match random.below(3) {
        0 => rule + 1,
        1 => random.between(rule + 1, count),
        _ => count,
    };
    value.rules.insert(copy, value.rules[rule].clone());
    (value, copy)
}

/// Where the bytes of that rule begin.
fn place_of(value: &Grammar, rule: usize) -> usize {
    let mut before = value.clone();
    before.rules.truncate(rule);
    grammar::write(&before).len()
}

/// A grammar in which a rule stands twice: alone, and with a fault before the second, in it or after it.
fn twice(random: &mut Random, value: &Grammar) -> Vec<Vec<u8>> {
    let (value, copy) = repeated(random, value);
    let bytes = grammar::write(&value);
    let (start, end) = (place_of(&value, copy), place_of(&value, copy + 1));
    let in_copy = random.between(start, end - 1);
    let anywhere = random.below(bytes.len());
    let mut bad_in_copy = bytes.clone();
    bad_in_copy[in_copy] = 255;
    let mut bad_after_copy = bytes.clone();
    bad_after_copy[end..].fill(255);
    vec![
        with_byte(random, &bytes, anywhere),
        bytes[..in_copy].to_vec(),
        bad_in_copy,
        bytes[..end].to_vec(),
        bad_after_copy,
        [&bytes[..], &[random.byte()]].concat(),
        bytes,
    ]
}

fn three_times(random: &mut Random, value: &Grammar) -> Vec<u8> {
    let mut value = value.clone();
    value.rules.truncate(MOST_RULES - 2);
    let (mut value, copy) = repeated(random, &value);
    let third = random.between(copy + 1, value.rules.len());
    value.rules.insert(third, value.rules[copy].clone());
    grammar::write(&value)
}

/// Grammars that come from a sound one: in some a rule stands more than once, in others it nearly does.
pub fn damaged(random: &mut Random, sound: &[u8]) -> Vec<Vec<u8>> {
    let mut value = grammar::read(sound).expect("a sound grammar is accepted");
    let (classes, categories) = (value.class_flags.len(), value.category_flags.len());
    value.rules.truncate(MOST_RULES - 1);
    let least = if random.chance(10) { MOST_RULES - 1 } else { 1 };
    fill_up(random, &mut value.rules, least, classes, categories);
    let mut grammars = twice(random, &value);
    grammars.push(three_times(random, &value));
    for way in 0..WAYS {
        let (mut near, copy) = repeated(random, &value);
        near.rules[copy] = nearly(random, &near.rules[copy], way, classes, categories);
        grammars.push(grammar::write(&near));
    }
    grammars
}
