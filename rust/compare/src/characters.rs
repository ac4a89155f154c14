//! Random grammars of many characters.

use crate::grammar::Symbol::{Category, Class};
use crate::grammar::{Grammar, Rule, Symbol};
use crate::random::Random;
use crate::repeats;

#[derive(Clone, Copy, PartialEq, Eq)]
pub enum Size {
    Small,
    Middle,
    Large,
}

type Rules = Vec<Rule>;
type Character = (&'static str, fn(&mut Random, Size) -> (usize, usize, Rules));

/// Each answers the number of classes, the number of categories and the rules.
pub const CHARACTERS: [Character; 17] = [
    ("left-recursive list", left_lists),
    ("right-recursive list", right_lists),
    ("circles", circles),
    ("empty rules", empty_rules),
    ("right sides of length 8", long_rules),
    ("one category", one_category),
    ("32 categories", all_categories),
    ("one rule", one_rule),
    ("128 rules", all_rules),
    ("no rule", no_rule),
    ("expressions", expressions),
    ("ambiguous", ambiguous),
    ("sparse, many classes", sparse),
    ("chain of rounds", chain),
    ("rules nearly repeated", nearly_repeated),
    ("brackets", brackets),
    ("mixed", mixed),
];

pub fn grammar_of(random: &mut Random, character: &Character, size: Size) -> Grammar {
    let (classes, categories, rules) = character.1(random, size);
    let class_share = random.one_of(&[0, 10, 50]);
    let category_share = random.one_of(&[0, 30, 60, 100]);
    Grammar {
        class_flags: (0..classes)
            .map(|_| random.chance(class_share) as u8)
            .collect(),
        category_flags: (0..categories)
            .map(|_| random.chance(category_share) as u8)
            .collect(),
        rules,
    }
}

fn upto(random: &mut Random, size: Size, small: usize, middle: usize, large: usize) -> usize {
    let most = match size {
        Size::Small => small,
        Size::Middle => middle,
        Size::Large => large,
    };
    random.between(1, most)
}

fn rule(left: usize, right: &[Symbol]) -> Rule {
    Rule {
        left,
        right: right.to_vec(),
    }
}

fn class(random: &mut Random, classes: usize) -> Symbol {
    Class(random.below(classes) as u8)
}

fn category(random: &mut Random, categories: usize) -> Symbol {
    Category(random.below(categories))
}

/// A category in so many of a hundred cases, else a class.
pub fn symbol(random: &mut Random, classes: usize, categories: usize, share: usize) -> Symbol {
    if random.chance(share) {
        category(random, categories)
    } else {
        class(random, classes)
    }
}

/// Rules with arbitrary left categories and symbols; a share of the symbols are categories.
pub fn arbitrary(
    random: &mut Random,
    count: usize,
    classes: usize,
    categories: usize,
    lengths: &[usize],
    share: usize,
) -> Rules {
    let mut rules = Vec::new();
    for _ in 0..count {
        let left = random.below(categories);
        let length = random.one_of(lengths);
        let right = (0..length)
            .map(|_| symbol(random, classes, categories, share))
            .collect();
        rules.push(Rule { left, right });
    }
    rules
}

const USUAL_LENGTHS: [usize; 12] = [0, 1, 1, 1, 2, 2, 2, 3, 3, 4, 5, 8];

fn lists(random: &mut Random, size: Size, left_recursive: bool) -> (usize, usize, Rules) {
    let categories = 1 + upto(random, size, 3, 8, 31);
    let classes = random.between(1, 4);
    let mut rules = Vec::new();
    for list in 0..categories - 1 {
        let item = Category(random.between(list + 1, categories - 1));
        let separator = class(random, classes);
        let own = Category(list);
        match (left_recursive, random.below(3)) {
            (true, 0) => rules.push(rule(list, &[own, item])),
            (true, _) => rules.push(rule(list, &[own, separator, item])),
            (false, 0) => rules.push(rule(list, &[item, own])),
            (false, _) => rules.push(rule(list, &[item, separator, own])),
        }
        rules.push(rule(
            list,
            if random.chance(80) {
                std::slice::from_ref(&item)
            } else {
                &[]
            },
        ));
        if random.chance(30) {
            let open = class(random, classes);
            rules.push(rule(
                list,
                &[open, Category(random.below(categories)), separator],
            ));
        }
    }
    rules.push(rule(categories - 1, &[class(random, classes)]));
    (classes, categories, rules)
}

fn left_lists(random: &mut Random, size: Size) -> (usize, usize, Rules) {
    lists(random, size, true)
}

fn right_lists(random: &mut Random, size: Size) -> (usize, usize, Rules) {
    lists(random, size, false)
}

fn circles(random: &mut Random, size: Size) -> (usize, usize, Rules) {
    let categories = upto(random, size, 4, 10, 32);
    let classes = random.between(1, 3);
    let ring = random.between(1, categories);
    let mut rules: Rules = (0..ring)
        .map(|k| rule(k, &[Category((k + 1) % ring)]))
        .collect();
    let more = random.below(2 * categories.min(8) + 1);
    rules.extend(arbitrary(
        random,
        more,
        classes,
        categories,
        &[0, 1, 1, 1, 2, 2],
        60,
    ));
    if random.chance(80) {
        rules.push(rule(random.below(categories), &[class(random, classes)]));
    }
    shuffle(random, &mut rules);
    (classes, categories, rules)
}

fn empty_rules(random: &mut Random, size: Size) -> (usize, usize, Rules) {
    let categories = upto(random, size, 4, 10, 32);
    let classes = random.between(1, 2);
    let count = upto(random, size, 8, 24, 100);
    let rules = arbitrary(
        random,
        count,
        classes,
        categories,
        &[0, 0, 0, 1, 2, 3, 5],
        85,
    );
    (classes, categories, rules)
}

fn long_rules(random: &mut Random, size: Size) -> (usize, usize, Rules) {
    let categories = upto(random, size, 3, 6, 32);
    let classes = random.between(1, 2);
    let count = upto(random, size, 6, 16, 60);
    let share = random.one_of(&[40, 70, 90]);
    let mut rules = arbitrary(random, count, classes, categories, &[7, 8, 8], share);
    for left in 0..categories {
        if random.chance(60) {
            rules.push(rule(left, &[]));
        }
        if random.chance(60) {
            rules.push(rule(left, &[class(random, classes)]));
        }
    }
    shuffle(random, &mut rules);
    (classes, categories, rules)
}

fn one_category(random: &mut Random, size: Size) -> (usize, usize, Rules) {
    let classes = random.between(1, 3);
    let count = upto(random, size, 6, 12, 128);
    let share = random.one_of(&[30, 50, 70]);
    (
        classes,
        1,
        arbitrary(random, count, classes, 1, &USUAL_LENGTHS, share),
    )
}

fn all_categories(random: &mut Random, size: Size) -> (usize, usize, Rules) {
    let classes = random.between(1, 3);
    let count = upto(random, size, 24, 64, 128);
    let share = random.one_of(&[30, 50, 70]);
    (
        classes,
        32,
        arbitrary(random, count, classes, 32, &USUAL_LENGTHS, share),
    )
}

fn one_rule(random: &mut Random, size: Size) -> (usize, usize, Rules) {
    let classes = upto(random, size, 2, 5, 128);
    let categories = upto(random, size, 2, 5, 32);
    let share = random.one_of(&[0, 0, 50]);
    (
        classes,
        categories,
        arbitrary(random, 1, classes, categories, &[0, 1, 2, 3, 8], share),
    )
}

fn all_rules(random: &mut Random, size: Size) -> (usize, usize, Rules) {
    let categories = upto(random, size, 4, 12, 32);
    let classes = upto(random, size, 3, 6, 12);
    let share = random.one_of(&[20, 40, 60]);
    let mut rules = arbitrary(random, 128, classes, categories, &[1, 1, 2, 2, 3, 4], share);
    repeats::fill_up(random, &mut rules, 128, classes, categories);
    (classes, categories, rules)
}

fn no_rule(random: &mut Random, size: Size) -> (usize, usize, Rules) {
    (
        upto(random, size, 2, 10, 128),
        upto(random, size, 2, 10, 32),
        Vec::new(),
    )
}

fn expressions(random: &mut Random, size: Size) -> (usize, usize, Rules) {
    let levels = upto(random, size, 3, 6, 20);
    let classes = levels + 3;
    let mut rules = Vec::new();
    for level in 0..levels {
        let (own, tighter, operator) = (Category(level), Category(level + 1), Class(level as u8));
        match random.below(3) {
            0 => rules.push(rule(level, &[own, operator, tighter])),
            1 => rules.push(rule(level, &[tighter, operator, own])),
            _ => rules.push(rule(level, &[own, operator, own])),
        }
        rules.push(rule(level, &[tighter]));
    }
    let (open, close, atom) = (
        Class(levels as u8),
        Class(levels as u8 + 1),
        Class(levels as u8 + 2),
    );
    rules.push(rule(levels, &[open, Category(0), close]));
    rules.push(rule(levels, &[atom]));
    (classes, levels + 1, rules)
}

fn ambiguous(random: &mut Random, size: Size) -> (usize, usize, Rules) {
    let categories = upto(random, size, 2, 4, 6);
    let mut rules = vec![rule(0, &[Category(0), Category(0)]), rule(0, &[Class(0)])];
    let count = random.below(2 * categories + 1);
    rules.extend(arbitrary(
        random,
        count,
        1,
        categories,
        &[1, 2, 2, 3, 3],
        85,
    ));
    if random.chance(30) {
        rules.push(rule(random.below(categories), &[]));
    }
    shuffle(random, &mut rules);
    (1, categories, rules)
}

fn sparse(random: &mut Random, size: Size) -> (usize, usize, Rules) {
    let classes = random.one_of(&[20, 60, 127, 128]);
    let categories = upto(random, size, 4, 12, 32);
    let count = upto(random, size, 12, 40, 128);
    (
        classes,
        categories,
        arbitrary(random, count, classes, categories, &[1, 1, 1, 2, 3, 4], 35),
    )
}

/// Each category is the one before it, and the first comes back around with one more token: as many rounds as there can be.
fn chain(random: &mut Random, size: Size) -> (usize, usize, Rules) {
    let categories = upto(random, size, 4, 10, 32);
    let mut rules = vec![rule(0, &[])];
    rules.extend((1..categories).map(|k| rule(k, &[Category(k - 1)])));
    let back = Category(categories - 1);
    let around = if random.chance(50) {
        [back, Class(0)]
    } else {
        [Class(0), back]
    };
    rules.push(rule(0, &around));
    if random.chance(50) {
        let left = random.below(categories);
        rules.push(rule(
            left,
            &[category(random, categories), category(random, categories)],
        ));
    }
    shuffle(random, &mut rules);
    (random.between(1, 2), categories, rules)
}

fn nearly_repeated(random: &mut Random, size: Size) -> (usize, usize, Rules) {
    let (classes, categories, mut rules) = mixed(random, size);
    for _ in 0..random.between(1, 6) {
        let rule = rules[random.below(rules.len())].clone();
        let way = random.below(repeats::WAYS);
        let near = repeats::nearly(random, &rule, way, classes, categories);
        rules.insert(random.below(rules.len() + 1), near);
    }
    (classes, categories, rules)
}

fn brackets(random: &mut Random, size: Size) -> (usize, usize, Rules) {
    let pairs = upto(random, size, 2, 4, 16);
    let mut rules = Vec::new();
    for pair in 0..pairs {
        let (open, close) = (Class(2 * pair as u8), Class(2 * pair as u8 + 1));
        match random.below(3) {
            0 => rules.push(rule(pair, &[open, category(random, pairs), close])),
            1 => rules.push(rule(
                pair,
                &[
                    open,
                    category(random, pairs),
                    close,
                    category(random, pairs),
                ],
            )),
            _ => rules.push(rule(
                pair,
                &[
                    category(random, pairs),
                    open,
                    category(random, pairs),
                    close,
                ],
            )),
        }
        if random.chance(70) {
            rules.push(rule(pair, &[]));
        } else {
            rules.push(rule(pair, &[open, close]));
        }
    }
    (2 * pairs, pairs, rules)
}

fn mixed(random: &mut Random, size: Size) -> (usize, usize, Rules) {
    let classes = upto(random, size, 3, 8, 20);
    let categories = upto(random, size, 4, 10, 32);
    let count = upto(random, size, 10, 40, 128);
    let share = random.one_of(&[20, 40, 60]);
    (
        classes,
        categories,
        arbitrary(random, count, classes, categories, &USUAL_LENGTHS, share),
    )
}

fn shuffle(random: &mut Random, rules: &mut Rules) {
    for place in (1..rules.len()).rev() {
        rules.swap(place, random.below(place + 1));
    }
}
