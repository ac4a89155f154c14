//! What document 01 says of each question: which refusal, or the answer, and what every lent slice then holds.

use crate::grammar;
use crate::reference::Reference;
use crate::table::{Numbers, Span};
use crate::tree::Trees;
use berylskip::{Branch, Chart, Ends, Refused};

/// The facts of a line, or why the grammar (1 to 5, 14) or the line (6, 7) is refused.
pub fn judge(bytes: &[u8], line: &[u8]) -> Result<Reference, Refused> {
    let grammar = grammar::read(bytes)?;
    if line.len() > 63 {
        return Err(Refused {
            number: 6,
            place: 63,
        });
    }
    let classes = grammar.class_flags.len();
    if let Some(place) = line.iter().position(|&token| token as usize >= classes) {
        return Err(Refused { number: 7, place });
    }
    Ok(Reference::new(grammar, line))
}

/// Refusal 8 at the first of the question's numbers that is out of range.
pub fn check_numbers(reference: &Reference, numbers: Numbers, span: Span) -> Result<(), Refused> {
    let [category, start, end] = span;
    let tokens = reference.line.len();
    let in_range = [
        category < reference.categories(),
        start <= tokens,
        start <= end && end <= tokens,
    ];
    let taken = &in_range[..numbers as usize];
    match taken.iter().position(|&holds| !holds) {
        Some(place) => Err(Refused { number: 8, place }),
        None => Ok(()),
    }
}

/// Refusal 9 at the chart memory (0) or the depth memory (1), where that is too small.
pub fn check_work_memory(
    reference: &Reference,
    words: usize,
    depths: usize,
) -> Result<(), Refused> {
    let rows = reference.categories() * reference.positions();
    let suffices = [words >= rows, depths >= rows * reference.positions()];
    match suffices.iter().position(|&holds| !holds) {
        Some(place) => Err(Refused { number: 9, place }),
        None => Ok(()),
    }
}

pub fn fill_work_memory(reference: &Reference, words: &mut [u64], depths: &mut [u16]) {
    for category in 0..reference.categories() {
        for start in 0..reference.positions() {
            words[category * reference.positions() + start] = row(reference, category, start);
        }
    }
    depths[..reference.depths().len()].copy_from_slice(reference.depths());
}

fn row(reference: &Reference, category: usize, start: usize) -> u64 {
    reference
        .ends(category, start)
        .iter()
        .map(|&end| 1u64 << end)
        .sum()
}

pub fn chart(reference: &Reference) -> Chart {
    Chart {
        rounds: reference.rounds,
        facts: reference.facts,
    }
}

pub fn ends(reference: &Reference, category: usize, start: usize) -> Ends {
    let all = reference.ends(category, start);
    Ends {
        row: row(reference, category, start),
        ends: all.len() as u32,
        smallest: all.first().map_or(255, |&end| end as u32),
        largest: all.last().map_or(255, |&end| end as u32),
    }
}

/// A byte for each token, 1 where it is secret.
pub fn secret_tokens(reference: &Reference) -> Vec<u8> {
    let flags = &reference.grammar.class_flags;
    let mut secret: Vec<u8> = reference
        .line
        .iter()
        .map(|&class| flags[class as usize])
        .collect();
    for category in 0..reference.categories() {
        if reference.grammar.category_flags[category] == 1 {
            for start in 0..reference.positions() {
                for &end in reference.ends(category, start) {
                    secret[start..end as usize].fill(1);
                }
            }
        }
    }
    secret
}

/// The number of secret tokens; the marks are written.
pub fn marks(reference: &Reference, marks: &mut [u8]) -> Result<usize, Refused> {
    let secret = secret_tokens(reference);
    if marks.len() < secret.len() {
        return Err(Refused {
            number: 11,
            place: secret.len(),
        });
    }
    marks[..secret.len()].copy_from_slice(&secret);
    Ok(secret.iter().filter(|&&mark| mark == 1).count())
}

/// The number of nodes of the fact's tree; the nodes are written.
pub fn tree(trees: &mut Trees, span: Span, room: &mut [u8]) -> Result<usize, Refused> {
    let [category, start, end] = span;
    if trees.reference.depth(category, start, end) == 0 {
        return Err(Refused {
            number: 10,
            place: 0,
        });
    }
    let nodes = trees
        .nodes(category, start, end, room.len() / 4)
        .ok_or(Refused {
            number: 11,
            place: 0,
        })?;
    for (place, node) in nodes.iter().enumerate() {
        room[4 * place..4 * place + 4].copy_from_slice(node);
    }
    Ok(nodes.len())
}

/// How many bytes the fact's tree takes; none where the span is no fact, or its tree has more nodes than `most`.
pub fn tree_bytes(trees: &mut Trees, span: Span, most: usize) -> Option<usize> {
    let [category, start, end] = span;
    if trees.reference.depth(category, start, end) == 0 {
        return None;
    }
    let nodes = trees.nodes(category, start, end, most)?;
    Some(4 * nodes.len())
}

/// Each prefix (p, d - 1, i, m) that derives, with the symbol after it, ascending by p, d, i, m.
fn for_each_middle(reference: &Reference, mut visit: impl FnMut(usize, usize, usize, usize)) {
    for rule in 0..reference.grammar.rules.len() {
        for place in 1..=reference.grammar.rules[rule].right.len() {
            for start in 0..reference.positions() {
                for middle in start..reference.positions() {
                    if reference.prefix_derives(rule, place - 1, start, middle) {
                        visit(rule, place, start, middle);
                    }
                }
            }
        }
    }
}

/// How many records the forest has.
pub fn record_count(reference: &Reference) -> usize {
    let mut count = 0;
    for_each_middle(reference, |rule, place, _, middle| {
        count += reference
            .symbol_ends(reference.grammar.rules[rule].right[place - 1], middle)
            .len();
    });
    count
}

/// The number of records; they are written.
pub fn forest(reference: &Reference, records: &mut [Branch]) -> Result<usize, Refused> {
    let count = record_count(reference);
    if records.len() < count {
        return Err(Refused {
            number: 11,
            place: count,
        });
    }
    let mut written = 0;
    for_each_middle(reference, |rule, place, start, middle| {
        for end in reference.symbol_ends(reference.grammar.rules[rule].right[place - 1], middle) {
            records[written] = Branch {
                rule: rule as u8,
                place: place as u8,
                start: start as u8,
                middle: middle as u8,
                end: end as u8,
            };
            written += 1;
        }
    });
    Ok(count)
}
