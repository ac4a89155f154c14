//! Input with faults in it: grammars cut, changed or lengthened, or with a rule twice; lines too long or with bad tokens; and several
//! faults at once.

use crate::cases::Input;
use crate::random::Random;
use crate::repeats;

pub const TRUNCATED: &str = "damaged: truncated at each byte";
const CHANGED: &str = "damaged: one byte changed";
const ADDED: &str = "damaged: one byte added";
const REPEATED: &str = "damaged: a rule repeated, or nearly";
const LONG_LINE: &str = "damaged: line of 64 or more";
const BAD_TOKEN: &str = "damaged: token out of range";
const ANY_BYTES: &str = "damaged: any bytes";
const SEVERAL: &str = "damaged: several faults at once";

pub const KINDS: [&str; 8] = [
    TRUNCATED, CHANGED, ADDED, REPEATED, LONG_LINE, BAD_TOKEN, ANY_BYTES, SEVERAL,
];

/// Damaged inputs that come from a sound one.
pub fn inputs(random: &mut Random, base: Input) -> Vec<Input> {
    let kind = random.one_of(&KINDS);
    let Input { grammar, line, .. } = base;
    let mut inputs = Vec::new();
    let mut add = |grammar: Vec<u8>, line: Vec<u8>| {
        inputs.push(Input {
            kind,
            grammar,
            line,
        })
    };
    match kind {
        TRUNCATED => {
            for length in 0..grammar.len() {
                let line = mostly_sound_line(random, &line);
                add(grammar[..length].to_vec(), line);
            }
        }
        CHANGED if grammar.len() <= 24 && random.chance(20) => {
            for place in 0..grammar.len() {
                add(with_byte(random, &grammar, place), line.clone());
            }
        }
        CHANGED => {
            for _ in 0..8 {
                let place = random.below(grammar.len());
                add(with_byte(random, &grammar, place), line.clone());
            }
        }
        ADDED => {
            for place in [
                grammar.len(),
                random.below(grammar.len()),
                random.below(grammar.len()),
            ] {
                let mut longer = grammar.clone();
                longer.insert(place, interesting(random, 0));
                add(longer, line.clone());
            }
        }
        REPEATED => {
            for repeated in repeats::damaged(random, &grammar) {
                let line = mostly_sound_line(random, &line);
                add(repeated, line);
            }
        }
        LONG_LINE => add(grammar.clone(), long_line(random, &line)),
        BAD_TOKEN => add(grammar.clone(), with_bad_tokens(random, &line, grammar[0])),
        ANY_BYTES => {
            let most = random.one_of(&[4, 130, 255]);
            let length = random.below(40);
            add(
                (0..length).map(|_| random.between(0, most) as u8).collect(),
                line.clone(),
            );
        }
        _ => {
            let mut bad = grammar.clone();
            for _ in 0..random.below(3) {
                let place = random.below(bad.len());
                bad = with_byte(random, &bad, place);
            }
            if random.chance(30) {
                bad.truncate(random.below(bad.len() + 1));
            }
            if random.chance(30) {
                bad.push(random.byte());
            }
            add(bad, damaged_line(random, &line));
        }
    }
    inputs
}

/// A value near another, or one at a limit of the document.
fn interesting(random: &mut Random, near: u8) -> u8 {
    match random.below(4) {
        0 => near.wrapping_add(1),
        1 => near.wrapping_sub(1),
        2 => random.one_of(&[0, 1, 2, 8, 9, 31, 32, 33, 127, 128, 129, 159, 160, 255]),
        _ => random.byte(),
    }
}

pub fn with_byte(random: &mut Random, grammar: &[u8], place: usize) -> Vec<u8> {
    let mut changed = grammar.to_vec();
    changed[place] = interesting(random, changed[place]);
    changed
}

fn long_line(random: &mut Random, line: &[u8]) -> Vec<u8> {
    let length = random.one_of(&[64, 64, 65, 127, 128, 255, 256, 300]);
    let mut longer: Vec<u8> = line
        .iter()
        .copied()
        .cycle()
        .take(if line.is_empty() { 0 } else { length })
        .collect();
    longer.resize(length, 0);
    if random.chance(50) {
        let place = random.below(length);
        longer[place] = random.byte();
    }
    longer
}

fn with_bad_tokens(random: &mut Random, line: &[u8], classes: u8) -> Vec<u8> {
    let mut bad = line.to_vec();
    if bad.is_empty() {
        bad.push(0);
    }
    for _ in 0..random.between(1, 2) {
        let place = random.below(bad.len());
        bad[place] = random.one_of(&[classes, classes, classes.saturating_add(1), 127, 128, 255]);
    }
    bad
}

fn damaged_line(random: &mut Random, line: &[u8]) -> Vec<u8> {
    match random.below(4) {
        0 => long_line(random, line),
        1 => with_bad_tokens(random, line, 3),
        2 => with_bad_tokens(random, line, 128),
        _ => line.to_vec(),
    }
}

fn mostly_sound_line(random: &mut Random, line: &[u8]) -> Vec<u8> {
    if random.chance(70) {
        line.to_vec()
    } else {
        damaged_line(random, line)
    }
}
