//! The library's method in plain Rust, twice: rounds over the rules, and a rule is left out unless a category on its right side gained an
//! end in the round before. In `ac` the join visits all positions from the start on and the walk stops at the empty set; in `c` the join
//! goes from set bit to set bit. Neither checks the grammar; the library does so in every question, within the time that is told of it.

const MOST_ROWS: usize = 32 * 64;

/// The grammar's bytes have been accepted.
#[derive(Clone, Copy)]
struct Sections {
    categories: usize,
    rules: usize,
    first: usize,
}

fn sections(grammar: &[u8]) -> Sections {
    let classes = grammar[0] as usize;
    let categories = grammar[1 + classes] as usize;
    let rules = grammar[2 + classes + categories] as usize;
    Sections {
        categories,
        rules,
        first: 3 + classes + categories,
    }
}

/// The members of a set, ascending.
pub fn bits(mut set: u64) -> impl Iterator<Item = usize> {
    std::iter::from_fn(move || {
        if set == 0 {
            return None;
        }
        let first = set.trailing_zeros() as usize;
        set &= set - 1;
        Some(first)
    })
}

/// The loops are the prototype's: an index that runs over all positions from the start on.
#[inline(always)]
#[allow(clippy::needless_range_loop)]
fn reach_by_positions(symbols: &[u8], start: usize, line: &[u8], words: &[u64]) -> u64 {
    let tokens = line.len();
    let mut ends = 1u64 << start;
    for &symbol in symbols {
        let mut next = 0;
        if symbol < 128 {
            for middle in start..tokens {
                if ends >> middle & 1 == 1 && line[middle] == symbol {
                    next |= 1 << (middle + 1);
                }
            }
        } else {
            let first = (symbol as usize - 128) * (tokens + 1);
            let rows = &words[first..first + tokens + 1];
            for middle in start..=tokens {
                if ends >> middle & 1 == 1 {
                    next |= rows[middle];
                }
            }
        }
        ends = next;
        if ends == 0 {
            break;
        }
    }
    ends
}

#[inline(always)]
fn reach_by_bits(symbols: &[u8], start: usize, line: &[u8], words: &[u64]) -> u64 {
    let positions = line.len() + 1;
    let mut ends = 1u64 << start;
    for &symbol in symbols {
        if symbol < 128 {
            ends = bits(ends)
                .filter(|&middle| line.get(middle) == Some(&symbol))
                .fold(0, |next, middle| next | 2 << middle);
        } else {
            let first = (symbol as usize - 128) * positions;
            let rows = &words[first..first + positions];
            ends = bits(ends).fold(0, |next, middle| next | rows[middle]);
        }
    }
    ends
}

fn categories_among(symbols: &[u8]) -> u32 {
    symbols
        .iter()
        .filter(|&&symbol| symbol >= 128)
        .fold(0, |mask, &symbol| mask | 1 << (symbol - 128))
}

/// Gives what is new its depth; answers which categories gained an end.
fn commit(
    categories: usize,
    positions: usize,
    depth: u16,
    next: &[u64],
    words: &mut [u64],
    depths: &mut [u16],
    facts: &mut usize,
) -> u32 {
    let mut gained = 0;
    for category in 0..categories {
        for row in category * positions..(category + 1) * positions {
            let mut new = next[row] & !words[row];
            if new != 0 {
                words[row] |= new;
                gained |= 1 << category;
                *facts += new.count_ones() as usize;
                while new != 0 {
                    depths[row * positions + new.trailing_zeros() as usize] = depth;
                    new &= new - 1;
                }
            }
        }
    }
    gained
}

/// Fills the chart and the depths; answers rounds and facts. `reach` answers the ends of some symbols from a start.
#[inline(always)]
fn fill(
    grammar: &[u8],
    line: &[u8],
    words: &mut [u64],
    depths: &mut [u16],
    reach: impl Fn(&[u8], usize, &[u8], &[u64]) -> u64,
) -> (usize, usize) {
    let read = sections(grammar);
    let positions = line.len() + 1;
    let rows = read.categories * positions;
    words[..rows].fill(0);
    depths[..rows * positions].fill(0);
    let mut next = [0u64; MOST_ROWS];
    let (mut rounds, mut facts, mut gained) = (0, 0, 0);
    loop {
        let mut at = read.first;
        for _ in 0..read.rules {
            let (left, length) = (grammar[at] as usize, grammar[at + 1] as usize);
            let symbols = &grammar[at + 2..at + 2 + length];
            at += 2 + length;
            if rounds != 0 && categories_among(symbols) & gained == 0 {
                continue;
            }
            for start in 0..positions {
                next[left * positions + start] |= reach(symbols, start, line, words);
            }
        }
        gained = commit(
            read.categories,
            positions,
            rounds as u16 + 1,
            &next,
            words,
            depths,
            &mut facts,
        );
        if gained == 0 {
            return (rounds, facts);
        }
        rounds += 1;
    }
}

#[inline(never)]
pub fn ac(grammar: &[u8], line: &[u8], words: &mut [u64], depths: &mut [u16]) -> (usize, usize) {
    fill(grammar, line, words, depths, reach_by_positions)
}

#[inline(never)]
pub fn c(grammar: &[u8], line: &[u8], words: &mut [u64], depths: &mut [u16]) -> (usize, usize) {
    fill(grammar, line, words, depths, reach_by_bits)
}
