//! The time that reading a grammar takes: the library beside two plain readers. They test the same bytes in the same order as the library
//! does; one has no test of repeated rules, and the other compares a rule with the earlier ones of its left category, byte by byte.

use bench::clock::{medians, unknown};
use bench::workloads::{accepted, notes, plain};
use berylskip::Refused;
use compare::grammar::Symbol::{Category, Class};
use compare::grammar::{read, write, Symbol};

/// The worked example: A→A 1 0, A→0.
const WORKED: [u8; 15] = [3, 0, 0, 0, 1, 1, 2, 0, 3, 128, 1, 0, 0, 1, 0];

/// A grammar is read so often in one timing, which is then long beside the clock's own time.
const READS: usize = 50;
/// So many times as many timings are taken of a grammar's reading as of a chart.
const MORE_RUNS: usize = 5;

/// The three counts, where the category flags and rule 0 begin, and the end of the last rule.
#[derive(Clone, Copy, Debug, PartialEq, Eq)]
struct Sections {
    classes: usize,
    categories: usize,
    rules: usize,
    flags: usize,
    first: usize,
    end: usize,
}

/// Bytes were passed over up to a position, or the reading stops.
type Pass = Result<usize, Refused>;

fn stop<T>(number: u8, place: usize) -> Result<T, Refused> {
    Err(Refused { number, place })
}

fn is_symbol(classes: usize, categories: usize, byte: u8) -> bool {
    let symbol = byte as usize;
    if symbol < 128 {
        symbol < classes
    } else {
        symbol - 128 < categories
    }
}

fn pass_flags(g: &[u8], count: usize, at: usize) -> Pass {
    for here in at..at + count {
        if g.len() <= here {
            return stop(1, g.len());
        }
        if 1 < g[here] {
            return stop(3, here);
        }
    }
    Ok(at + count)
}

fn pass_symbols(g: &[u8], classes: usize, categories: usize, count: usize, at: usize) -> Pass {
    for here in at..at + count {
        if g.len() <= here {
            return stop(1, g.len());
        }
        if !is_symbol(classes, categories, g[here]) {
            return stop(4, here);
        }
    }
    Ok(at + count)
}

fn pass_rule(g: &[u8], classes: usize, categories: usize, at: usize) -> Pass {
    if g.len() <= at {
        return stop(1, g.len());
    }
    if categories <= g[at] as usize {
        return stop(4, at);
    }
    if g.len() <= at + 1 {
        return stop(1, g.len());
    }
    let length = g[at + 1] as usize;
    if 8 < length {
        return stop(2, at + 1);
    }
    pass_symbols(g, classes, categories, length, at + 2)
}

/// As many rules as counted; a rule may stand twice.
fn pass_rules(g: &[u8], classes: usize, categories: usize, count: usize, first: usize) -> Pass {
    let mut here = first;
    for _ in 0..count {
        here = pass_rule(g, classes, categories, here)?;
    }
    Ok(here)
}

/// As many rules as counted, of which each is compared with the earlier ones of its left category.
fn pass_different_rules(
    g: &[u8],
    classes: usize,
    categories: usize,
    count: usize,
    first: usize,
) -> Pass {
    const NONE: u8 = 255;
    let mut places = [0u16; 128];
    let mut last_of_left = [NONE; 32];
    let mut before_of_left = [NONE; 128];
    let mut here = first;
    for rule in 0..count {
        let next = pass_rule(g, classes, categories, here)?;
        let left = g[here] as usize;
        let mut earlier = last_of_left[left];
        while earlier != NONE {
            let place = places[earlier as usize] as usize;
            // The length stands before the symbols, so where these bytes agree the rules do.
            if g[place + 1..].starts_with(&g[here + 1..next]) {
                return stop(14, here);
            }
            earlier = before_of_left[earlier as usize];
        }
        places[rule] = here as u16;
        before_of_left[rule] = last_of_left[left];
        last_of_left[left] = rule as u8;
        here = next;
    }
    Ok(here)
}

fn pass_flags_section(g: &[u8], most: usize, at: usize) -> Pass {
    if g.len() <= at {
        return stop(1, g.len());
    }
    let count = g[at] as usize;
    if count < 1 || most < count {
        return stop(2, at);
    }
    pass_flags(g, count, at + 1)
}

#[inline(always)]
fn read_by(
    g: &[u8],
    pass_rules: impl Fn(&[u8], usize, usize, usize, usize) -> Pass,
) -> Result<Sections, Refused> {
    let after_classes = pass_flags_section(g, 128, 0)?;
    let classes = g[0] as usize;
    let after_flags = pass_flags_section(g, 32, after_classes)?;
    let categories = g[after_classes] as usize;
    if g.len() <= after_flags {
        return stop(1, g.len());
    }
    let rules = g[after_flags] as usize;
    if 128 < rules {
        return stop(2, after_flags);
    }
    let end = pass_rules(g, classes, categories, rules, after_flags + 1)?;
    if end < g.len() {
        return stop(5, end);
    }
    Ok(Sections {
        classes,
        categories,
        rules,
        flags: after_classes + 1,
        first: after_flags + 1,
        end,
    })
}

#[inline(never)]
fn without_the_test(g: &[u8]) -> Result<Sections, Refused> {
    read_by(g, pass_rules)
}

#[inline(never)]
fn with_the_test(g: &[u8]) -> Result<Sections, Refused> {
    read_by(g, pass_different_rules)
}

/// The library reads the grammar, and then refuses the line of 64 tokens.
fn by_the_library(g: &[u8]) -> Option<Refused> {
    berylskip::chart(g, &[0; 64], &mut [], &mut []).err()
}

/// 128 rules over so many left categories; all symbols of a rule are category 0, but for one, the class of the rule's number.
fn numbered(
    lefts: usize,
    length: impl Fn(usize) -> usize,
    place: impl Fn(usize) -> usize,
) -> Vec<u8> {
    let rules = (0..128)
        .map(|rule| {
            let mut right: Vec<Symbol> = vec![Category(0); length(rule)];
            right[place(length(rule))] = Class(rule as u8);
            (rule % lefts, right)
        })
        .collect();
    accepted(&plain(128, lefts, rules))
}

/// The library keeps a rule on a chain by its two symbols, each and 1 as a digit of base 256, less what 37 divides: here 0 is left.
fn on_one_chain() -> Vec<(usize, Vec<Symbol>)> {
    (0..128)
        .map(|class: u8| {
            let second = (0..37).find(|&second| {
                let digits = [class as usize + 1, second as usize + 1];
                (digits[0] * 256 + digits[1]) % 37 == 0
            });
            let second = second.expect("37 numbers in a row");
            (0, vec![Class(class), Class(second)])
        })
        .collect()
}

fn grammars() -> Vec<(&'static str, Vec<u8>)> {
    let first = |_| 0;
    let last = |length| length - 1;
    let mut lists: Vec<(usize, Vec<Symbol>)> = (1..128)
        .map(|separator| (0, vec![Category(0), Class(separator), Class(0)]))
        .collect();
    lists.push((0, vec![Class(0)]));
    vec![
        ("the worked example", WORKED.to_vec()),
        ("list grammar", accepted(&notes().0)),
        (
            "32 left sides, 8 symbols, the last differs",
            numbered(32, |_| 8, last),
        ),
        (
            "10 left sides, 1 to 8 symbols, the last differs",
            numbered(10, |rule| 1 + rule % 8, last),
        ),
        (
            "one left side, 8 symbols, the first differs",
            numbered(1, |_| 8, first),
        ),
        (
            "one left side, 8 symbols, the last differs",
            numbered(1, |_| 8, last),
        ),
        (
            "one left side, 3 symbols, the last differs",
            numbered(1, |_| 3, last),
        ),
        ("one left side, 1 symbol", numbered(1, |_| 1, last)),
        (
            "A→A c a for 127 separators c, A→a",
            accepted(&plain(128, 1, lists)),
        ),
        (
            "one left side, 2 symbols, all on one chain",
            accepted(&plain(128, 1, on_one_chain())),
        ),
    ]
}

/// All accept the grammar; where its first rule stands in it once more, the reader with the test refuses it as the reference does.
fn check(grammar: &[u8]) -> Sections {
    let after_reading = Refused {
        number: 6,
        place: 63,
    };
    assert_eq!(by_the_library(grammar), Some(after_reading));
    let sections = without_the_test(grammar).expect("a workload is accepted");
    assert_eq!(with_the_test(grammar), Ok(sections));
    let mut value = read(grammar).expect("a workload is accepted");
    value.rules.truncate(127);
    value.rules.push(value.rules[0].clone());
    let repeated = write(&value);
    assert!(without_the_test(&repeated).is_ok());
    assert_eq!(with_the_test(&repeated).err(), read(&repeated).err());
    sections
}

/// A markdown table of nanoseconds for a grammar.
pub fn print(runs: usize) {
    println!("CPU nanoseconds to read a grammar; medians of {} interleaved runs. The library is asked for the chart of 64 tokens, which it refuses by 6 once the grammar is read; nothing is taken off its time.\n", MORE_RUNS * runs);
    println!("| grammar | rules | bytes | library | reader without the test | library / without | reader with the test | library / with |");
    println!("|---|---|---|---|---|---|---|---|");
    for (name, grammar) in grammars() {
        let sections = check(&grammar);
        let mut library = || {
            for _ in 0..READS {
                unknown(by_the_library(unknown(&grammar)));
            }
        };
        let mut without = || {
            for _ in 0..READS {
                unknown(without_the_test(unknown(&grammar))).ok();
            }
        };
        let mut with = || {
            for _ in 0..READS {
                unknown(with_the_test(unknown(&grammar))).ok();
            }
        };
        let times = medians(
            MORE_RUNS * runs,
            &mut [&mut library, &mut without, &mut with],
        );
        let times: Vec<f64> = (times.iter())
            .map(|time| 1000.0 * time / READS as f64)
            .collect();
        println!(
            "| {name} | {} | {} | {:.0} | {:.0} | {:.2} | {:.0} | {:.2} |",
            sections.rules,
            grammar.len(),
            times[0],
            times[1],
            times[0] / times[1],
            times[2],
            times[0] / times[2],
        );
    }
}
