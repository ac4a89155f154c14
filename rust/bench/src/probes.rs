//! Small grammars on which recognisers differ: left recursion, circles, empty rules, a line that does not fit.

use bench::workloads::{accepted, plain, Workload};
use compare::grammar::Symbol::{self, Category, Class};

/// Class 0 is a, class 1 is b; category 0 is A, the start, and category 1 is B.
const SMALL: [(&str, &str, &str); 14] = [
    ("A→A b a, a", "A=Aba A=a", "ababa"),
    ("A→A b a, a (no fit)", "A=Aba A=a", "abbaba"),
    ("A→A, a", "A=A A=a", "a"),
    ("A→B, a; B→A", "A=B B=A A=a", "a"),
    ("A→A", "A=A", "a"),
    ("A→A a, empty", "A=Aa A=", "aa"),
    ("A→A a, empty (no token)", "A=Aa A=", ""),
    ("A→B A a, b; B→empty", "A=BAa A=b B=", "baa"),
    ("A→B A, a; B→empty", "A=BA A=a B=", "a"),
    ("A→A A, a, empty", "A=AA A=a A=", "aaa"),
    ("A→A A, a", "A=AA A=a", "aaaaaaaaaaaaaaaa"),
    ("A→A A, empty (no token)", "A=AA A=", ""),
    ("A→empty, a A A", "A= A=aAA", "aaaa"),
    ("A→a B; B→A B, b, empty", "A=aB B=AB B=b B=", "aab"),
];

fn symbol(letter: char) -> Symbol {
    match letter {
        'a' => Class(0),
        'b' => Class(1),
        'A' => Category(0),
        _ => Category(1),
    }
}

fn probe((name, rules, line): (&'static str, &str, &str)) -> Workload {
    let rules = rules
        .split(' ')
        .filter_map(|rule| rule.split_once('='))
        .map(|(left, right)| {
            (
                usize::from(left == "B"),
                right.chars().map(symbol).collect(),
            )
        })
        .collect();
    Workload {
        name,
        tokens: line.len(),
        grammar: accepted(&plain(2, 2, rules)),
        start: 0,
        lines: vec![line.chars().map(|letter| u8::from(letter == 'b')).collect()],
    }
}

pub fn probes() -> Vec<Workload> {
    SMALL.into_iter().map(probe).collect()
}
