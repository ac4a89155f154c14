//! Every fact and its depth, by an agenda.
//!
//! What is found is a prefix (the first d symbols of a rule derive i..m) or a fact (A, i, j), each with its height: a prefix
//! has the greatest depth of its categories, a fact one more than its rule's whole prefix. The agenda is emptied from the
//! lowest height on, so that what is taken from it first has its least height (Knuth's generalisation of Dijkstra's method).
//! A prefix and a fact that fit each other are put together when the later of the two is taken.

use crate::grammar::{Grammar, Symbol};

pub struct Reference {
    pub grammar: Grammar,
    pub line: Vec<u8>,
    pub rounds: usize,
    pub facts: usize,
    depths: Vec<u16>,
    prefixes: Vec<u16>,
    first_prefix: Vec<usize>,
    ends: Vec<Vec<u8>>,
}

#[derive(Clone, Copy)]
enum Found {
    Prefix {
        rule: u8,
        length: u8,
        start: u8,
        end: u8,
    },
    Fact {
        category: u8,
        start: u8,
        end: u8,
    },
}

struct Waiting {
    rule: u8,
    length: u8,
    start: u8,
    height: u16,
}

struct Agenda {
    by_height: Vec<Vec<Found>>,
}

impl Agenda {
    fn add(&mut self, height: usize, found: Found) {
        while self.by_height.len() <= height {
            self.by_height.push(Vec::new());
        }
        self.by_height[height].push(found);
    }
}

impl Reference {
    /// The grammar and the line have passed their checks.
    pub fn new(grammar: Grammar, line: &[u8]) -> Reference {
        let positions = line.len() + 1;
        let categories = grammar.category_flags.len();
        let mut first_prefix = Vec::with_capacity(grammar.rules.len());
        let mut lengths = 0;
        for rule in &grammar.rules {
            first_prefix.push(lengths);
            lengths += rule.right.len() + 1;
        }
        let mut reference = Reference {
            grammar,
            line: line.to_vec(),
            rounds: 0,
            facts: 0,
            depths: vec![0; categories * positions * positions],
            prefixes: vec![0; lengths * positions * positions],
            first_prefix,
            ends: vec![Vec::new(); categories * positions],
        };
        reference.empty_agenda();
        for ends in &mut reference.ends {
            ends.sort_unstable();
        }
        reference
    }

    pub fn positions(&self) -> usize {
        self.line.len() + 1
    }

    pub fn categories(&self) -> usize {
        self.grammar.category_flags.len()
    }

    /// The depth of (A, i, j), 0 where that is no fact.
    pub fn depth(&self, category: usize, start: usize, end: usize) -> u16 {
        self.depths[(category * self.positions() + start) * self.positions() + end]
    }

    pub fn depths(&self) -> &[u16] {
        &self.depths
    }

    /// The ends of (A, i), ascending.
    pub fn ends(&self, category: usize, start: usize) -> &[u8] {
        &self.ends[category * self.positions() + start]
    }

    /// Whether the first `length` symbols of the rule derive start..end.
    pub fn prefix_derives(&self, rule: usize, length: usize, start: usize, end: usize) -> bool {
        self.prefixes[self.prefix_index(rule, length, start, end)] != 0
    }

    /// Where a symbol that starts at a position can end, ascending.
    pub fn symbol_ends(&self, symbol: Symbol, start: usize) -> Vec<usize> {
        match symbol {
            Symbol::Class(class) if self.line.get(start) == Some(&class) => vec![start + 1],
            Symbol::Class(_) => Vec::new(),
            Symbol::Category(category) => self
                .ends(category, start)
                .iter()
                .map(|&end| end as usize)
                .collect(),
        }
    }

    fn prefix_index(&self, rule: usize, length: usize, start: usize, end: usize) -> usize {
        ((self.first_prefix[rule] + length) * self.positions() + start) * self.positions() + end
    }

    fn empty_agenda(&mut self) {
        let mut agenda = Agenda {
            by_height: Vec::new(),
        };
        let mut waiting: Vec<Vec<Waiting>> = Vec::new();
        waiting.resize_with(self.categories() * self.positions(), Vec::new);
        for rule in 0..self.grammar.rules.len() as u8 {
            for start in 0..self.positions() as u8 {
                agenda.add(
                    0,
                    Found::Prefix {
                        rule,
                        length: 0,
                        start,
                        end: start,
                    },
                );
            }
        }
        let mut height = 0;
        while height < agenda.by_height.len() {
            while let Some(found) = agenda.by_height[height].pop() {
                match found {
                    Found::Prefix {
                        rule,
                        length,
                        start,
                        end,
                    } => {
                        self.take_prefix(
                            &mut agenda,
                            &mut waiting,
                            height,
                            (rule, length, start, end),
                        );
                    }
                    Found::Fact {
                        category,
                        start,
                        end,
                    } => {
                        self.take_fact(&mut agenda, &waiting, height, (category, start, end));
                    }
                }
            }
            height += 1;
        }
    }

    fn take_prefix(
        &mut self,
        agenda: &mut Agenda,
        waiting: &mut [Vec<Waiting>],
        height: usize,
        prefix: (u8, u8, u8, u8),
    ) {
        let (rule, length, start, end) = prefix;
        let index = self.prefix_index(rule as usize, length as usize, start as usize, end as usize);
        if self.prefixes[index] != 0 {
            return;
        }
        self.prefixes[index] = height as u16 + 1;
        let used = &self.grammar.rules[rule as usize];
        match used.right.get(length as usize) {
            None => agenda.add(
                height + 1,
                Found::Fact {
                    category: used.left as u8,
                    start,
                    end,
                },
            ),
            Some(&Symbol::Class(class)) => {
                if self.line.get(end as usize) == Some(&class) {
                    agenda.add(
                        height,
                        Found::Prefix {
                            rule,
                            length: length + 1,
                            start,
                            end: end + 1,
                        },
                    );
                }
            }
            Some(&Symbol::Category(category)) => {
                let row = category * self.positions() + end as usize;
                for &later in &self.ends[row] {
                    let depth = self.depth(category, end as usize, later as usize) as usize;
                    agenda.add(
                        height.max(depth),
                        Found::Prefix {
                            rule,
                            length: length + 1,
                            start,
                            end: later,
                        },
                    );
                }
                waiting[row].push(Waiting {
                    rule,
                    length,
                    start,
                    height: height as u16,
                });
            }
        }
    }

    fn take_fact(
        &mut self,
        agenda: &mut Agenda,
        waiting: &[Vec<Waiting>],
        height: usize,
        fact: (u8, u8, u8),
    ) {
        let (category, start, end) = fact;
        let row = category as usize * self.positions() + start as usize;
        let index = row * self.positions() + end as usize;
        if self.depths[index] != 0 {
            return;
        }
        self.depths[index] = height as u16;
        self.ends[row].push(end);
        self.facts += 1;
        self.rounds = self.rounds.max(height);
        for prefix in &waiting[row] {
            let grown = Found::Prefix {
                rule: prefix.rule,
                length: prefix.length + 1,
                start: prefix.start,
                end,
            };
            agenda.add(height.max(prefix.height as usize), grown);
        }
    }
}
