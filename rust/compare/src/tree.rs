//! The tree that is shown for a fact: the document's choice of rule and division at every node.

use crate::grammar::Symbol;
use crate::reference::Reference;
use std::collections::HashMap;

/// What a node of a fact uses: a rule, and the end of each of its symbols.
#[derive(Clone)]
struct Choice {
    rule: usize,
    ends: Vec<usize>,
}

pub struct Trees<'a> {
    pub reference: &'a Reference,
    choices: HashMap<(usize, usize, usize), Choice>,
}

impl<'a> Trees<'a> {
    pub fn new(reference: &'a Reference) -> Trees<'a> {
        Trees {
            reference,
            choices: HashMap::new(),
        }
    }

    /// The nodes of the fact's tree in preorder, or none where they are more than `most`.
    pub fn nodes(
        &mut self,
        category: usize,
        start: usize,
        end: usize,
        most: usize,
    ) -> Option<Vec<[u8; 4]>> {
        let mut nodes = Vec::new();
        if self.add_nodes(category, start, end, most, &mut nodes) {
            Some(nodes)
        } else {
            None
        }
    }

    fn add_nodes(
        &mut self,
        category: usize,
        start: usize,
        end: usize,
        most: usize,
        nodes: &mut Vec<[u8; 4]>,
    ) -> bool {
        let choice = self.choice(category, start, end);
        if nodes.len() == most {
            return false;
        }
        nodes.push([1, choice.rule as u8, start as u8, end as u8]);
        let mut from = start;
        for (place, &to) in choice.ends.iter().enumerate() {
            match self.reference.grammar.rules[choice.rule].right[place] {
                Symbol::Class(class) => {
                    if nodes.len() == most {
                        return false;
                    }
                    nodes.push([0, class, from as u8, to as u8]);
                }
                Symbol::Category(child) => {
                    if !self.add_nodes(child, from, to, most, nodes) {
                        return false;
                    }
                }
            }
            from = to;
        }
        true
    }

    fn choice(&mut self, category: usize, start: usize, end: usize) -> Choice {
        if let Some(choice) = self.choices.get(&(category, start, end)) {
            return choice.clone();
        }
        let below = self.reference.depth(category, start, end);
        for (rule, used) in self.reference.grammar.rules.iter().enumerate() {
            if used.left != category {
                continue;
            }
            let mut division = Division {
                reference: self.reference,
                right: &used.right,
                end,
                below,
                dead: [[false; 64]; 8],
                ends: Vec::new(),
            };
            if division.serves(start) {
                let choice = Choice {
                    rule,
                    ends: division.ends,
                };
                self.choices.insert((category, start, end), choice.clone());
                return choice;
            }
        }
        unreachable!("a fact has a rule that serves at its depth")
    }
}

/// The search for the first division of a rule: ends are tried ascending, and a place and position that failed once fails again.
struct Division<'a> {
    reference: &'a Reference,
    right: &'a [Symbol],
    end: usize,
    below: u16,
    dead: [[bool; 64]; 8],
    ends: Vec<usize>,
}

impl Division<'_> {
    fn serves(&mut self, from: usize) -> bool {
        let place = self.ends.len();
        if place == self.right.len() {
            return from == self.end;
        }
        if self.dead[place][from] {
            return false;
        }
        for to in self.reference.symbol_ends(self.right[place], from) {
            if to > self.end {
                break;
            }
            if let Symbol::Category(child) = self.right[place] {
                if self.reference.depth(child, from, to) >= self.below {
                    continue;
                }
            }
            self.ends.push(to);
            if self.serves(to) {
                return true;
            }
            self.ends.pop();
        }
        self.dead[place][from] = true;
        false
    }
}
