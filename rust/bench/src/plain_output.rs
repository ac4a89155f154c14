//! Tree and forest in plain Rust over a filled chart: the divisions that serve as sets from the right, and the records from set bit to
//! set bit.

use crate::plain::bits;
use berylskip::Branch;

pub struct Filled<'a> {
    pub grammar: &'a [u8],
    pub line: &'a [u8],
    pub words: &'a [u64],
    pub depths: &'a [u16],
}

impl Filled<'_> {
    fn positions(&self) -> usize {
        self.line.len() + 1
    }

    /// Each rule's left category and symbols, in order.
    fn rules(&self) -> impl Iterator<Item = (usize, &[u8])> {
        let classes = self.grammar[0] as usize;
        let categories = self.grammar[1 + classes] as usize;
        let mut rest = &self.grammar[3 + classes + categories..];
        std::iter::from_fn(move || {
            let (&left, after) = rest.split_first()?;
            let (symbols, after) = after[1..].split_at(after[0] as usize);
            rest = after;
            Some((left as usize, symbols))
        })
    }

    fn row(&self, symbol: u8, start: usize) -> u64 {
        if symbol >= 128 {
            return self.words[(symbol as usize - 128) * self.positions() + start];
        }
        match self.line.get(start) {
            Some(&class) if class == symbol => 2 << start,
            _ => 0,
        }
    }

    /// Whether the symbol derives start..end with a depth below the bound; that it derives it is known.
    fn below(&self, symbol: u8, start: usize, end: usize, bound: u16) -> bool {
        let positions = self.positions();
        symbol < 128
            || self.depths[((symbol as usize - 128) * positions + start) * positions + end] < bound
    }

    /// The smallest end of the symbol in the set, below the bound.
    fn first_end(&self, symbol: u8, start: usize, set: u64, bound: u16) -> Option<usize> {
        let mut ends = self.row(symbol, start) & set;
        while ends != 0 {
            let end = ends.trailing_zeros() as usize;
            if self.below(symbol, start, end, bound) {
                return Some(end);
            }
            ends &= ends - 1;
        }
        None
    }

    /// The first division of the symbols over start..end.
    fn division(&self, symbols: &[u8], start: usize, end: usize, bound: u16) -> Option<[usize; 8]> {
        let mut serving = [0u64; 9];
        serving[symbols.len()] = 1 << end;
        for place in (0..symbols.len()).rev() {
            for middle in start..=end {
                if self
                    .first_end(symbols[place], middle, serving[place + 1], bound)
                    .is_some()
                {
                    serving[place] |= 1 << middle;
                }
            }
            if serving[place] == 0 {
                return None;
            }
        }
        if serving[0] >> start & 1 == 0 {
            return None;
        }
        let mut ends = [0; 8];
        let mut from = start;
        for (place, &symbol) in symbols.iter().enumerate() {
            from = self.first_end(symbol, from, serving[place + 1], bound)?;
            ends[place] = from;
        }
        Some(ends)
    }

    /// Writes the tree's nodes; answers how many bytes are then written, or none where there is no room.
    pub fn tree(
        &self,
        category: usize,
        start: usize,
        end: usize,
        out: &mut [u8],
        mut at: usize,
    ) -> Option<usize> {
        let positions = self.positions();
        let bound = self.depths[(category * positions + start) * positions + end];
        let of_category = self
            .rules()
            .enumerate()
            .filter(|(_, (left, _))| *left == category);
        for (rule, (_, symbols)) in of_category {
            let ends = match self.division(symbols, start, end, bound) {
                Some(ends) => ends,
                None => {
                    continue;
                }
            };
            out.get_mut(at..at + 4)?
                .copy_from_slice(&[1, rule as u8, start as u8, end as u8]);
            at += 4;
            let mut from = start;
            for (&symbol, &to) in symbols.iter().zip(&ends) {
                if symbol < 128 {
                    out.get_mut(at..at + 4)?
                        .copy_from_slice(&[0, symbol, from as u8, to as u8]);
                    at += 4;
                } else {
                    at = self.tree(symbol as usize - 128, from, to, out, at)?;
                }
                from = to;
            }
            return Some(at);
        }
        None
    }

    fn prefix(&self, symbols: &[u8], start: usize) -> u64 {
        let mut ends = 1u64 << start;
        for &symbol in symbols {
            ends = bits(ends).fold(0, |next, middle| next | self.row(symbol, middle));
        }
        ends
    }

    /// Counts the records, and writes them where there is room.
    pub fn forest(&self, records: &mut [Branch]) -> usize {
        let mut count = 0;
        for (_, symbols) in self.rules() {
            for start in 0..self.positions() {
                let mut ends = 1u64 << start;
                for &symbol in symbols {
                    count += bits(ends)
                        .map(|middle| self.row(symbol, middle).count_ones() as usize)
                        .sum::<usize>();
                    ends = bits(ends).fold(0, |next, middle| next | self.row(symbol, middle));
                }
            }
        }
        if records.len() < count {
            return count;
        }
        let mut written = 0;
        for (rule, (_, symbols)) in self.rules().enumerate() {
            for place in 0..symbols.len() {
                for start in 0..self.positions() {
                    for middle in bits(self.prefix(&symbols[..place], start)) {
                        for end in bits(self.row(symbols[place], middle)) {
                            let [rule, place, start, middle, end] =
                                [rule, place + 1, start, middle, end].map(|number| number as u8);
                            records[written] = Branch {
                                rule,
                                place,
                                start,
                                middle,
                                end,
                            };
                            written += 1;
                        }
                    }
                }
            }
        }
        count
    }
}
