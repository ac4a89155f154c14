//! The questions of Berylskip for Rust: a grammar's bytes and a line of token classes in, facts, marks, a forest and a tree out.
//!
//! Every question fills the lent work memory anew: [`words_needed`] words and [`depths_needed`] depths. Memory past these keeps
//! what it held. A question that is turned down answers [`Refused`]. After the numbers 1 to 9 and 14 all lent memory is as
//! before; after 10 and 11 the work memory is filled, and the marks, the tree's bytes or the records are as before.
//!
//! The thread that asks needs 64 KiB of stack, or 1 MiB where it asks for a tree (docs/CONTRACTS.md, Stack).
mod raw;

/// A question was turned down: the refusal's number, 1 to 11 or 14, and its place (docs/REFUSALS.md).
#[derive(Clone, Copy, Debug, PartialEq, Eq)]
pub struct Refused {
    pub number: u8,
    pub place: usize,
}

/// The greatest depth of a fact, 0 without facts, and the number of facts.
#[derive(Clone, Copy, Debug, PartialEq, Eq)]
pub struct Chart {
    pub rounds: usize,
    pub facts: usize,
}

/// The smallest and the largest end of a row that has none; every end is at most 63.
pub const NO_END: u32 = 255;

/// The row of (A, i), with bit j set for each fact (A, i, j), how many ends it shows, the smallest and the largest, both [`NO_END`]
/// exactly where there is none.
#[derive(Clone, Copy, Debug, PartialEq, Eq)]
pub struct Ends {
    pub row: u64,
    pub ends: u32,
    pub smallest: u32,
    pub largest: u32,
}

/// A record of the forest: the first place - 1 symbols of the rule derive start..middle, and the symbol at the place middle..end.
#[repr(C)]
#[derive(Clone, Copy, Debug, Default, PartialEq, Eq)]
pub struct Branch {
    pub rule: u8,
    pub place: u8,
    pub start: u8,
    pub middle: u8,
    pub end: u8,
}

/// How many words the chart of a line of so many tokens takes: N×(n+1), or `usize::MAX` where that is larger.
pub fn words_needed(categories: usize, tokens: usize) -> usize {
    categories.saturating_mul(tokens.saturating_add(1))
}

/// How many depths a line of so many tokens takes: N×(n+1)×(n+1), or `usize::MAX` where that is larger.
pub fn depths_needed(categories: usize, tokens: usize) -> usize {
    words_needed(categories, tokens).saturating_mul(tokens.saturating_add(1))
}

// The answer of a question that returned this number and wrote this place.
fn answer<T>(number: u8, place: usize, value: T) -> Result<T, Refused> {
    if number == 0 {
        Ok(value)
    } else {
        Err(Refused { number, place })
    }
}

/// Finds every fact and its depth. Word A×(n+1)+i then has bit j set exactly for fact (A, i, j), and its depth stands at
/// (A×(n+1)+i)×(n+1)+j, 0 where there is no fact.
///
/// Refuses by 1 to 7, 9 and 14; all lent memory is then as before.
pub fn chart(
    g: &[u8],
    line: &[u8],
    words: &mut [u64],
    depths: &mut [u16],
) -> Result<Chart, Refused> {
    let (mut rounds, mut facts, mut place) = (0, 0, 0);
    // SAFETY: each pointer and length is of a slice that is borrowed for the call, and the function's contract holds for all of them.
    let number = unsafe {
        raw::berylskip_chart_nonnull(
            g.as_ptr(),
            g.len(),
            line.as_ptr(),
            line.len(),
            words.as_mut_ptr(),
            words.len(),
            depths.as_mut_ptr(),
            depths.len(),
            &mut rounds,
            &mut facts,
            &mut place,
        )
    };
    answer(number, place, Chart { rounds, facts })
}

/// The ends of the category's facts from a start; the work memory is filled as by [`chart`].
///
/// Refuses by 1 to 9 and 14; all lent memory is then as before.
pub fn ends(
    g: &[u8],
    line: &[u8],
    category: usize,
    start: usize,
    words: &mut [u64],
    depths: &mut [u16],
) -> Result<Ends, Refused> {
    let (mut row, mut ends, mut smallest, mut largest, mut place) = (0, 0, 0, 0, 0);
    // SAFETY: as in `chart`.
    let number = unsafe {
        raw::berylskip_ends_nonnull(
            g.as_ptr(),
            g.len(),
            line.as_ptr(),
            line.len(),
            category,
            start,
            words.as_mut_ptr(),
            words.len(),
            depths.as_mut_ptr(),
            depths.len(),
            &mut row,
            &mut ends,
            &mut smallest,
            &mut largest,
            &mut place,
        )
    };
    answer(
        number,
        place,
        Ends {
            row,
            ends,
            smallest,
            largest,
        },
    )
}

/// Writes a mark for each token, 1 secret and 0 not, and answers how many are 1; the work memory is filled as by [`chart`].
///
/// Refuses by 1 to 7, 9 and 14, and by 11 with the number of tokens where the marks have less room.
pub fn marks(
    g: &[u8],
    line: &[u8],
    words: &mut [u64],
    depths: &mut [u16],
    marks: &mut [u8],
) -> Result<usize, Refused> {
    let (mut secret, mut place) = (0, 0);
    // SAFETY: as in `chart`.
    let number = unsafe {
        raw::berylskip_marks_nonnull(
            g.as_ptr(),
            g.len(),
            line.as_ptr(),
            line.len(),
            words.as_mut_ptr(),
            words.len(),
            depths.as_mut_ptr(),
            depths.len(),
            marks.as_mut_ptr(),
            marks.len(),
            &mut secret,
            &mut place,
        )
    };
    answer(number, place, secret)
}

/// Writes one tree of the fact (A, i, j), of least height, in preorder, and answers how many nodes it has; the work memory is
/// filled as by [`chart`]. A node is four bytes: kind (0 token, 1 rule), class or rule, start, end.
///
/// Refuses by 1 to 9 and 14, by 10 where (A, i, j) is no fact, and by 11 where the tree does not fit.
#[allow(clippy::too_many_arguments)]
pub fn tree(
    g: &[u8],
    line: &[u8],
    category: usize,
    start: usize,
    end: usize,
    words: &mut [u64],
    depths: &mut [u16],
    out: &mut [u8],
) -> Result<usize, Refused> {
    let (mut nodes, mut place) = (0, 0);
    // SAFETY: as in `chart`.
    let number = unsafe {
        raw::berylskip_tree_nonnull(
            g.as_ptr(),
            g.len(),
            line.as_ptr(),
            line.len(),
            category,
            start,
            end,
            words.as_mut_ptr(),
            words.len(),
            depths.as_mut_ptr(),
            depths.len(),
            out.as_mut_ptr(),
            out.len(),
            &mut nodes,
            &mut place,
        )
    };
    answer(number, place, nodes)
}

/// Writes the records of the line, ascending by rule, place, start, middle and end, each once, and answers how many there are;
/// the work memory is filled as by [`chart`].
///
/// Refuses by 1 to 7, 9 and 14, and by 11 with the number of records where the row has less room.
pub fn forest(
    g: &[u8],
    line: &[u8],
    words: &mut [u64],
    depths: &mut [u16],
    rows: &mut [Branch],
) -> Result<usize, Refused> {
    let (mut records, mut place) = (0, 0);
    // SAFETY: as in `chart`; a `Branch` is five bytes in this order on both sides.
    let number = unsafe {
        raw::berylskip_forest_nonnull(
            g.as_ptr(),
            g.len(),
            line.as_ptr(),
            line.len(),
            words.as_mut_ptr(),
            words.len(),
            depths.as_mut_ptr(),
            depths.len(),
            rows.as_mut_ptr(),
            rows.len(),
            &mut records,
            &mut place,
        )
    };
    answer(number, place, records)
}
