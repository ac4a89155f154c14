//! The questions, a row for each: all that the comparison knows of one. Plans, calls and counts go over the rows.

use crate::questions;
use crate::tree::Trees;
use berylskip::{Branch, Chart, Ends, Refused};

/// A tree of more nodes is asked for with too little room only.
const MOST_NODES: usize = 2500;
/// A forest of more records is asked for with too little room only.
const MOST_RECORDS: usize = 60_000;

/// A category, a start and an end; a question takes as many of them as its `Numbers` say, from the first on.
pub type Span = [usize; 3];

/// Which numbers a question takes: none, a start of a category, or a span; the value is how many.
#[derive(Clone, Copy, Debug, PartialEq, Eq)]
pub enum Numbers {
    None = 0,
    Start = 2,
    Span = 3,
}

/// What is lent beside the work memory: nothing, bytes (marks, or a tree's), or a forest's records.
#[derive(Clone, Copy, Debug, PartialEq, Eq)]
pub enum Output {
    None,
    Bytes,
    Records,
}

#[derive(Clone, Copy, Debug, PartialEq, Eq)]
pub enum Answer {
    Chart(Chart),
    Ends(Ends),
    Count(usize),
}

pub type Outcome = Result<Answer, Refused>;

/// The work memory and the output; an output that the question does not take is empty.
pub struct Lent<'a> {
    pub words: &'a mut [u64],
    pub depths: &'a mut [u16],
    pub bytes: &'a mut [u8],
    pub records: &'a mut [Branch],
}

pub struct Question {
    pub name: &'static str,
    pub numbers: Numbers,
    pub output: Output,
    /// What the library answers to a grammar, a line, the numbers and lent memory.
    pub library: fn(&[u8], &[u8], Span, Lent) -> Outcome,
    /// What the reference answers once the numbers are in range and the work memory is filled; the output is then written.
    reference: fn(&mut Trees, Span, Lent) -> Outcome,
    /// How much output the answer takes; none where there is no answer, or one too large for a comparison.
    needed: fn(&mut Trees, Span) -> Option<usize>,
}

pub const QUESTIONS: &[Question] = &[
    Question {
        name: "chart",
        numbers: Numbers::None,
        output: Output::None,
        library: |grammar, line, _, lent| {
            berylskip::chart(grammar, line, lent.words, lent.depths).map(Answer::Chart)
        },
        reference: |trees, _, _| Ok(Answer::Chart(questions::chart(trees.reference))),
        needed: |_, _| Some(0),
    },
    Question {
        name: "ends",
        numbers: Numbers::Start,
        output: Output::None,
        library: |grammar, line, [category, start, _], lent| {
            berylskip::ends(grammar, line, category, start, lent.words, lent.depths)
                .map(Answer::Ends)
        },
        reference: |trees, [category, start, _], _| {
            Ok(Answer::Ends(questions::ends(
                trees.reference,
                category,
                start,
            )))
        },
        needed: |_, _| Some(0),
    },
    Question {
        name: "marks",
        numbers: Numbers::None,
        output: Output::Bytes,
        library: |grammar, line, _, lent| {
            berylskip::marks(grammar, line, lent.words, lent.depths, lent.bytes).map(Answer::Count)
        },
        reference: |trees, _, lent| {
            questions::marks(trees.reference, lent.bytes).map(Answer::Count)
        },
        needed: |trees, _| Some(trees.reference.line.len()),
    },
    Question {
        name: "tree",
        numbers: Numbers::Span,
        output: Output::Bytes,
        library: |grammar, line, [category, start, end], lent| {
            let (words, depths) = (lent.words, lent.depths);
            berylskip::tree(
                grammar, line, category, start, end, words, depths, lent.bytes,
            )
            .map(Answer::Count)
        },
        reference: |trees, span, lent| questions::tree(trees, span, lent.bytes).map(Answer::Count),
        needed: |trees, span| questions::tree_bytes(trees, span, MOST_NODES),
    },
    Question {
        name: "forest",
        numbers: Numbers::None,
        output: Output::Records,
        library: |grammar, line, _, lent| {
            berylskip::forest(grammar, line, lent.words, lent.depths, lent.records)
                .map(Answer::Count)
        },
        reference: |trees, _, lent| {
            questions::forest(trees.reference, lent.records).map(Answer::Count)
        },
        needed: |trees, _| {
            Some(questions::record_count(trees.reference)).filter(|&count| count <= MOST_RECORDS)
        },
    },
];

impl Question {
    /// The whole outcome where grammar and line are accepted; the lent memory is changed as the document says.
    pub fn outcome(&self, trees: &mut Trees, span: Span, lent: Lent) -> Outcome {
        questions::check_numbers(trees.reference, self.numbers, span)?;
        questions::check_work_memory(trees.reference, lent.words.len(), lent.depths.len())?;
        questions::fill_work_memory(trees.reference, lent.words, lent.depths);
        (self.reference)(trees, span, lent)
    }

    /// How much output the answer takes; none where there is no answer, or one too large for a comparison.
    pub fn needed(&self, trees: &mut Trees, span: Span) -> Option<usize> {
        questions::check_numbers(trees.reference, self.numbers, span).ok()?;
        (self.needed)(trees, span)
    }
}
