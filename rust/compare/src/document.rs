//! What document 01 says of its examples in words, held against the reference; what it prints of them stands in the kept cases.

use crate::questions::{ends, judge, record_count};
use crate::reference::Reference;
use berylskip::Ends;

/// The worked job's grammar: A→A 1 0, A→0, over three classes; A is secret.
const WORKED: [u8; 15] = [3, 0, 0, 0, 1, 1, 2, 0, 3, 128, 1, 0, 0, 1, 0];

fn filled(grammar: &[u8], line: &[u8]) -> Result<Reference, String> {
    judge(grammar, line).map_err(|refused| format!("the document's grammar is {refused:?}"))
}

fn hold(what: &str, holds: bool) -> Result<(), String> {
    if holds {
        Ok(())
    } else {
        Err(format!("the reference and the document differ: {what}"))
    }
}

/// The examples that the program does not print.
pub fn check() -> Result<(), String> {
    let worked = filled(&WORKED, &[2, 0, 1, 0, 1, 0])?;
    let row = |row, ends, smallest, largest| Ends {
        row,
        ends,
        smallest,
        largest,
    };
    hold("row 84", ends(&worked, 0, 1) == row(84, 3, 2, 6))?;
    hold("an empty row", ends(&worked, 0, 0) == row(0, 0, 255, 255))?;
    hold("15 records", record_count(&worked) == 15)?;
    let circle = filled(&[1, 0, 1, 0, 2, 0, 1, 128, 0, 1, 0], &[0])?;
    hold("2 records", record_count(&circle) == 2)?;
    let expressions = [
        5, 0, 0, 0, 0, 0, 3, 0, 0, 0, 6, 0, 3, 129, 0, 128, 0, 1, 129, 1, 3, 130, 1, 129, 1, 1,
        130, 2, 3, 2, 128, 3, 2, 1, 4,
    ];
    let expression = filled(&expressions, &[2, 4, 0, 4, 3, 1, 4])?;
    hold("E has depth 7", expression.depth(0, 0, 7) == 7)?;
    let mut nest = vec![1, 0, 32];
    nest.extend([0; 32]);
    nest.push(32);
    for category in 0..31 {
        nest.extend([category, 8]);
        nest.extend([128 + category + 1; 8]);
    }
    nest.extend([31, 0]);
    hold("depth 32", filled(&nest, &[])?.depth(0, 0, 0) == 32)
}
