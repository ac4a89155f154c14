//! Compares the proved library with a recogniser written by another method.
//!
//! The reference side (`grammar`, `reference`, `tree`, `questions`, `spans`) follows the documents sentence by sentence and
//! shares no code with the library. The other modules make cases, ask both sides and compare all that a caller can see.

pub mod asking; // one call of the library, compared with all its lent memory
pub mod cases; // random grammars, lines and questions
pub mod characters; // what kinds of grammars there are
pub mod damage; // input with faults in it
pub mod document; // the document's examples, held against the reference
pub mod grammar; // grammar bytes: read, refused, written
pub mod guarded; // lent memory with guard values before and after
pub mod job; // jobs in decimal, and the kept cases
pub mod jobs; // random jobs for the program
pub mod machine; // what runs the program
pub mod plan; // which calls a case makes, with which memory
pub mod program; // runs the program `spans`
pub mod questions; // what the document says of each question
pub mod random; // random numbers from a seed
pub mod reference; // every fact and its depth, by an agenda
pub mod repeats; // rules that stand twice, or nearly
pub mod spans; // what the program prints for a job
pub mod table; // a row for each question
pub mod tally; // how many calls ended in which way
pub mod tree; // the tree that is shown
pub mod watch; // which case it was when the library does not come back
