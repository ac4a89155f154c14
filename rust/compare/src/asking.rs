//! One call of the library, compared with the reference: the answer, the place of a refusal, and all lent memory.

use crate::guarded::{Content, Guarded};
use crate::random::Random;
use crate::reference::Reference;
use crate::table::{Lent, Output, Question, Span};
use crate::tally::Tally;
use crate::tree::Trees;
use berylskip::{Branch, Refused};

/// How much memory is lent to a call; a question without an output is lent none.
#[derive(Clone, Copy, Debug, PartialEq, Eq)]
pub struct Rooms {
    pub words: usize,
    pub depths: usize,
    pub output: usize,
}

#[derive(Clone)]
struct Memory {
    words: Guarded<u64>,
    depths: Guarded<u16>,
    bytes: Guarded<u8>,
    records: Guarded<Branch>,
}

impl Memory {
    fn lent(&mut self) -> Lent<'_> {
        Lent {
            words: self.words.lent(),
            depths: self.depths.lent(),
            bytes: self.bytes.lent(),
            records: self.records.lent(),
        }
    }

    fn difference(&self, expected: &Memory) -> Option<String> {
        (self.words.difference(&expected.words, "words"))
            .or_else(|| self.depths.difference(&expected.depths, "depths"))
            .or_else(|| self.bytes.difference(&expected.bytes, "bytes"))
            .or_else(|| self.records.difference(&expected.records, "records"))
    }
}

/// One grammar and line, of which questions are asked.
pub struct Asker<'a> {
    grammar: Guarded<u8>,
    line: Guarded<u8>,
    /// The reference's facts and trees, or why it refuses the grammar or the line.
    pub judged: Result<Trees<'a>, Refused>,
    left: Option<Memory>,
    pub random: Random,
    pub tally: &'a mut Tally,
}

impl<'a> Asker<'a> {
    pub fn new(
        grammar: &[u8],
        line: &[u8],
        judged: &'a Result<Reference, Refused>,
        mut random: Random,
        tally: &'a mut Tally,
    ) -> Asker<'a> {
        Asker {
            grammar: Guarded::holding(&mut random, grammar),
            line: Guarded::holding(&mut random, line),
            judged: judged.as_ref().map(Trees::new).map_err(|refused| *refused),
            left: None,
            random,
            tally,
        }
    }

    /// Asks the library and the reference; a difference is told in words.
    pub fn ask(&mut self, question: &Question, span: Span, rooms: Rooms) -> Result<(), String> {
        let mut actual = self.memory(question.output, rooms);
        let mut expected = actual.clone();
        let (grammar, line) = (self.grammar.clone(), self.line.clone());
        let should = match &mut self.judged {
            Err(refused) => Err(*refused),
            Ok(trees) => question.outcome(trees, span, expected.lent()),
        };
        let is = (question.library)(grammar.read(), line.read(), span, actual.lent());
        self.tally.add_call(question, &should);
        let difference = if is != should {
            Some(format!("the outcome is {is:?}, expected {should:?}"))
        } else {
            actual
                .difference(&expected)
                .or_else(|| grammar.difference(&self.grammar, "grammar"))
                .or_else(|| line.difference(&self.line, "line"))
        };
        match difference {
            Some(difference) => {
                let numbers = &span[..question.numbers as usize];
                Err(format!(
                    "{} {numbers:?}, lent {rooms:?}: {difference}",
                    question.name
                ))
            }
            None => {
                self.left = Some(actual);
                Ok(())
            }
        }
    }

    /// Memory with arbitrary contents, or with what the call before left in it.
    fn memory(&mut self, output: Output, rooms: Rooms) -> Memory {
        let left = if self.random.chance(25) {
            self.left.take()
        } else {
            None
        };
        let random = &mut self.random;
        let (words, depths) = match left {
            Some(left) => (
                refit(random, &left.words, rooms.words),
                refit(random, &left.depths, rooms.depths),
            ),
            None => (
                Guarded::arbitrary(random, rooms.words),
                Guarded::arbitrary(random, rooms.depths),
            ),
        };
        let (bytes, records) = match output {
            Output::None => (0, 0),
            Output::Bytes => (rooms.output, 0),
            Output::Records => (0, rooms.output),
        };
        Memory {
            words,
            depths,
            bytes: Guarded::arbitrary(random, bytes),
            records: Guarded::arbitrary(random, records),
        }
    }
}

/// The same contents in another length, with new guards.
fn refit<T: Content>(random: &mut Random, left: &Guarded<T>, length: usize) -> Guarded<T> {
    let mut values = left.read().to_vec();
    values.resize(length, T::from_word(random.word()));
    Guarded::holding(random, &values)
}
