//! How many calls ended in which way, by question, and how many cases there were of each kind.

use crate::table::{Answer, Outcome, Question, QUESTIONS};
use berylskip::Ends;
use std::collections::BTreeMap;

const LAST_NUMBER: usize = 14;
/// What a call of the library can come to: 0 is an answer, the others are its refusals.
const OF_THE_LIBRARY: [usize; 13] = [0, 1, 2, 3, 4, 5, 6, 7, 8, 9, 10, 11, 14];
/// What the program can print: 0 is a job without a refusal.
const OF_THE_PROGRAM: [usize; 14] = [0, 1, 2, 3, 4, 5, 6, 7, 8, 9, 10, 11, 13, 14];

/// What a row of Ends can show, by its bits.
const ROWS: [(&str, fn(u64) -> bool); 5] = [
    ("no end", |row| row == 0),
    ("one end", |row| row.is_power_of_two()),
    ("more ends", |row| row.count_ones() > 1),
    ("end 0", |row| row & 1 == 1),
    ("end 63", |row| row >> 63 == 1),
];

/// How often each outcome was met: 0 is an answer, the others are refusals.
type Endings = [usize; LAST_NUMBER + 1];

#[derive(Default)]
pub struct Tally {
    kinds: BTreeMap<&'static str, usize>,
    accepted: usize,
    endings: BTreeMap<&'static str, Endings>,
    rows: [usize; ROWS.len()],
    printed: Endings,
}

impl Tally {
    pub fn add_kind(&mut self, kind: &'static str) {
        *self.kinds.entry(kind).or_insert(0) += 1;
    }

    /// An input whose grammar and line are accepted, so that its chart is filled.
    pub fn add_accepted(&mut self) {
        self.accepted += 1;
    }

    /// One call of the library: answered, or refused by a number.
    pub fn add_call(&mut self, question: &Question, outcome: &Outcome) {
        let number = (outcome.as_ref().err()).map_or(0, |refused| refused.number as usize);
        self.endings.entry(question.name).or_default()[number] += 1;
        if let Ok(Answer::Ends(Ends { row, .. })) = outcome {
            for (count, (_, shows)) in self.rows.iter_mut().zip(ROWS) {
                *count += usize::from(shows(*row));
            }
        }
    }

    /// One run of the program: the refusals that it is to print, or an answer where there is none.
    pub fn add_printed(&mut self, text: &[u8]) {
        let text = String::from_utf8_lossy(text);
        let mut refused = false;
        for line in text.lines() {
            let mut fields = line.split(' ');
            if fields.next() == Some("refused") {
                let number: usize = fields
                    .next()
                    .and_then(|field| field.parse().ok())
                    .unwrap_or(0);
                self.printed[number.min(LAST_NUMBER)] += 1;
                refused = true;
            }
        }
        if !refused {
            self.printed[0] += 1;
        }
    }

    pub fn calls(&self) -> usize {
        self.endings.values().flatten().sum()
    }

    /// The outcomes that no call met: an answer to each question, each refusal of the library, and what a row of Ends can show.
    pub fn never_met(&self) -> Vec<String> {
        let answers = (QUESTIONS.iter())
            .filter(|question| self.row(question)[0] == 0)
            .map(|question| format!("an answer to {}", question.name));
        let refusals = (OF_THE_LIBRARY[1..].iter())
            .filter(|&&number| QUESTIONS.iter().all(|one| self.row(one)[number] == 0))
            .map(|number| format!("refusal {number}"));
        let rows = (ROWS.iter().zip(self.rows))
            .filter(|(_, count)| *count == 0)
            .map(|((shows, _), _)| format!("a row with {shows}"));
        answers.chain(refusals).chain(rows).collect()
    }

    fn row(&self, question: &Question) -> Endings {
        (self.endings.get(question.name).copied()).unwrap_or_default()
    }

    pub fn print(&self) {
        self.print_kinds();
        println!(
            "inputs whose grammar and line are accepted: {}",
            self.accepted
        );
        println!("calls of the library by outcome (0 is an answer, the others are refusals):");
        print_row("", &OF_THE_LIBRARY);
        for question in QUESTIONS {
            let row = self.row(question);
            print_row(question.name, &OF_THE_LIBRARY.map(|number| row[number]));
        }
        let rows = ROWS.iter().zip(self.rows);
        let rows: Vec<String> = rows
            .map(|((shows, _), count)| format!("{shows} {count}"))
            .collect();
        println!("rows answered by ends: {}", rows.join(", "));
        if self.printed.iter().sum::<usize>() > 0 {
            self.print_runs();
        }
    }

    /// What `fuzz_spans` has to say: no call of the library is counted there.
    pub fn print_printed(&self) {
        self.print_kinds();
        self.print_runs();
    }

    fn print_kinds(&self) {
        println!("inputs by kind:");
        for (kind, count) in &self.kinds {
            println!("  {kind}: {count}");
        }
    }

    fn print_runs(&self) {
        println!("runs of spans by what is printed (0 is a job without a refusal, else lines 'refused'):");
        print_row("", &OF_THE_PROGRAM);
        print_row("spans", &OF_THE_PROGRAM.map(|number| self.printed[number]));
    }
}

fn print_row(name: &str, fields: &[usize]) {
    let fields: Vec<String> = fields.iter().map(|field| format!("{field:>7}")).collect();
    println!("  {name:<7}{}", fields.concat());
}
