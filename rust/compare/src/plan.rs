//! Which calls a case makes, and with how much memory.

use crate::asking::{Asker, Rooms};
use crate::random::Random;
use crate::reference::Reference;
use crate::table::{Numbers, Output, Question, Span, QUESTIONS};

/// In a line with so few spans every question is asked.
const FEW_SPANS: usize = 40;

/// Memory that suffices, exactly or with some more; in so many of a hundred cases memory that does not.
fn room(random: &mut Random, needed: usize, shortages: usize) -> usize {
    if random.chance(shortages) {
        return short(random, needed);
    }
    match random.below(8) {
        0..=3 => needed,
        4..=6 => needed + random.between(1, 9),
        _ => needed + random.between(10, 200),
    }
}

/// Memory that does not suffice where something is needed: mostly one short.
fn short(random: &mut Random, needed: usize) -> usize {
    match random.below(4) {
        0 => random.below(needed.max(1)),
        _ => needed.saturating_sub(1),
    }
}

/// A number that is out of range from `first` on, far ones too.
fn outside(random: &mut Random, first: usize) -> usize {
    match random.below(6) {
        0..=2 => first,
        3 => first + random.below(300),
        4 => usize::MAX - random.below(2),
        _ => first.wrapping_add(1 << random.between(8, 63)),
    }
}

/// The questions that take numbers.
fn with_numbers() -> impl Iterator<Item = &'static Question> {
    (QUESTIONS.iter()).filter(|question| question.numbers != Numbers::None)
}

/// Every question of an accepted line, with memory that suffices and with memory that does not; questions out of range.
pub fn ask_everything(asker: &mut Asker) -> Result<(), String> {
    let reference = match &asker.judged {
        Ok(trees) => trees.reference,
        Err(_) => return ask_each_once(asker),
    };
    let spans = spans_to_ask(&mut asker.random, reference);
    for question in QUESTIONS {
        for (turn, &span) in spans.iter().enumerate() {
            let asked = match question.numbers {
                Numbers::None => turn == 0,
                Numbers::Start => span[1] == span[2] || asker.random.chance(30),
                Numbers::Span => true,
            };
            if asked {
                ask_fully(asker, question, span)?;
            }
        }
    }
    ask_out_of_range(asker, reference)?;
    ask_with_short_memory(asker, reference)
}

/// Each question once, with random numbers; mostly enough memory. The grammar or the line may be refused.
pub fn ask_each_once(asker: &mut Asker) -> Result<(), String> {
    (QUESTIONS.iter()).try_for_each(|question| ask_once(asker, question))
}

/// One question, each in turn, of a grammar or line that is most likely refused.
pub fn ask_one(asker: &mut Asker, turn: usize) -> Result<(), String> {
    ask_once(asker, &QUESTIONS[turn % QUESTIONS.len()])
}

/// The questions about one span, whose numbers may be out of range.
pub fn ask_span(asker: &mut Asker, span: Span) -> Result<(), String> {
    with_numbers().try_for_each(|question| ask_fully(asker, question, span))
}

fn ask_once(asker: &mut Asker, question: &Question) -> Result<(), String> {
    let (categories, tokens) = match &asker.judged {
        Ok(trees) => (trees.reference.categories(), trees.reference.line.len()),
        Err(_) => (3, 3),
    };
    let random = &mut asker.random;
    let category = random.below(categories + 1);
    let start = random.below(tokens + 2);
    let least = if random.chance(80) { start } else { 0 };
    let span = [category, start, random.below(tokens + 2).max(least)];
    ask_mostly(asker, question, span)
}

/// A question with memory that suffices, and in some cases with output that does not.
fn ask_fully(asker: &mut Asker, question: &Question, span: Span) -> Result<(), String> {
    let needed = needed(asker, question, span);
    let mut lent = rooms(asker, needed, 0);
    asker.ask(question, span, lent)?;
    match needed {
        Some(needed) if question.output != Output::None && asker.random.chance(30) => {
            lent.output = short(&mut asker.random, needed);
            asker.ask(question, span, lent)
        }
        _ => Ok(()),
    }
}

/// A question with work memory and output that each mostly suffice.
fn ask_mostly(asker: &mut Asker, question: &Question, span: Span) -> Result<(), String> {
    let needed = needed(asker, question, span);
    let lent = rooms(asker, needed, 10);
    asker.ask(question, span, lent)
}

/// How much output the answer takes; none where there is no answer, or one too large for a comparison.
fn needed(asker: &mut Asker, question: &Question, span: Span) -> Option<usize> {
    let trees = asker.judged.as_mut().ok()?;
    question.needed(trees, span)
}

/// Rooms that suffice, or do not: each of the work memory in so many of a hundred cases, the output in twice as many. Where grammar
/// or line are refused, any rooms.
fn rooms(asker: &mut Asker, output: Option<usize>, shortages: usize) -> Rooms {
    let random = &mut asker.random;
    let reference = match &asker.judged {
        Ok(trees) => trees.reference,
        Err(_) => return any_rooms(random),
    };
    let rows = reference.categories() * reference.positions();
    Rooms {
        words: room(random, rows, shortages),
        depths: room(random, rows * reference.positions(), shortages),
        output: match output {
            Some(needed) => room(random, needed, 2 * shortages),
            None => {
                let most = random.one_of(&[40, 400, 10_000]);
                random.below(most)
            }
        },
    }
}

fn any_rooms(random: &mut Random) -> Rooms {
    let most = random.one_of(&[1, 8, 40]);
    Rooms {
        words: random.below(most),
        depths: random.below(most),
        output: random.below(most),
    }
}

/// All spans where there are few, else some facts and some others.
fn spans_to_ask(random: &mut Random, reference: &Reference) -> Vec<Span> {
    let mut all = Vec::new();
    let mut facts = Vec::new();
    for category in 0..reference.categories() {
        for start in 0..reference.positions() {
            for end in start..reference.positions() {
                all.push([category, start, end]);
                if reference.depth(category, start, end) != 0 {
                    facts.push([category, start, end]);
                }
            }
        }
    }
    if all.len() <= FEW_SPANS && random.chance(30) {
        return all;
    }
    let large = all.len() > 5000;
    let mut chosen = Vec::new();
    for _ in 0..if large { 2 } else { 5 } {
        if !facts.is_empty() {
            chosen.push(random.one_of(&facts));
        }
    }
    if let Some(&deepest) = facts
        .iter()
        .max_by_key(|fact| reference.depth(fact[0], fact[1], fact[2]))
    {
        chosen.push(deepest);
    }
    for _ in 0..2 {
        chosen.push(random.one_of(&all));
    }
    chosen
}

/// Numbers out of range, one or several at once, sometimes with memory that is too small as well.
fn ask_out_of_range(asker: &mut Asker, reference: &Reference) -> Result<(), String> {
    let (categories, tokens) = (reference.categories(), reference.line.len());
    for _ in 0..2 {
        let random = &mut asker.random;
        let [mut category, mut start, mut end] = any_span(random, reference);
        let faults = random.between(1, 7);
        if faults & 1 != 0 {
            category = outside(random, categories);
        }
        if faults & 2 != 0 {
            start = outside(random, tokens + 1);
        }
        if faults & 4 != 0 {
            end = if start > 0 && start <= tokens && random.chance(50) {
                random.below(start)
            } else {
                outside(random, tokens + 1)
            };
        }
        for question in with_numbers() {
            ask_mostly(asker, question, [category, start, end])?;
        }
    }
    Ok(())
}

/// Chart memory, depth memory, or both too small, for each question in turn.
fn ask_with_short_memory(asker: &mut Asker, reference: &Reference) -> Result<(), String> {
    let rows = reference.categories() * reference.positions();
    for question in QUESTIONS {
        let random = &mut asker.random;
        let mut lent = Rooms {
            words: rows,
            depths: rows * reference.positions(),
            output: if random.chance(30) { 0 } else { 64 },
        };
        let faults = random.between(1, 3);
        if faults & 1 != 0 {
            lent.words = short(random, lent.words);
        }
        if faults & 2 != 0 {
            lent.depths = short(random, lent.depths);
        }
        let span = any_span(random, reference);
        asker.ask(question, span, lent)?;
    }
    Ok(())
}

/// A span in range.
fn any_span(random: &mut Random, reference: &Reference) -> Span {
    let start = random.below(reference.positions());
    [
        random.below(reference.categories()),
        start,
        random.between(start, reference.line.len()),
    ]
}
