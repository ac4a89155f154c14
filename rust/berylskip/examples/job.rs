//! The document's job: rounds, facts, marks and ends of one line.
use berylskip::{chart, depths_needed, ends, marks, words_needed, Refused, NO_END};

fn job() -> Result<(), Refused> {
    let grammar = [3, 0, 0, 0, 1, 1, 2, 0, 3, 128, 1, 0, 0, 1, 0];
    let line = [2, 0, 1, 0, 1, 0];
    let mut words = vec![0; words_needed(1, line.len())];
    let mut depths = vec![0; depths_needed(1, line.len())];
    let mut bytes = vec![0; line.len()];

    let found = chart(&grammar, &line, &mut words, &mut depths)?;
    println!("rounds {} facts {}", found.rounds, found.facts);
    let secret = marks(&grammar, &line, &mut words, &mut depths, &mut bytes)?;
    let shown: String = bytes.iter().map(|mark| char::from(b'0' + mark)).collect();
    println!("marks {shown}");
    println!("secret {secret}");
    for start in 0..2 {
        let row = ends(&grammar, &line, 0, start, &mut words, &mut depths)?;
        if row.smallest == NO_END {
            println!("from {start}: no end");
        } else {
            println!(
                "from {start}: ends {}, the smallest {}, the largest {}",
                row.ends, row.smallest, row.largest
            );
        }
    }
    Ok(())
}

fn main() {
    if let Err(refused) = job() {
        println!("refused {} {}", refused.number, refused.place);
        std::process::exit(1);
    }
}
