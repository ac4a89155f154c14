//! Workloads and probes as text, one file each, so that other recognisers get the very same inputs.
//!
//! One item a line: `grammar NAME`, `classes T`, `categories N`, `rule A SYMBOL..` (7 is class 7, n3 is category 3), `start A`;
//! then for each line `line CLASS..` and `answer VERDICT FACTS DEPTHS`: whether the start covers the whole line (yes or no), the
//! number of facts, and the sum of their depths.

use crate::probes::probes;
use bench::workloads::{all, Workload};
use compare::grammar::{read, Symbol};
use std::fmt::Write;
use std::path::Path;

fn symbol(symbol: &Symbol) -> String {
    match symbol {
        Symbol::Class(class) => format!(" {class}"),
        Symbol::Category(category) => format!(" n{category}"),
    }
}

/// Whether the start covers the whole line, the number of facts, and the sum of their depths.
fn answer(workload: &Workload, line: &[u8]) -> String {
    let (_, facts, reference) = crate::agree(workload, line);
    let positions = line.len() + 1;
    let whole = reference.depths()[workload.start * positions * positions + line.len()];
    let depths: u64 = reference.depths().iter().map(|&depth| depth as u64).sum();
    let verdict = if whole == 0 { "no" } else { "yes" };
    format!("answer {verdict} {facts} {depths}\n")
}

fn text(workload: &Workload) -> String {
    let grammar = read(&workload.grammar).expect("a workload is accepted");
    let mut text = format!(
        "grammar {}\nclasses {}\ncategories {}\n",
        workload.name,
        grammar.class_flags.len(),
        grammar.category_flags.len()
    );
    for rule in &grammar.rules {
        let right: String = rule.right.iter().map(symbol).collect();
        writeln!(text, "rule {}{right}", rule.left).expect("a string takes all");
    }
    writeln!(text, "start {}", workload.start).expect("a string takes all");
    for line in &workload.lines {
        let classes: String = line.iter().map(|class| format!(" {class}")).collect();
        text += &format!("line{classes}\n{}", answer(workload, line));
    }
    text
}

/// Files are numbered in the order of the tables.
fn write_into(folder: &Path, workloads: &[Workload]) {
    std::fs::create_dir_all(folder).expect("the folder can be made");
    for (number, workload) in workloads.iter().enumerate() {
        std::fs::write(folder.join(format!("{number:02}.txt")), text(workload))
            .expect("the folder takes files");
    }
}

pub fn write_all(folder: &str) {
    write_into(&Path::new(folder).join("workloads"), &all());
    write_into(&Path::new(folder).join("probes"), &probes());
}
