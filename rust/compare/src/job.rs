//! Jobs in decimal, as document 01 writes them, and the kept cases.

use std::path::Path;

/// A job's bytes from its decimal numbers; bars only show the sections.
pub fn parse(text: &str) -> Result<Vec<u8>, String> {
    let words = text.split_whitespace().filter(|&word| word != "|");
    words
        .map(|word| {
            word.parse::<u8>()
                .map_err(|_| format!("'{word}' is no byte"))
        })
        .collect()
}

fn decimal(bytes: &[u8]) -> String {
    bytes
        .iter()
        .map(u8::to_string)
        .collect::<Vec<_>>()
        .join(" ")
}

/// The job that lends a grammar and a line, with questions, or the two apart where they are too long for a job.
pub fn show(grammar: &[u8], line: &[u8], questions: &[[u8; 3]]) -> String {
    if grammar.len() > 65535 || line.len() > 255 {
        return format!("grammar {} line {}", decimal(grammar), decimal(line));
    }
    let length = (grammar.len() as u16).to_le_bytes();
    let sections = [
        decimal(&length),
        decimal(grammar),
        decimal(&[&[line.len() as u8][..], line].concat()),
        decimal(&[&[questions.len() as u8][..], &questions.concat()].concat()),
    ];
    sections.join(" | ")
}

/// A job's bytes.
pub fn bytes(grammar: &[u8], line: &[u8], questions: &[[u8; 3]]) -> Vec<u8> {
    let mut input = (grammar.len() as u16).to_le_bytes().to_vec();
    input.extend(grammar);
    input.push(line.len() as u8);
    input.extend(line);
    input.push(questions.len() as u8);
    input.extend(questions.concat());
    input
}

/// The bytes of any input, in decimal.
pub fn show_bytes(input: &[u8]) -> String {
    decimal(input)
}

pub struct Kept {
    pub name: String,
    pub input: Vec<u8>,
    pub printed: Option<Vec<u8>>,
}

/// The kept cases of a folder, in the order of the files' names. A file has one job on each line; a line that starts with `#` is
/// a remark; a line that starts with `>` is a line that the program prints for the job above it.
pub fn kept(folder: &Path) -> Result<Vec<Kept>, String> {
    let entries =
        std::fs::read_dir(folder).map_err(|error| format!("{}: {error}", folder.display()))?;
    let mut files: Vec<_> = entries
        .filter_map(|entry| entry.ok().map(|entry| entry.path()))
        .collect();
    files.retain(|file| file.extension() == Some("txt".as_ref()));
    files.sort();
    let mut cases: Vec<Kept> = Vec::new();
    for file in files {
        let text = std::fs::read_to_string(&file)
            .map_err(|error| format!("{}: {error}", file.display()))?;
        for (number, line) in text.lines().enumerate() {
            let name = format!(
                "{}:{}",
                file.file_name().unwrap_or_default().to_string_lossy(),
                number + 1
            );
            if line.trim().is_empty() || line.starts_with('#') {
                continue;
            }
            if let Some(printed) = line.strip_prefix("> ") {
                let case = cases.last_mut().ok_or(format!("{name}: no job above"))?;
                let text = case.printed.get_or_insert_with(Vec::new);
                text.extend(printed.bytes().chain([10]));
                continue;
            }
            let input = parse(line).map_err(|error| format!("{name}: {error}"))?;
            cases.push(Kept {
                name,
                input,
                printed: None,
            });
        }
    }
    Ok(cases)
}
