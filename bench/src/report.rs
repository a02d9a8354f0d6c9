//! The text that the programs print, and where their bytes come from.

use std::fmt::Write;
use std::io::{self, Read, Write as _};

use crate::chase::{chase, Outcome};
use crate::input;
use crate::query::answers;
use crate::{Fact, Refusal};

/// What `exchange` prints.
pub fn exchange(facts: &[u64], rules: &[u64]) -> String {
    let said = input::request(facts, rules).and_then(|request| Ok((chase(&request)?, request.first_null)));
    match said {
        Ok((Outcome::Solution(facts), first_null)) => facts.iter().map(|fact| fact_line(fact, first_null)).collect(),
        Ok((Outcome::Impossible, _)) => "impossible\n".to_string(),
        Err(refusal) => refusal_line(&refusal),
    }
}

/// What `answer` prints.
pub fn answer(facts: &[u64], rules: &[u64], query: &[u64]) -> String {
    certain(facts, rules, query).unwrap_or_else(|refusal| refusal_line(&refusal))
}

fn certain(facts: &[u64], rules: &[u64], query: &[u64]) -> Result<String, Refusal> {
    let request = input::request(facts, rules)?;
    let Outcome::Solution(facts) = chase(&request)? else {
        return Ok("impossible\n".to_string());
    };
    let query = input::query(query, request.first_null)?;
    let mut text = String::new();
    for row in answers(&query, &facts, request.first_null)? {
        for (place, value) in row[..query.row.len()].iter().enumerate() {
            let blank = if place == 0 { "" } else { " " };
            let _ = write!(text, "{blank}{value}");
        }
        text.push('\n');
    }
    Ok(text)
}

fn fact_line(fact: &Fact, first_null: u64) -> String {
    let mut line = format!("{}:", fact.relation);
    for &value in fact.values() {
        let _ = if value < first_null {
            write!(line, " {value}")
        } else {
            write!(line, " ?{}", value - first_null)
        };
    }
    line.push('\n');
    line
}

fn refusal_line(refusal: &Refusal) -> String {
    format!("refused {} at {}\n", refusal.0, refusal.1)
}

/// The numbers of each file, or of standard input where no file is named; `None` after telling what is wrong.
pub fn read(program: &str, files: &[String], wanted: usize) -> Option<Vec<Vec<u64>>> {
    if files.is_empty() {
        let mut bytes = Vec::new();
        if let Err(error) = io::stdin().read_to_end(&mut bytes) {
            eprintln!("{program}: cannot read standard input: {error}");
            return None;
        }
        let all = input::numbers(&bytes);
        let (facts, rules, query) = input::cut(&all);
        return Some(vec![facts.to_vec(), rules.to_vec(), query.to_vec()]);
    }
    if files.len() != wanted {
        eprintln!("{program}: give {wanted} files, or none and all on standard input");
        return None;
    }
    let mut read = Vec::new();
    for file in files {
        match std::fs::read(file) {
            Ok(bytes) => read.push(input::numbers(&bytes)),
            Err(error) => {
                eprintln!("{program}: cannot read {file}: {error}");
                return None;
            }
        }
    }
    Some(read)
}

/// Writes the text to standard output, and tells whether that could be done.
pub fn print(text: &str) -> bool {
    io::stdout().write_all(text.as_bytes()).is_ok()
}
