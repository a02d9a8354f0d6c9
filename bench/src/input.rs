//! Numbers out of bytes, and facts, dependencies and queries out of numbers.

use crate::query::Query;
use crate::{Atom, Dependency, Fact, Kind, Refusal, Term, FACTS, RULES};

const FACT: usize = 6;
const ATOM: usize = 10;
const RULE: usize = 53;
const QUERY: usize = 40;

/// Four bytes a number, the low byte first; part of a number at the end is dropped.
pub fn numbers(bytes: &[u8]) -> Vec<u64> {
    bytes
        .chunks_exact(4)
        .map(|four| u64::from(u32::from_le_bytes([four[0], four[1], four[2], four[3]])))
        .collect()
}

/// Cuts one stream of numbers into the first null with the facts, the rules, and what stands behind these.
pub fn cut(all: &[u64]) -> (&[u64], &[u64], &[u64]) {
    let facts = all.get(1).map_or(0, |&count| count.min(FACTS as u64) as usize);
    let (first, behind) = all.split_at(all.len().min(2 + FACT * facts));
    let rules = behind.first().map_or(0, |&count| count.min(RULES as u64) as usize);
    let (second, third) = behind.split_at(behind.len().min(1 + RULE * rules));
    (first, second, third)
}

pub struct Request {
    pub first_null: u64,
    pub facts: Vec<Fact>,
    pub rules: Vec<Dependency>,
}

/// Reads the first null, the facts and the dependencies, or tells the first refusal that applies.
pub fn request(facts: &[u64], rules: &[u64]) -> Result<Request, Refusal> {
    let listed = facts.get(1..).unwrap_or(&[]);
    let facts_read = list(listed, FACTS, FACT, fact).map_err(|place| Refusal(1, place))?;
    let rules_read = list(rules, RULES, RULE, rule).map_err(|place| Refusal(2, place))?;
    let first_null = facts[0];
    if let Some(place) = facts_read.iter().position(|fact| fact.values().iter().any(|&value| value >= first_null)) {
        return Err(Refusal(3, place));
    }
    if let Some(place) = rules_read.iter().position(|rule| !rule_below(rule, first_null)) {
        return Err(Refusal(3, FACTS + place));
    }
    Ok(Request { first_null, facts: facts_read, rules: rules_read })
}

/// A count and so many items of one size, or the place of the first that is bad or not wholly there, or the most there may be.
fn list<T>(row: &[u64], most: usize, size: usize, read: fn(&[u64]) -> Option<T>) -> Result<Vec<T>, usize> {
    let count = match row.first() {
        Some(&count) if count <= most as u64 => count as usize,
        _ => return Err(most),
    };
    (0..count)
        .map(|place| row[1..].get(place * size..(place + 1) * size).and_then(read).ok_or(place))
        .collect()
}

fn count_at_most(count: u64, most: usize) -> Option<usize> {
    (count <= most as u64).then_some(count as usize)
}

fn fact(row: &[u64]) -> Option<Fact> {
    let width = count_at_most(row[1], 4)?;
    let mut values = [0; 4];
    values[..width].copy_from_slice(&row[2..2 + width]);
    Some(Fact { relation: row[0], width, values })
}

fn term(row: &[u64]) -> Option<Term> {
    match (row[0], row[1]) {
        (0, constant) => Some(Term::Constant(constant)),
        (1, variable) if variable < 16 => Some(Term::Variable(variable as usize)),
        _ => None,
    }
}

fn terms(count: u64, row: &[u64]) -> Option<Vec<Term>> {
    let width = count_at_most(count, 4)?;
    row.chunks_exact(2).take(width).map(term).collect()
}

fn atom(row: &[u64]) -> Option<Atom> {
    Some(Atom { relation: row[0], terms: terms(row[1], &row[2..ATOM])? })
}

fn atoms(row: &[u64], most: usize) -> Option<Vec<Atom>> {
    let count = count_at_most(row[0], most)?;
    row[1..].chunks_exact(ATOM).take(count).map(atom).collect()
}

fn rule(row: &[u64]) -> Option<Dependency> {
    let body = atoms(&row[1..32], 3)?;
    let kind = match row[0] {
        0 => Kind::Tgd(atoms(&row[32..], 2)?),
        1 => Kind::Egd(body_variable(row[32], &body)?, body_variable(row[33], &body)?),
        _ => return None,
    };
    Some(Dependency { body, kind })
}

/// The number of a variable that stands in one of the atoms.
fn body_variable(number: u64, atoms: &[Atom]) -> Option<usize> {
    let variable = usize::try_from(number).ok()?;
    atoms.iter().any(|atom| has_variable(atom, variable)).then_some(variable)
}

fn has_variable(atom: &Atom, variable: usize) -> bool {
    atom.terms.iter().any(|term| matches!(term, Term::Variable(x) if *x == variable))
}

fn below(terms: &[Term], first_null: u64) -> bool {
    terms.iter().all(|term| !matches!(term, Term::Constant(constant) if *constant >= first_null))
}

fn rule_below(rule: &Dependency, first_null: u64) -> bool {
    let head: &[Atom] = match &rule.kind {
        Kind::Tgd(head) => head,
        Kind::Egd(..) => &[],
    };
    rule.body.iter().chain(head).all(|atom| below(&atom.terms, first_null))
}

/// Reads a query, or refuses it at the first atom that is at fault, or at 3.
pub fn query(row: &[u64], first_null: u64) -> Result<Query, Refusal> {
    let bad = |place| Refusal(6, place);
    let row = row.get(..QUERY).ok_or(bad(3))?;
    let count = row[9];
    if row[0] > 4 || count == 0 || count > 3 {
        return Err(bad(3));
    }
    let mut atoms = Vec::new();
    for (place, numbers) in row[10..].chunks_exact(ATOM).take(count as usize).enumerate() {
        match atom(numbers) {
            Some(atom) if below(&atom.terms, first_null) => atoms.push(atom),
            _ => return Err(bad(place)),
        }
    }
    let head = terms(row[0], &row[1..9]).ok_or(bad(3))?;
    let known = |term: &Term| match *term {
        Term::Constant(constant) => constant < first_null,
        Term::Variable(variable) => atoms.iter().any(|atom| has_variable(atom, variable)),
    };
    if !head.iter().all(known) {
        return Err(bad(3));
    }
    Ok(Query { row: head, atoms })
}
