//! Data exchange in plain Rust, without contracts: what the verified programs are timed against and compared with.
//!
//! It was written from the documents (README.md, docs/), not from the verified code, so that each of the two can find mistakes of the other.

pub mod chase;
pub mod input;
pub mod matching;
pub mod query;
pub mod report;

/// At most so many facts and dependencies come in, and so many steps are made.
pub const FACTS: usize = 64;
pub const RULES: usize = 16;
pub const STEPS: usize = 128;

/// A relation and 0 to 4 values; room that is not used holds 0.
#[derive(Clone, Copy)]
pub struct Fact {
    pub relation: u64,
    pub width: usize,
    pub values: [u64; 4],
}

impl Fact {
    pub fn values(&self) -> &[u64] {
        &self.values[..self.width]
    }
}

#[derive(Clone, Copy)]
pub enum Term {
    Constant(u64),
    Variable(usize),
}

/// A relation and its terms.
pub struct Atom {
    pub relation: u64,
    pub terms: Vec<Term>,
}

/// The body, and what it asks for.
pub struct Dependency {
    pub body: Vec<Atom>,
    pub kind: Kind,
}

pub enum Kind {
    /// Facts that match the head.
    Tgd(Vec<Atom>),
    /// Two variables that have the same value.
    Egd(usize, usize),
}

/// The number of a refusal and its place.
#[derive(Debug)]
pub struct Refusal(pub u64, pub usize);
