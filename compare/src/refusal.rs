//! Refusals, and answers as `replay` spells them.
use std::fmt::{self, Display};

/// Why something is refused, by its number, and where: docs/SPECIFICATION.md, "Refusals".
#[derive(Clone, Copy, PartialEq, Eq, Debug)]
pub struct Refusal {
    pub number: u8,
    pub place: usize,
}

impl Refusal {
    /// At place 0.
    pub fn because(number: u8) -> Refusal {
        Refusal { number, place: 0 }
    }

    pub fn at(number: u8, place: usize) -> Refusal {
        Refusal { number, place }
    }
}

impl Display for Refusal {
    fn fmt(&self, f: &mut fmt::Formatter<'_>) -> fmt::Result {
        write!(f, "refused {} {}", self.number, self.place)
    }
}

/// A number, or why there is none.
pub fn spelled(answer: Result<u64, Refusal>) -> String {
    match answer {
        Ok(number) => number.to_string(),
        Err(refusal) => refusal.to_string(),
    }
}

/// A verdict.
pub fn verdict_spelled(verdict: Result<(), Refusal>) -> String {
    match verdict {
        Ok(()) => "ok".to_string(),
        Err(refusal) => refusal.to_string(),
    }
}
