//! A second program for linear differential equations modulo a prime.
//!
//! It solves the same jobs and reads and writes the same sheets as the proved
//! library, written from the rules alone and sharing no code with it, so that
//! the two can be compared. Every method here is the plainest one: the
//! coefficients are found one after the other, in the order in which the rules
//! give them. Clarity comes before speed.
//!
//! - `field`: prime test, powers, inverses, determinants modulo a prime;
//! - `jobs`: the three kinds of jobs, on words and on bytes;
//! - `sheets`: job sheets, result sheets, and what the solving program prints;
//! - `random`: repeatable random jobs and sheets, sound and damaged ones;
//! - `worked`: the jobs that were worked by hand, with their answers.

#![forbid(unsafe_code)]

pub mod field;
pub mod jobs;
pub mod random;
pub mod sheets;
pub mod worked;

/// The three kinds of jobs.
#[derive(Clone, Copy, Debug, PartialEq, Eq)]
pub enum Kind {
    System,
    Basis,
    Equation,
}

impl Kind {
    pub const ALL: [Kind; 3] = [Kind::System, Kind::Basis, Kind::Equation];

    /// The word that names the kind on a sheet.
    pub fn name(self) -> &'static str {
        match self {
            Kind::System => "system",
            Kind::Basis => "basis",
            Kind::Equation => "equation",
        }
    }

    /// The kind with that name, if there is one.
    pub fn named(name: &[u8]) -> Option<Kind> {
        Kind::ALL
            .iter()
            .copied()
            .find(|kind| kind.name().as_bytes() == name)
    }

    /// How many of the five buffers are only read. They are the first ones;
    /// all the others are written.
    pub fn read_buffers(self) -> usize {
        match self {
            Kind::System | Kind::Equation => 3,
            Kind::Basis => 2,
        }
    }
}

/// What an operation answers: done with what it brings, or a refusal with its
/// number and its two places, 0 where a place is not named.
#[derive(Clone, Debug, PartialEq, Eq)]
pub enum Answer<T> {
    Done(T),
    Refused {
        number: u64,
        first: u64,
        second: u64,
    },
}

impl<T> Answer<T> {
    /// What was brought, or nothing on a refusal.
    pub fn done(&self) -> Option<&T> {
        match self {
            Answer::Done(value) => Some(value),
            Answer::Refused { .. } => None,
        }
    }

    /// Number, first place and second place, or nothing when done.
    pub fn refusal(&self) -> Option<(u64, u64, u64)> {
        match self {
            Answer::Done(_) => None,
            Answer::Refused {
                number,
                first,
                second,
            } => Some((*number, *first, *second)),
        }
    }
}

/// A refusal on its way out of the checks.
#[derive(Clone, Copy, Debug, PartialEq, Eq)]
pub(crate) struct Refusal {
    number: u64,
    first: u64,
    second: u64,
}

/// A refusal that names no place.
pub(crate) fn refuse(number: u64) -> Refusal {
    refuse_at(number, 0, 0)
}

/// A refusal with its places.
pub(crate) fn refuse_at(number: u64, first: u64, second: u64) -> Refusal {
    Refusal {
        number,
        first,
        second,
    }
}

impl<T> From<Result<T, Refusal>> for Answer<T> {
    fn from(result: Result<T, Refusal>) -> Answer<T> {
        match result {
            Ok(value) => Answer::Done(value),
            Err(refusal) => Answer::Refused {
                number: refusal.number,
                first: refusal.first,
                second: refusal.second,
            },
        }
    }
}
