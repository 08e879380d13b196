//! Why a job or a sheet was not taken.

use crate::Kind;
use std::fmt;

/// Why a job or a sheet was not taken: the number of the reason and its two places.
///
/// The first reason that holds is given, in the order of the numbers; 10 stands behind 4. After a refusal every lent
/// buffer holds what it held before.
#[derive(Clone, Copy, Debug, PartialEq, Eq, Hash)]
pub enum Refusal {
    /// 1: the order r is outside 1..8.
    Order,
    /// 2: the number of terms N is outside 1..4096.
    Terms,
    /// 3: the modulus p is below 2, above 2147483647, or not a prime.
    Modulus,
    /// 4: N is greater than p.
    TermsOverModulus,
    /// 5: a buffer has the wrong length; `buffer` is the lowest such one, from 1.
    Length { buffer: u32 },
    /// 6: a word that is read is p or more; `buffer` is the lowest such one, from 1, and `index` its first such word,
    /// from 0.
    Word { buffer: u32, index: u32 },
    /// 7: the start of a basis has no inverse modulo p.
    Singular,
    /// 8: the leading coefficient of an equation is 0 at t = 0.
    LeadingZero,
    /// 9: a line of a sheet breaks the form; `line` is the first such one, from 1.
    Line { line: u32 },
    /// 10: a sheet has more than 65536 bytes, or a sheet or a job on bytes has r*r*N over 1024.
    Large,
}

impl Refusal {
    /// The number of the reason, 1 to 10.
    pub fn number(self) -> u32 {
        match self {
            Refusal::Order => 1,
            Refusal::Terms => 2,
            Refusal::Modulus => 3,
            Refusal::TermsOverModulus => 4,
            Refusal::Length { .. } => 5,
            Refusal::Word { .. } => 6,
            Refusal::Singular => 7,
            Refusal::LeadingZero => 8,
            Refusal::Line { .. } => 9,
            Refusal::Large => 10,
        }
    }

    /// The two places: a buffer and an index, or a line; 0 where none is named.
    pub fn places(self) -> (u32, u32) {
        match self {
            Refusal::Length { buffer } => (buffer, 0),
            Refusal::Word { buffer, index } => (buffer, index),
            Refusal::Line { line } => (line, 0),
            _ => (0, 0),
        }
    }

    /// The sentence for a job of this kind, with the buffer's name in place of its number.
    ///
    /// ```
    /// use pealvixen::{Kind, Refusal};
    ///
    /// let refusal = Refusal::Length { buffer: 2 };
    /// assert_eq!(refusal.to_string(), "refused (5): buffer 2 has the wrong length");
    /// assert_eq!(refusal.sentence(Kind::System), "refused (5): b has the wrong length");
    /// ```
    pub fn sentence(self, kind: Kind) -> String {
        let (buffer, _) = self.places();
        match self {
            Refusal::Length { .. } | Refusal::Word { .. } => self
                .to_string()
                .replace(&format!("buffer {buffer}"), kind.buffer_name(buffer)),
            _ => self.to_string(),
        }
    }

    /// Takes the library's answer apart: number + 2^8 * first place + 2^32 * second place, and 0 for done.
    pub(crate) fn check(answer: u64) -> Result<(), Refusal> {
        let first = (answer >> 8 & 0xff_ffff) as u32;
        let second = (answer >> 32) as u32;
        Err(match answer & 0xff {
            0 => return Ok(()),
            1 => Refusal::Order,
            2 => Refusal::Terms,
            3 => Refusal::Modulus,
            4 => Refusal::TermsOverModulus,
            5 => Refusal::Length { buffer: first },
            6 => Refusal::Word {
                buffer: first,
                index: second,
            },
            7 => Refusal::Singular,
            8 => Refusal::LeadingZero,
            9 => Refusal::Line { line: first },
            10 => Refusal::Large,
            _ => unreachable!("the library has no answer {answer}"),
        })
    }
}

impl fmt::Display for Refusal {
    fn fmt(&self, f: &mut fmt::Formatter<'_>) -> fmt::Result {
        write!(f, "refused ({}): ", self.number())?;
        match self {
            Refusal::Order => write!(f, "the order r must be from 1 to 8"),
            Refusal::Terms => write!(f, "the number of terms N must be from 1 to 4096"),
            Refusal::Modulus => write!(f, "the modulus p must be a prime from 2 to 2147483647"),
            Refusal::TermsOverModulus => {
                write!(f, "the number of terms N must not pass the modulus p")
            }
            Refusal::Length { buffer } => write!(f, "buffer {buffer} has the wrong length"),
            Refusal::Word { buffer, index } => write!(
                f,
                "word {index} of buffer {buffer}, counted from 0, is not below the modulus"
            ),
            Refusal::Singular => {
                write!(f, "the starting matrix Y0 has no inverse modulo p")
            }
            Refusal::LeadingZero => {
                write!(f, "the leading coefficient a_r is 0 at t = 0")
            }
            Refusal::Line { line } => write!(f, "line {line} of the sheet is not in form"),
            Refusal::Large => write!(
                f,
                "too large: at most 65536 bytes of sheet, and r*r*N at most 1024 in sheets and byte jobs"
            ),
        }
    }
}

impl std::error::Error for Refusal {}
