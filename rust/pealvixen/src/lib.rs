//! Truncated power series solutions of linear differential systems modulo a prime, by a proved library.
//!
//! Three kinds of jobs are taken, all at an ordinary point, for an order r from 1 to 8, a number of terms N from 1 to
//! 4096, and a prime p from 2 to 2147483647 with N at most p:
//!
//! - [`System`]: y' = Ay + b with y(0) = v;
//! - [`Basis`]: Y' = AY with Y(0) = Y0, together with Z, the inverse of Y;
//! - [`Equation`]: a_r y^(r) + .. + a_1 y' + a_0 y = b with the first r derivatives at 0.
//!
//! Residues are words from 0 to p-1. The N coefficients of a series stand together, lowest power first; the entries
//! of a matrix stand row by row. A job borrows what it reads. What it writes stands in a [`Room`], which serves any
//! number of jobs one after the other and grows only when a larger job comes.
//!
//! ```
//! use pealvixen::{Method, Room, System};
//!
//! // y' = y, y(0) = 1, modulo 7: the exponential series.
//! let mut room = Room::new();
//! let job = System { r: 1, n: 7, p: 7, a: &[1, 0, 0, 0, 0, 0, 0], b: &[0; 7], v: &[1] };
//! let y = job.solve(Method::Halving, &mut room)?;
//! assert_eq!(y.row(0), [1, 1, 4, 6, 5, 1, 6]);
//!
//! // With eight terms one would have to divide by 7.
//! let longer = System { n: 8, ..job };
//! let refusal = longer.solve(Method::Halving, &mut room).unwrap_err();
//! assert_eq!(refusal.to_string(), "refused (4): the number of terms N must not pass the modulus p");
//! # Ok::<(), pealvixen::Refusal>(())
//! ```
//!
//! A job whose buffers are slices of bytes, four to a word and low byte first, is the same job on bytes; it goes up
//! to r*r*N = 1024. Jobs also come as text: [`read_job`], [`read_result`] and the writers [`write_system`],
//! [`write_equation`] and [`write_basis`] work on sheets in a [`Desk`].
//!
//! What is proved of the library stands in `docs/SIGNATURE.md` of the project; this crate is not proved, but it only
//! hands slices over and takes answers apart. [`lent`] has the library's functions as they are.

mod jobs;
pub mod lent;
mod refusal;
mod sheets;

pub use jobs::{Basis, Equation, Matrix, Room, Solution, System, Vector};
pub use lent::Cell;
pub use refusal::Refusal;
pub use sheets::{
    read_job, read_result, write_basis, write_equation, write_system, Desk, Job, Solved,
};

/// The three kinds of jobs.
#[derive(Clone, Copy, Debug, PartialEq, Eq, Hash)]
pub enum Kind {
    System,
    Basis,
    Equation,
}

impl Kind {
    /// The name of a buffer, counted from 1, of a job of this kind.
    pub fn buffer_name(self, buffer: u32) -> &'static str {
        let names = match self {
            Kind::System => ["A", "b", "v", "y"],
            Kind::Basis => ["A", "Y0", "Y", "Z"],
            Kind::Equation => ["a_0..a_r", "b", "start", "y"],
        };
        match buffer {
            1..=4 => names[buffer as usize - 1],
            _ => "the work room",
        }
    }
}

/// How a system or an equation is solved. Both give the same words; halving is the quicker one.
#[derive(Clone, Copy, Debug, PartialEq, Eq, Hash)]
pub enum Method {
    Halving,
    Newton,
}
