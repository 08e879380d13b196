//! Typed jobs: what is read is borrowed, what is written stands in a room, and every length is computed.

use crate::lent::{self, Cell};
use crate::{Method, Refusal};

/// Memory for the written buffers of a job, and its work room. One room serves any number of jobs, one after the
/// other; it grows when a larger job comes, and a solution borrows it.
#[derive(Clone, Debug, Default)]
pub struct Room<C: Cell = u32> {
    first: Vec<C>,
    second: Vec<C>,
    work: Vec<C>,
}

impl Room {
    /// An empty room for words; the first job makes it as large as it needs.
    pub fn new() -> Room {
        Room::default()
    }
}

impl Room<u8> {
    /// An empty room for bytes; the first job makes it as large as it needs.
    pub fn of_bytes() -> Room<u8> {
        Room::default()
    }
}

impl<C: Cell> Room<C> {
    /// The written buffers and the work room, at these lengths in words.
    fn lend(&mut self, first: u64, second: u64, work: u64) -> [&mut [C]; 3] {
        fn part<C: Cell>(cells: &mut Vec<C>, words: u64) -> &mut [C] {
            let length = words as usize * C::PER_WORD;
            if cells.len() < length {
                cells.resize(length, C::default());
            }
            &mut cells[..length]
        }
        [
            part(&mut self.first, first),
            part(&mut self.second, second),
            part(&mut self.work, work),
        ]
    }
}

/// r and N where a job with them is not refused for their sake, else zeros: no length is computed of numbers that are
/// refused before any length is looked at.
fn size(r: u64, n: u64) -> (u64, u64) {
    if (1..=8).contains(&r) && (1..=4096).contains(&n) {
        (r, n)
    } else {
        (0, 0)
    }
}

/// A system y' = Ay + b with y(0) = v.
#[derive(Clone, Copy, Debug)]
pub struct System<'a, C: Cell = u32> {
    /// The order, 1 to 8.
    pub r: u64,
    /// The number of terms, 1 to 4096 and at most p.
    pub n: u64,
    /// The modulus, a prime.
    pub p: u64,
    /// A, r*r series of N words, row by row.
    pub a: &'a [C],
    /// b, r series of N words.
    pub b: &'a [C],
    /// v, r words.
    pub v: &'a [C],
}

impl<C: Cell> System<'_, C> {
    /// Solves the system: y, a series of N words for each row.
    ///
    /// ```
    /// use pealvixen::{Method, Refusal, Room, System};
    ///
    /// // y_1' = y_2, y_2' = -y_1 modulo 11, from (0, 1): sine and cosine.
    /// let mut a = [0; 20];
    /// a[5] = 1;
    /// a[10] = 10;
    /// let job = System { r: 2, n: 5, p: 11, a: &a, b: &[0; 10], v: &[0, 1] };
    /// let mut room = Room::new();
    /// let y = job.solve(Method::Newton, &mut room)?;
    /// assert_eq!(y.row(0), [0, 1, 0, 9, 0]);
    /// assert_eq!(y.row(1), [1, 0, 5, 0, 6]);
    ///
    /// // v is to have two words below 11.
    /// let refusal = System { v: &[0, 11], ..job }.solve(Method::Halving, &mut room).unwrap_err();
    /// assert_eq!(refusal, Refusal::Word { buffer: 3, index: 1 });
    /// # Ok::<(), Refusal>(())
    /// ```
    ///
    /// On bytes:
    ///
    /// ```
    /// use pealvixen::{Method, Room, System};
    ///
    /// // y' = y, y(0) = 1 modulo 257, two terms, four bytes to a word.
    /// let a = [1, 0, 0, 0, 0, 0, 0, 0];
    /// let job = System { r: 1, n: 2, p: 257, a: &a, b: &[0; 8], v: &[1, 0, 0, 0] };
    /// let mut room = Room::of_bytes();
    /// assert_eq!(job.solve(Method::Halving, &mut room)?.row(0), [1, 0, 0, 0, 1, 0, 0, 0]);
    /// assert_eq!(job.solve(Method::Newton, &mut room)?.row(0), [1, 0, 0, 0, 1, 0, 0, 0]);
    /// # Ok::<(), pealvixen::Refusal>(())
    /// ```
    pub fn solve<'r>(
        &self,
        method: Method,
        room: &'r mut Room<C>,
    ) -> Result<Vector<'r, C>, Refusal> {
        let (r, n) = size(self.r, self.n);
        let [y, _, work] = room.lend(r * n, 0, 16 * r * r * n);
        let (a, b, v) = (self.a, self.b, self.v);
        let answer = lent::system(method, self.r, self.n, self.p, a, b, v, y, work);
        lent::unpack(answer)?;
        Ok(Vector::new(y, n))
    }
}

/// A basis Y' = AY with Y(0) = Y0, and its inverse.
#[derive(Clone, Copy, Debug)]
pub struct Basis<'a, C: Cell = u32> {
    /// The order, 1 to 8.
    pub r: u64,
    /// The number of terms, 1 to 4096 and at most p.
    pub n: u64,
    /// The modulus, a prime.
    pub p: u64,
    /// A, r*r series of N words, row by row.
    pub a: &'a [C],
    /// Y0, r*r words, row by row.
    pub y0: &'a [C],
}

/// A basis Y of solutions and Z with YZ = I, up to N terms.
#[derive(Clone, Copy, Debug, PartialEq, Eq)]
pub struct Solution<'r, C: Cell = u32> {
    pub y: Matrix<'r, C>,
    pub z: Matrix<'r, C>,
}

impl<C: Cell> Basis<'_, C> {
    /// Solves for the basis, by Newton's rounds.
    ///
    /// ```
    /// use pealvixen::{Basis, Refusal, Room};
    ///
    /// // A_0 = rows (0,1), (0,0) and A_1 = rows (0,0), (1,0), modulo 7, from the identity.
    /// let a = [0, 0, 0, 0, 1, 0, 0, 0, 0, 1, 0, 0, 0, 0, 0, 0];
    /// let job = Basis { r: 2, n: 4, p: 7, a: &a, y0: &[1, 0, 0, 1] };
    /// let mut room = Room::new();
    /// let found = job.solve(&mut room)?;
    /// assert_eq!(found.y.entry(0, 0), [1, 0, 0, 6]);
    /// assert_eq!(found.y.entry(1, 0), [0, 0, 4, 0]);
    /// assert_eq!(found.z.entry(0, 0), [1, 0, 0, 5]);
    ///
    /// let refusal = Basis { y0: &[2, 1, 1, 4], ..job }.solve(&mut room).unwrap_err();
    /// assert_eq!(refusal, Refusal::Singular);
    /// # Ok::<(), Refusal>(())
    /// ```
    ///
    /// On bytes:
    ///
    /// ```
    /// use pealvixen::{Basis, Room};
    ///
    /// let job = Basis { r: 1, n: 1, p: 257, a: &[0; 4], y0: &[2, 0, 0, 0] };
    /// let mut room = Room::of_bytes();
    /// // 2 * 129 = 258, which leaves 1.
    /// assert_eq!(job.solve(&mut room)?.z.entry(0, 0), [129, 0, 0, 0]);
    /// # Ok::<(), pealvixen::Refusal>(())
    /// ```
    pub fn solve<'r>(&self, room: &'r mut Room<C>) -> Result<Solution<'r, C>, Refusal> {
        let (r, n) = size(self.r, self.n);
        let [y, z, work] = room.lend(r * r * n, r * r * n, 16 * r * r * n);
        let answer = lent::basis(self.r, self.n, self.p, self.a, self.y0, y, z, work);
        lent::unpack(answer)?;
        Ok(Solution {
            y: Matrix::new(y, r, n),
            z: Matrix::new(z, r, n),
        })
    }
}

/// An equation a_r y^(r) + .. + a_1 y' + a_0 y = b.
#[derive(Clone, Copy, Debug)]
pub struct Equation<'a, C: Cell = u32> {
    /// The order, 1 to 8.
    pub r: u64,
    /// The number of terms, 1 to 4096 and at most p.
    pub n: u64,
    /// The modulus, a prime.
    pub p: u64,
    /// a_0 to a_r, r+1 series of N words.
    pub a: &'a [C],
    /// b, N words.
    pub b: &'a [C],
    /// The derivatives y(0), y'(0), .. of order 0 to r-1, r words.
    pub start: &'a [C],
}

impl<C: Cell> Equation<'_, C> {
    /// Solves the equation: y, N words.
    ///
    /// ```
    /// use pealvixen::{Equation, Method, Refusal, Room};
    ///
    /// // y'' - t y = 0, y(0) = 1, y'(0) = 0 modulo 11.
    /// let a = [0, 10, 0, 0, 0, 0, 0, 0, 0, 0, 1, 0, 0, 0, 0];
    /// let job = Equation { r: 2, n: 5, p: 11, a: &a, b: &[0; 5], start: &[1, 0] };
    /// let mut room = Room::new();
    /// assert_eq!(job.solve(Method::Halving, &mut room)?, [1, 0, 0, 2, 0]);
    ///
    /// // t y' - y = 0 has a singular point at 0.
    /// let singular = Equation { r: 1, n: 2, p: 5, a: &[4, 0, 0, 1], b: &[0; 2], start: &[1] };
    /// assert_eq!(singular.solve(Method::Halving, &mut room), Err(Refusal::LeadingZero));
    /// # Ok::<(), Refusal>(())
    /// ```
    ///
    /// By Newton:
    ///
    /// ```
    /// use pealvixen::{Equation, Method, Room};
    ///
    /// // y' = 3, y(0) = 2 modulo 7.
    /// let job = Equation { r: 1, n: 2, p: 7, a: &[0, 0, 1, 0], b: &[3, 0], start: &[2] };
    /// assert_eq!(job.solve(Method::Newton, &mut Room::new())?, [2, 3]);
    /// # Ok::<(), pealvixen::Refusal>(())
    /// ```
    ///
    /// On bytes:
    ///
    /// ```
    /// use pealvixen::{Equation, Method, Room};
    ///
    /// // y' = 0, y(0) = 2 modulo 7, one term.
    /// let a = [0, 0, 0, 0, 1, 0, 0, 0];
    /// let job = Equation { r: 1, n: 1, p: 7, a: &a, b: &[0; 4], start: &[2, 0, 0, 0] };
    /// let mut room = Room::of_bytes();
    /// assert_eq!(job.solve(Method::Halving, &mut room)?, [2, 0, 0, 0]);
    /// assert_eq!(job.solve(Method::Newton, &mut room)?, [2, 0, 0, 0]);
    /// # Ok::<(), pealvixen::Refusal>(())
    /// ```
    pub fn solve<'r>(&self, method: Method, room: &'r mut Room<C>) -> Result<&'r [C], Refusal> {
        let (r, n) = size(self.r, self.n);
        let [y, _, work] = room.lend(n, 0, 16 * r * r * n);
        let (a, b, start) = (self.a, self.b, self.start);
        let answer = lent::equation(method, self.r, self.n, self.p, a, b, start, y, work);
        lent::unpack(answer)?;
        Ok(y)
    }
}

/// A vector of series.
#[derive(Clone, Copy, Debug, PartialEq, Eq)]
pub struct Vector<'r, C: Cell = u32> {
    cells: &'r [C],
    each: usize,
}

impl<'r, C: Cell> Vector<'r, C> {
    pub(crate) fn new(cells: &'r [C], n: u64) -> Vector<'r, C> {
        Vector {
            cells,
            each: n as usize * C::PER_WORD,
        }
    }

    /// The series of a row, counted from 0.
    pub fn row(self, row: usize) -> &'r [C] {
        &self.cells[row * self.each..(row + 1) * self.each]
    }

    /// The series of all rows, one after the other.
    pub fn rows(self) -> std::slice::ChunksExact<'r, C> {
        self.cells.chunks_exact(self.each)
    }

    /// The whole buffer.
    pub fn cells(self) -> &'r [C] {
        self.cells
    }
}

/// A square matrix of series.
#[derive(Clone, Copy, Debug, PartialEq, Eq)]
pub struct Matrix<'r, C: Cell = u32> {
    cells: &'r [C],
    each: usize,
    r: usize,
}

impl<'r, C: Cell> Matrix<'r, C> {
    pub(crate) fn new(cells: &'r [C], r: u64, n: u64) -> Matrix<'r, C> {
        Matrix {
            cells,
            each: n as usize * C::PER_WORD,
            r: r as usize,
        }
    }

    /// The series of an entry, row and column counted from 0.
    pub fn entry(self, row: usize, column: usize) -> &'r [C] {
        assert!(column < self.r, "the matrix has {} columns", self.r);
        let from = (row * self.r + column) * self.each;
        &self.cells[from..from + self.each]
    }

    /// The whole buffer.
    pub fn cells(self) -> &'r [C] {
        self.cells
    }
}
