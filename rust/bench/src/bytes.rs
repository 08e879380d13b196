//! Short jobs on words and on bytes: a whole call, and what part of it the test for a prime is.
//!
//! The test runs in each call. It is measured by two calls that are refused: one because of N, before the test, and one
//! because of its lengths, right behind it. Their difference is the test.

use crate::turns::{best_of_turns, head, row};
use crate::{random_words, P};
use pealvixen::lent::{self, Cell};
use pealvixen::Method;

/// A system job in words or bytes.
struct Job<C> {
    r: u64,
    n: u64,
    read: [Vec<C>; 3],
    y: Vec<C>,
    work: Vec<C>,
}

/// A call with no cells at all: it is refused because of N where N is 0, else because of the first length.
fn refused<C: Cell>(r: u64, n: u64) -> u64 {
    let (p, none): (u64, &[C]) = (u64::from(P), &[]);
    let (y, work) = (&mut [], &mut []);
    lent::system(Method::Halving, r, n, p, none, none, none, y, work)
}

impl<C: Cell> Job<C> {
    fn run(&mut self) -> u64 {
        let (r, n, p) = (self.r, self.n, u64::from(P));
        let [a, b, v] = &self.read;
        let (y, work) = (&mut self.y, &mut self.work);
        lent::system(Method::Halving, r, n, p, a, b, v, y, work)
    }

    /// The times of a whole call and of the test for a prime, in microseconds.
    fn measure(&mut self) -> (f64, f64) {
        let (r, n) = (self.r, self.n);
        let times = best_of_turns(&mut [
            &mut || assert_eq!(self.run(), 0),
            &mut || assert_eq!(refused::<C>(r, 0), 2),
            &mut || assert_eq!(refused::<C>(r, n), 5 + (1 << 8)),
        ]);
        (times[0], times[2] - times[1])
    }
}

pub fn short_jobs() {
    let columns = [
        "r",
        "N",
        "test for a prime",
        "words",
        "test/words",
        "bytes",
        "test/bytes",
    ];
    head("Short systems by halving", &columns);
    let mut seed = 6;
    for (r, n) in [
        (1, 16),
        (1, 64),
        (1, 256),
        (1, 1024),
        (2, 64),
        (4, 64),
        (8, 16),
    ] {
        let read = [r * r * n, r * n, r].map(|count| random_words(&mut seed, count));
        let as_bytes =
            |words: &Vec<u32>| words.iter().flat_map(|word| word.to_le_bytes()).collect();
        let in_bytes: [Vec<u8>; 3] = [as_bytes(&read[0]), as_bytes(&read[1]), as_bytes(&read[2])];
        let mut words = Job {
            r: r as u64,
            n: n as u64,
            read,
            y: vec![0; r * n],
            work: vec![0; 16 * r * r * n],
        };
        let mut job = Job {
            r: r as u64,
            n: n as u64,
            read: in_bytes,
            y: vec![0; 4 * r * n],
            work: vec![0; 64 * r * r * n],
        };
        let (on_words, test) = words.measure();
        let (on_bytes, again) = job.measure();
        let same = as_bytes(&words.y) as Vec<u8> == job.y;
        assert!(same, "bytes differ at {r}, {n}");
        let cells = [test, on_words, test / on_words, on_bytes, again / on_bytes];
        let cells = cells.map(|cell| format!("{cell:.2}"));
        row(r, n, &cells);
    }
}
