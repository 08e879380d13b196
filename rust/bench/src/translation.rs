//! What the translation of an equation takes beside its solve. The equation's call by halving translates and solves;
//! the system job on the system that the translation makes solves only. The difference of the two, over the second, is
//! the translation's share of the solve. All coefficients are dense, the leading one too.

use crate::sums::{Modulus, Total};
use crate::turns::{best_of_turns, head, ratio, row, time};
use crate::{random_words, P};
use pealvixen::{lent, Method};

/// The quotient of x, or of -x, by d: each term is what is left of x once the earlier terms' products are taken off.
fn quotient(m: Modulus, negate: bool, d: &[u32], x: &[u32]) -> Vec<u32> {
    let n = d.len();
    let lead = m.inverse(u64::from(d[0]));
    let mut back = vec![0u32; n];
    for k in 0..n {
        let mut sum = Total::new(0);
        sum.add_products(&d[1..k + 1], &back[n - k..]);
        let word = u64::from(x[k]);
        let signed = if negate { m.p - word } else { word };
        let rest = signed + m.p - sum.reduce(m);
        back[n - 1 - k] = m.times(rest % m.p, lead) as u32;
    }
    back.reverse();
    back
}

/// An equation, and the matrix and the right side of its system.
struct Translated {
    r: usize,
    n: usize,
    a: Vec<u32>,
    b: Vec<u32>,
    start: Vec<u32>,
    matrix: Vec<u32>,
    side: Vec<u32>,
}

impl Translated {
    fn new(seed: &mut u64, r: usize, n: usize) -> Translated {
        let m = Modulus::new(u64::from(P));
        let a = random_words(seed, (r + 1) * n);
        let b = random_words(seed, n);
        let (lower, divisor) = a.split_at(r * n);
        let mut matrix = vec![0; r * r * n];
        for i in 0..r - 1 {
            matrix[(i * r + i + 1) * n] = 1;
        }
        let last = matrix[(r - 1) * r * n..].chunks_mut(n);
        for (entry, numerator) in last.zip(lower.chunks(n)) {
            entry.copy_from_slice(&quotient(m, true, divisor, numerator));
        }
        let mut side = vec![0; (r - 1) * n];
        side.extend(quotient(m, false, divisor, &b));
        let start = random_words(seed, r);
        Translated {
            r,
            n,
            a,
            b,
            start,
            matrix,
            side,
        }
    }

    fn equation(&self, y: &mut [u32], work: &mut [u32]) {
        let (r, n, p) = (self.r as u64, self.n as u64, u64::from(P));
        let (a, b, start) = (&self.a, &self.b, &self.start);
        let answer = lent::equation(Method::Halving, r, n, p, a, b, start, y, work);
        assert_eq!(answer, 0);
    }

    fn system(&self, y: &mut [u32], work: &mut [u32]) {
        let (r, n, p) = (self.r as u64, self.n as u64, u64::from(P));
        let (a, b, v) = (&self.matrix, &self.side, &self.start);
        let answer = lent::system(Method::Halving, r, n, p, a, b, v, y, work);
        assert_eq!(answer, 0);
    }
}

pub fn translations() {
    let columns = ["r", "N", "equation", "its system", "translation/solve"];
    head("Translation of an equation", &columns);
    let mut seed = 7;
    for r in [1, 2, 4, 8] {
        for n in [1024, 4096] {
            let job = Translated::new(&mut seed, r, n);
            let (mut one, mut rows) = (vec![0; n], vec![0; r * n]);
            let [mut work, mut room] = [vec![0; 16 * r * r * n], vec![0; 16 * r * r * n]];
            let mut whole = || job.equation(&mut one, &mut work);
            let mut solve = || job.system(&mut rows, &mut room);
            let times = best_of_turns(&mut [&mut whole, &mut solve]);
            assert!(one == rows[..n], "the two differ at {r}, {n}");
            let share = ratio(times[0] - times[1], times[1]);
            row(r, n, &[time(times[0]), time(times[1]), share]);
        }
    }
}
