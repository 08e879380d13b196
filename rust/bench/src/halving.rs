//! The system job by halving beside the naive method.
//!
//! A call on buffers first runs all checks (the modulus is prime, the lengths fit, every word is a residue), which the
//! naive functions do not. What the checks take is measured by the same job with p in place of the last word that is
//! read: all checks run, the last one finds that word, and nothing is solved. `solve` is the call less its checks.

use crate::naive::{self, System};
use crate::turns::{best_of_turns, head, ratio, row, time};
use crate::{random_words, P, TERMS};
use pealvixen::{lent, Method};

fn call(job: &System, v: &[u32], y: &mut [u32], work: &mut [u32]) -> u64 {
    let (r, n, p) = (job.r as u64, job.n as u64, job.p as u64);
    lent::system(Method::Halving, r, n, p, &job.a, &job.b, v, y, work)
}

pub fn systems() {
    let columns = [
        "r", "N", "call", "checks", "solve", "N1", "call/N1", "N2", "call/N2", "solve/N2",
    ];
    head("System by halving", &columns);
    let mut seed = 1;
    for r in [1, 2, 4, 8] {
        for n in TERMS {
            let job = System {
                r,
                n,
                p: P,
                a: random_words(&mut seed, r * r * n),
                b: random_words(&mut seed, r * n),
                v: random_words(&mut seed, r),
            };
            let mut wrong = job.v.clone();
            wrong[r - 1] = P;
            // The packed answer of a word that is no residue: its number, its buffer (v is the third) and its index.
            let refused = 6 + (3 << 8) + ((r as u64 - 1) << 32);
            let [mut y, mut kept, mut plain] = [(); 3].map(|_| vec![0; r * n]);
            let [mut summed, mut back] = [(); 2].map(|_| vec![0; r * n]);
            let [mut work, mut room] = [(); 2].map(|_| vec![0; 16 * r * r * n]);
            let times = best_of_turns(&mut [
                &mut || assert_eq!(call(&job, &job.v, &mut y, &mut work), 0),
                &mut || assert_eq!(call(&job, &wrong, &mut kept, &mut room), refused),
                &mut || naive::by_subtraction(&job, &mut plain),
                &mut || naive::by_totals(&job, &mut summed, &mut back),
            ]);
            assert!(
                y == plain && y == summed,
                "the three differ at r = {r}, N = {n}"
            );
            let [whole, checks, one, two] = [times[0], times[1], times[2], times[3]];
            let solve = whole - checks;
            let cells = [
                time(whole),
                time(checks),
                time(solve),
                time(one),
                ratio(whole, one),
                time(two),
                ratio(whole, two),
                ratio(solve, two),
            ];
            row(r, n, &cells);
        }
    }
}
