//! The jobs that were worked by hand, with their answers.
//!
//! The starred ones are those that the proved table of the library holds too.
//! Where the rules leave a part of a job open, a simple choice is made here
//! and said at the job.

use crate::jobs::{WordJob, Words};
use crate::{Answer, Kind};

/// One job with the answer that it must have.
#[derive(Clone, Debug)]
pub struct Worked {
    pub name: &'static str,
    pub starred: bool,
    pub job: WordJob,
    pub answer: Answer<Words>,
}

/// All worked jobs in the order in which the rules name them.
pub fn worked() -> Vec<Worked> {
    let mut all = Vec::new();
    let mut add = |name, starred, job, answer| {
        all.push(Worked {
            name,
            starred,
            job,
            answer,
        })
    };

    // y' = y, y(0) = 1.
    let growth = |n: u64, p| {
        let mut a = vec![0; n as usize];
        a[0] = 1;
        job(Kind::System, 1, n, p, &[a, vec![0; n as usize], vec![1]])
    };
    let seven = [1, 1, 4, 6, 5, 1, 6];
    add("y' = y, p=7, N=7", true, growth(7, 7), one_row(&seven));
    add("y' = y, p=7, N=8", true, growth(8, 7), refused(4));
    add(
        "y' = y, p=5, N=5",
        true,
        growth(5, 5),
        one_row(&[1, 1, 3, 1, 4]),
    );
    add("y' = y, p=2, N=2", true, growth(2, 2), one_row(&[1, 1]));

    // y' = b, y(0) = 2.
    for b in [vec![1, 1, 1], vec![1, 1, 0]] {
        add(
            "y' = 1 + t modulo 3, with and without t^2",
            true,
            job(Kind::System, 1, 3, 3, &[vec![0; 3], b, vec![2]]),
            one_row(&[2, 1, 2]),
        );
    }

    // Sine and cosine.
    let mut a = vec![0; 20];
    a[5] = 1;
    a[10] = 10;
    add(
        "constant A rows (0,1) and (10,0), p=11, N=5",
        true,
        job(Kind::System, 2, 5, 11, &[a, vec![0; 10], vec![0, 1]]),
        one_row(&[0, 1, 0, 9, 0, 1, 0, 5, 0, 6]),
    );

    // The basis: A_0 rows (0,1),(0,0), A_1 rows (0,0),(1,0). Named are Y_3,
    // Z_3 and Y_2; the other terms are Y_0 = Z_0 = I, Y_1 = A_0, Z_1 = -A_0,
    // Z_2 = -Y_2, since A_0 A_0 = 0.
    let a = vec![0, 0, 0, 0, 1, 0, 0, 0, 0, 1, 0, 0, 0, 0, 0, 0];
    let y = vec![1, 0, 0, 6, 0, 1, 0, 0, 0, 0, 4, 0, 1, 0, 0, 5];
    let z = vec![1, 0, 0, 5, 0, 6, 0, 0, 0, 0, 3, 0, 1, 0, 0, 6];
    add(
        "basis, p=7, N=4, Y0=I",
        true,
        job(Kind::Basis, 2, 4, 7, &[a, vec![1, 0, 0, 1]]),
        Answer::Done(vec![y, z]),
    );

    // Y0 with determinant 7. A and N are left open: A = 0 and one term, so
    // that Y is Y0 and Z its inverse, rows (10,3),(3,5) modulo 11.
    let open = |p| job(Kind::Basis, 2, 1, p, &[vec![0; 4], vec![2, 1, 1, 4]]);
    add("Y0 rows (2,1),(1,4) modulo 7", true, open(7), refused(7));
    add(
        "Y0 rows (2,1),(1,4) modulo 11",
        true,
        open(11),
        Answer::Done(vec![vec![2, 1, 1, 4], vec![10, 3, 3, 5]]),
    );

    // Equations: a_0, then a_1 up to a_r.
    let a = vec![1, 0, 0, 0, 0, 0, 0, 0, 0, 0, 1, 0, 0, 0, 0];
    add(
        "y'' + y = 0, start 1 0, p=11, N=5",
        true,
        job(Kind::Equation, 2, 5, 11, &[a, vec![0; 5], vec![1, 0]]),
        one_row(&[1, 0, 5, 0, 6]),
    );
    let a = vec![0, 10, 0, 0, 0, 0, 0, 0, 0, 0, 1, 0, 0, 0, 0];
    add(
        "y'' - t y = 0, start 1 0, p=11, N=5",
        true,
        job(Kind::Equation, 2, 5, 11, &[a, vec![0; 5], vec![1, 0]]),
        one_row(&[1, 0, 0, 2, 0]),
    );
    let a = vec![0, 0, 0, 0, 0, 0, 0, 0, 0, 1, 0, 0];
    add(
        "y''' = 0, start 0 0 1, p=5, N=3",
        true,
        job(Kind::Equation, 3, 3, 5, &[a, vec![0; 3], vec![0, 0, 1]]),
        one_row(&[0, 0, 3]),
    );
    let a = vec![4, 0, 0, 0, 1, 1, 0, 0];
    add(
        "(1+t) y' - y = 0, start 1, p=5, N=4",
        true,
        job(Kind::Equation, 1, 4, 5, &[a, vec![0; 4], vec![1]]),
        one_row(&[1, 1, 0, 0]),
    );

    // The unstarred ones. The start of the first one is left open: 1.
    let a = vec![4, 0, 0, 1];
    add(
        "t y' - y = 0, p=5, N=2",
        false,
        job(Kind::Equation, 1, 2, 5, &[a, vec![0; 2], vec![1]]),
        refused(8),
    );
    add("y' = y, modulus 9", false, growth(3, 9), refused(3));
    add("y' = y, modulus 1", false, growth(1, 1), refused(3));
    add("y' = y, modulus 1, N=3", false, growth(3, 1), refused(3));
    for kind in Kind::ALL {
        let read = vec![Vec::new(); kind.read_buffers()];
        add(
            "r=9 and N=0 at once",
            false,
            job(kind, 9, 0, 7, &read),
            refused(1),
        );
    }
    add(
        "y' = y, v = 0",
        false,
        job(Kind::System, 1, 3, 7, &[vec![1, 0, 0], vec![0; 3], vec![0]]),
        one_row(&[0, 0, 0]),
    );
    all
}

/// A job whose written buffers hold words that are no residues.
fn job(kind: Kind, r: u64, n: u64, p: u64, read: &[Vec<u32>]) -> WordJob {
    WordJob::with_read(kind, r, n, p, read, 0xffff_fff1)
}

fn one_row(words: &[u32]) -> Answer<Words> {
    Answer::Done(vec![words.to_vec()])
}

fn refused(number: u64) -> Answer<Words> {
    Answer::Refused {
        number,
        first: 0,
        second: 0,
    }
}

#[cfg(test)]
mod tests {
    use super::*;
    use crate::jobs::satisfies;

    #[test]
    fn all_worked_jobs() {
        let all = worked();
        assert_eq!(all.iter().filter(|w| w.starred).count(), 14);
        for Worked {
            name, job, answer, ..
        } in all
        {
            assert_eq!(job.answer(), answer, "{name}");
            assert_eq!(job.to_bytes().answer(), answer, "{name} on bytes");
            if let Answer::Done(results) = &answer {
                assert!(satisfies(&job, results), "{name}");
            }
        }
    }

    #[test]
    fn the_easy_wrong_answers_are_others() {
        for Worked { name, answer, .. } in worked() {
            let results = answer.done().cloned().unwrap_or_default();
            match name {
                // The exponential of the integral of A would give diag(2,2).
                "basis, p=7, N=4, Y0=I" => {
                    assert_eq!((results[0][3], results[0][15]), (6, 5));
                    assert_eq!((results[1][3], results[1][15]), (5, 6));
                    let second: Vec<u32> = results[0].iter().skip(2).step_by(4).copied().collect();
                    assert_eq!(second, [0, 0, 4, 0]);
                }
                // A start value taken for a coefficient would give 0 0 1.
                "y''' = 0, start 0 0 1, p=5, N=3" => assert_eq!(results[0], [0, 0, 3]),
                _ => (),
            }
        }
    }
}
