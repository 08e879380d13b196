//! Newton over FLINT's matrices of polynomials (flint/newton.c).

use std::os::raw::c_int;

#[repr(C)]
struct Job {
    _hidden: [u8; 0],
}

extern "C" {
    fn flint_basis_new(r: u64, n: u64, p: u64, a: *const u32, start: *const u32) -> *mut Job;
    fn flint_basis_run(job: *mut Job, way: c_int);
    fn flint_basis_result(job: *const Job, y: *mut u32, z: *mut u32);
    fn flint_basis_free(job: *mut Job);
}

/// How products of matrices are taken.
#[derive(Clone, Copy)]
enum Way {
    /// `nmod_poly_mat_mul`, which chooses by itself.
    Matrix = 0,
    /// `nmod_poly_mullow` for each pair of entries.
    Entries = 1,
    /// `nmod_poly_mat_mul_KS`: each entry packed into one long integer.
    Packed = 2,
    /// `nmod_poly_mat_mul`, with the formulas word for word, known zeros and all.
    WordForWord = 3,
}

/// A basis job in FLINT's own form, and how it is done.
pub struct Basis {
    way: Way,
    job: *mut Job,
    words: usize,
}

impl Basis {
    fn new(way: Way, r: usize, n: usize, p: u64, a: &[u32], start: &[u32]) -> Basis {
        assert!(a.len() == r * r * n && start.len() == r * r);
        // The C side reads just these words and keeps copies.
        let job = unsafe { flint_basis_new(r as u64, n as u64, p, a.as_ptr(), start.as_ptr()) };
        Basis {
            way,
            job,
            words: r * r * n,
        }
    }

    pub fn run(&mut self) {
        unsafe { flint_basis_run(self.job, self.way as c_int) }
    }

    pub fn result(&self) -> (Vec<u32>, Vec<u32>) {
        let (mut y, mut z) = (vec![0; self.words], vec![0; self.words]);
        unsafe { flint_basis_result(self.job, y.as_mut_ptr(), z.as_mut_ptr()) };
        (y, z)
    }
}

impl Drop for Basis {
    fn drop(&mut self) {
        unsafe { flint_basis_free(self.job) }
    }
}

/// The job in all ways: three of multiplying, and the formulas word for word.
pub fn all_ways(r: usize, n: usize, p: u64, a: &[u32], start: &[u32]) -> Vec<Basis> {
    let ways = [Way::Matrix, Way::Entries, Way::Packed, Way::WordForWord];
    let job = |&way| Basis::new(way, r, n, p, a, start);
    ways.iter().map(job).collect()
}
