//! In the place of `flint.rs` where FLINT is not there: no way at all.

pub enum Basis {}

impl Basis {
    pub fn run(&mut self) {
        match *self {}
    }

    pub fn result(&self) -> (Vec<u32>, Vec<u32>) {
        match *self {}
    }
}

pub fn all_ways(_: usize, _: usize, _: u64, _: &[u32], _: &[u32]) -> Vec<Basis> {
    Vec::new()
}
