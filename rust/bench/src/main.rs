//! Times of the proved jobs beside other ways to the same series, on one machine in one run. Prints tables of times and
//! ratios; nothing here passes or fails, but that all ways come to the same words.

mod bytes;
mod equation;
#[cfg_attr(not(feature = "flint"), path = "no_flint.rs")]
mod flint;
mod halving;
mod naive;
mod newton;
mod sheets;
mod sums;
mod translation;
mod turns;

/// The modulus of all jobs.
const P: u32 = 2147483647;

/// The numbers of terms of all tables but the short one.
const TERMS: [usize; 5] = [64, 256, 1024, 2048, 4096];

fn random_words(seed: &mut u64, count: usize) -> Vec<u32> {
    (0..count)
        .map(|_| {
            *seed = seed
                .wrapping_mul(6364136223846793005)
                .wrapping_add(1442695040888963407);
            ((*seed >> 33) % P as u64) as u32
        })
        .collect()
}

/// Prints the tables that are named, or all.
fn main() {
    let tables: [(&str, fn()); 7] = [
        ("halving", halving::systems),
        ("systems", newton::systems),
        ("bases", newton::bases),
        ("equations", equation::equations),
        ("translation", translation::translations),
        ("short", bytes::short_jobs),
        ("sheets", sheets::sheets),
    ];
    let chosen: Vec<String> = std::env::args().skip(1).collect();
    for (name, print) in tables {
        if chosen.is_empty() || chosen.iter().any(|word| word == name) {
            print();
        }
    }
}
