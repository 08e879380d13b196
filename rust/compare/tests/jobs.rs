//! Jobs on words and on bytes: the library against the second program, buffer for buffer.

use compare::Tally;
use pealvixen::{Basis, Method, Room, System};
use reference::jobs::{lengths, WordJob};
use reference::random::{any_byte_job, any_job, damage_job, good_job_of, sound_job};
use reference::random::{Bounds, DAMAGES, QUICK};
use reference::worked::worked;
use reference::Kind;

const LARGEST: u64 = 2_147_483_647;

/// A job on words, and where it is small enough for that the same job on bytes.
fn both(words: &mut Tally, bytes: &mut Tally, job: &WordJob) {
    words.words(job);
    bytes.bytes(&job.to_bytes());
}

fn report(what: &str, words: &Tally, bytes: &Tally) {
    words.report(&format!("{what}, words"));
    bytes.report(&format!("{what}, bytes"));
}

#[test]
fn worked_jobs() {
    let (mut words, mut bytes) = Default::default();
    for worked in worked() {
        assert_eq!(worked.job.answer(), worked.answer, "{}", worked.name);
        both(&mut words, &mut bytes, &worked.job);
    }
    report("worked jobs", &words, &bytes);
}

#[test]
fn sound_jobs() {
    let (mut words, mut bytes) = Default::default();
    let mut random = compare::random(0);
    for round in 0..4500 {
        let kind = Kind::ALL[round % 3];
        let job = good_job_of(&mut random, kind, QUICK);
        both(&mut words, &mut bytes, &job);
    }
    report("sound jobs", &words, &bytes);
    assert_eq!(words.answers[0], words.calls);
}

#[test]
fn small_primes_to_the_last_term() {
    let (mut words, mut bytes) = Default::default();
    let mut random = compare::random(1);
    for kind in Kind::ALL {
        for p in [2, 3, 5, 7, 11, 13, 17] {
            for n in 1..=p {
                for r in 1..=8 {
                    let job = sound_job(&mut random, kind, r, n, p);
                    both(&mut words, &mut bytes, &job);
                }
            }
        }
    }
    report("N from 1 to p", &words, &bytes);
}

/// Every word that is read is p-1. For a basis of order above 1 that start has no inverse; there the diagonal alone
/// is p-1 in a second job.
#[test]
fn all_words_at_their_largest() {
    let (mut words, mut bytes) = Default::default();
    for kind in Kind::ALL {
        for p in [2, 3, 5, 7, 11, 257, 65_537, 2_147_483_629, LARGEST] {
            for r in 1..=8 {
                for n in [1, 2, 3, 4, 5, 7, 8, 9, 16, 31, 64, 200] {
                    if n > p {
                        continue;
                    }
                    let read: Vec<Vec<u32>> = lengths(kind, r, n)[..kind.read_buffers()]
                        .iter()
                        .map(|&length| vec![p as u32 - 1; length as usize])
                        .collect();
                    let mut job = WordJob::with_read(kind, r, n, p, &read, u32::MAX);
                    both(&mut words, &mut bytes, &job);
                    if kind == Kind::Basis && r > 1 {
                        for (entry, word) in job.buffers[1].iter_mut().enumerate() {
                            if entry as u64 % (r + 1) != 0 {
                                *word = 0;
                            }
                        }
                        both(&mut words, &mut bytes, &job);
                    }
                }
            }
        }
    }
    report("all words p-1", &words, &bytes);
}

#[test]
fn long_jobs() {
    let (mut words, mut bytes) = Default::default();
    let mut random = compare::random(2);
    for kind in Kind::ALL {
        for (r, n) in [
            (1, 4096),
            (1, 4095),
            (2, 2049),
            (3, 1000),
            (4, 513),
            (8, 300),
        ] {
            for p in [LARGEST, 4099] {
                let job = sound_job(&mut random, kind, r, n, p);
                both(&mut words, &mut bytes, &job);
            }
        }
        let wide = Bounds {
            cells: 8192,
            widest: u64::MAX,
        };
        for _ in 0..40 {
            let job = good_job_of(&mut random, kind, wide);
            both(&mut words, &mut bytes, &job);
        }
    }
    // The largest jobs there are, but for the basis: see below.
    for kind in [Kind::System, Kind::Equation] {
        words.words(&sound_job(&mut random, kind, 8, 4096, LARGEST));
    }
    report("long jobs", &words, &bytes);
}

/// The largest basis, at which the second program would sit for a minute: column after column it is the system by
/// halving, and Y Z w is w for a random w.
#[test]
fn the_largest_basis() {
    let (r, n) = (8, 4096);
    let mut random = compare::random(7);
    let job = sound_job(&mut random, Kind::Basis, r as u64, n as u64, LARGEST);
    let (a, y0) = (&job.buffers[0], &job.buffers[1]);
    let (wide_r, wide_n) = (r as u64, n as u64);
    let mut room = Room::new();
    let basis = Basis {
        r: wide_r,
        n: wide_n,
        p: LARGEST,
        a,
        y0,
    };
    let found = basis.solve(&mut room).unwrap();
    let mut other = Room::new();
    for column in 0..r {
        let v: Vec<u32> = (0..r).map(|row| y0[row * r + column]).collect();
        let system = System {
            r: wide_r,
            n: wide_n,
            p: LARGEST,
            a,
            b: &vec![0; r * n],
            v: &v,
        };
        let y = system.solve(Method::Halving, &mut other).unwrap();
        for row in 0..r {
            assert!(y.row(row) == found.y.entry(row, column));
        }
    }

    let w: Vec<u64> = (0..r).map(|_| random.below(LARGEST)).collect();
    let mixed = |row: usize, k: usize| {
        let term = |column: usize| u64::from(found.z.entry(row, column)[k]) * w[column] % LARGEST;
        (0..r).map(term).sum::<u64>() % LARGEST
    };
    let zw: Vec<Vec<u64>> = (0..r)
        .map(|row| (0..n).map(|k| mixed(row, k)).collect())
        .collect();
    for row in 0..r {
        for k in 0..n {
            let mut sum = 0u128;
            for (column, series) in zw.iter().enumerate() {
                let left = &found.y.entry(row, column)[..=k];
                let right = series[..=k].iter().rev();
                sum += left
                    .iter()
                    .zip(right)
                    .map(|(&y, &z)| u128::from(u64::from(y) * z))
                    .sum::<u128>();
            }
            let wanted = if k == 0 { w[row] } else { 0 };
            assert_eq!((sum % u128::from(LARGEST)) as u64, wanted);
        }
    }
    println!("the largest basis: its columns by halving, and its inverse");
}

#[test]
fn any_jobs() {
    let (mut words, mut bytes): (Tally, Tally) = Default::default();
    let mut random = compare::random(3);
    for _ in 0..6000 {
        words.words(&any_job(&mut random, QUICK));
        bytes.bytes(&any_byte_job(&mut random, QUICK));
    }
    report("sound and damaged jobs", &words, &bytes);
    let wanted = |number: &usize| ![7, 9, 10].contains(number);
    assert!((0..=10)
        .filter(wanted)
        .all(|number| words.answers[number] > 50));
}

/// Each damage alone and each two at once, on every kind.
#[test]
fn two_damages_at_once() {
    let (mut words, mut bytes) = Default::default();
    let mut random = compare::random(4);
    for kind in Kind::ALL {
        for first in DAMAGES {
            for second in DAMAGES {
                for round in 0..8 {
                    let mut job = good_job_of(&mut random, kind, QUICK);
                    damage_job(&mut random, &mut job, first, QUICK);
                    if round % 4 != 0 {
                        damage_job(&mut random, &mut job, second, QUICK);
                    }
                    both(&mut words, &mut bytes, &job);
                }
            }
        }
    }
    report("one and two damages", &words, &bytes);
}

/// Each buffer too long or too short by 1 to 4 cells; in bytes most of these counts are no words.
#[test]
fn every_length_a_little_off() {
    let (mut words, mut bytes): (Tally, Tally) = Default::default();
    let mut random = compare::random(5);
    for kind in Kind::ALL {
        for (r, n, p) in [
            (1, 1, 2),
            (1, 3, 3),
            (2, 3, 5),
            (3, 5, 11),
            (8, 16, LARGEST),
        ] {
            let job = sound_job(&mut random, kind, r, n, p);
            for place in 0..5 {
                for by in 1..=4 {
                    let mut longer = job.clone();
                    let length = longer.buffers[place].len();
                    longer.buffers[place].resize(length + by, 0);
                    words.words(&longer);
                    let mut shorter = job.clone();
                    shorter.buffers[place].truncate(length.saturating_sub(by));
                    words.words(&shorter);
                    let mut longer = job.to_bytes();
                    longer.buffers[place].resize(4 * length + by, 0);
                    bytes.bytes(&longer);
                    let mut shorter = job.to_bytes();
                    shorter.buffers[place].truncate(4 * length - by);
                    bytes.bytes(&shorter);
                }
            }
        }
    }
    report("lengths a little off", &words, &bytes);
    assert_eq!(words.answers[5], words.calls);
    assert_eq!(bytes.answers[5], bytes.calls);
}

/// A word that is p in each place of each read buffer, with or without a second one behind it.
#[test]
fn every_word_too_large() {
    let (mut words, mut bytes) = Default::default();
    let mut random = compare::random(6);
    for kind in Kind::ALL {
        for (r, n, p) in [(1, 2, 2), (2, 3, 3), (3, 4, 257), (2, 5, LARGEST)] {
            let job = sound_job(&mut random, kind, r, n, p);
            for place in 0..kind.read_buffers() {
                for index in 0..job.buffers[place].len() {
                    let mut one = job.clone();
                    one.buffers[place][index] = p as u32;
                    both(&mut words, &mut bytes, &one);
                    *one.buffers[kind.read_buffers() - 1].last_mut().unwrap() = u32::MAX;
                    both(&mut words, &mut bytes, &one);
                }
            }
        }
    }
    report("words too large", &words, &bytes);
    assert_eq!(words.answers[6], words.calls);
}
