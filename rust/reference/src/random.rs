//! Repeatable random jobs and sheets, sound and damaged ones.
//!
//! Everything is drawn from one small generator, so the same seed always gives
//! the same jobs. A sound job is made first; damages are then done to it, one
//! or two at once. What the answer must be is not decided here: the solver and
//! the readers of this program say it, whatever the damage came to.

use crate::field::is_prime;
use crate::jobs::{lengths, ByteJob, WordJob, LARGEST_MODULUS, LARGEST_ORDER, MOST_TERMS};
use crate::jobs::{Words, SMALL_JOB};
use crate::sheets::{result_lengths, write_result, ROOM, TEXT};
use crate::{Answer, Kind};

/// The seed to use where no other one is wished.
pub const SEED: u64 = 0x7065_616c_7669_7865;

/// The generator splitmix64: a counter with a large odd step, its value well mixed.
#[derive(Clone, Debug)]
pub struct Random {
    state: u64,
}

impl Random {
    pub fn new(seed: u64) -> Random {
        Random { state: seed }
    }

    /// The next 64 bits.
    pub fn draw(&mut self) -> u64 {
        self.state = self.state.wrapping_add(0x9e37_79b9_7f4a_7c15);
        let mut mixed = self.state;
        mixed = (mixed ^ (mixed >> 30)).wrapping_mul(0xbf58_476d_1ce4_e5b9);
        mixed = (mixed ^ (mixed >> 27)).wrapping_mul(0x94d0_49bb_1331_11eb);
        mixed ^ (mixed >> 31)
    }

    /// A number from 0 to bound - 1; 0 where the bound is 0.
    pub fn below(&mut self, bound: u64) -> u64 {
        self.draw() % bound.max(1)
    }

    /// A number from low to high, both included.
    pub fn between(&mut self, low: u64, high: u64) -> u64 {
        low + self.below(high - low + 1)
    }

    /// True once in so many times.
    pub fn one_in(&mut self, times: u64) -> bool {
        self.below(times) == 0
    }

    /// An index into something of this length.
    pub fn index(&mut self, length: usize) -> usize {
        self.below(length as u64) as usize
    }

    /// One of the list.
    pub fn pick<T: Copy>(&mut self, list: &[T]) -> T {
        list[self.index(list.len())]
    }

    /// One of the three kinds.
    pub fn kind(&mut self) -> Kind {
        self.pick(&Kind::ALL)
    }
}

/// How far random jobs go: the largest r*r*N of a sound job, and the largest
/// number that a damaged r, N or p may be (so that it fits the type that the
/// tried operation takes).
#[derive(Clone, Copy, Debug)]
pub struct Bounds {
    pub cells: u64,
    pub widest: u64,
}

/// Small jobs, quick to solve, with any number of 64 bits as a wrong r, N or p.
pub const QUICK: Bounds = Bounds {
    cells: 256,
    widest: u64::MAX,
};

const SMALL_PRIMES: [u64; 16] = [2, 3, 5, 7, 11, 13, 17, 19, 23, 29, 31, 37, 61, 97, 127, 131];
const MIDDLE_PRIMES: [u64; 8] = [251, 257, 1021, 1031, 4093, 4099, 65521, 65537];
const LARGE_PRIMES: [u64; 8] = [
    46_337,
    46_349,
    1_000_000_007,
    1_073_741_789,
    1_073_741_827,
    2_147_483_587,
    2_147_483_629,
    2_147_483_647,
];

/// Moduli to be refused: too small, too large, or composite.
const WRONG_MODULI: [u64; 40] = [
    0,
    1,
    4,
    6,
    8,
    9,
    10,
    15,
    16,
    21,
    25,
    49,
    121,
    169,
    289,
    341,
    561,
    1105,
    1729,
    2047,
    3277,
    4087,
    4096,
    65_535,
    65_536,
    1_373_653,
    25_326_001,
    // The square of the largest prime whose square is in range, and a product
    // of two neighbouring primes.
    46_337 * 46_337,
    46_327 * 46_337,
    2_147_483_645,
    2_147_483_646,
    2_147_483_648,
    // Primes beyond the range.
    2_147_483_659,
    4_294_967_291,
    4_294_967_295,
    4_294_967_296,
    // These are 5 and 7 in their low 32 bits.
    4_294_967_301,
    4_294_967_303,
    (1 << 61) - 1,
    u64::MAX,
];

const WRONG_ORDERS: [u64; 14] = [
    0,
    9,
    10,
    16,
    64,
    255,
    256,
    257,
    65_537,
    2_147_483_648,
    4_294_967_295,
    4_294_967_296,
    4_294_967_297,
    u64::MAX,
];

const WRONG_TERMS: [u64; 12] = [
    0,
    4097,
    4098,
    5000,
    8192,
    65_536,
    65_537,
    2_147_483_647,
    4_294_967_295,
    4_294_967_296,
    4_294_967_297,
    u64::MAX,
];

/// A prime of any size, the small ones more often.
pub fn some_prime(random: &mut Random) -> u64 {
    match random.below(8) {
        0..=3 => random.pick(&SMALL_PRIMES),
        4 => random.pick(&MIDDLE_PRIMES),
        5 => random.pick(&LARGE_PRIMES),
        6 => 2_147_483_647,
        _ => loop {
            let most = LARGEST_MODULUS >> random.below(30);
            let candidate = random.between(2, most.max(2));
            if is_prime(candidate) {
                break candidate;
            }
        },
    }
}

/// How the words of a job look.
#[derive(Clone, Copy, Debug)]
enum Look {
    Any,
    Zeros,
    Largest,
    Sparse,
    Constant,
    Small,
    Edges,
}

const LOOKS: [Look; 9] = [
    Look::Any,
    Look::Any,
    Look::Any,
    Look::Zeros,
    Look::Largest,
    Look::Sparse,
    Look::Constant,
    Look::Small,
    Look::Edges,
];

/// Residues with that look, in series of n terms.
fn residues(random: &mut Random, look: Look, count: u64, n: u64, p: u64) -> Vec<u32> {
    (0..count)
        .map(|place| {
            let any = random.below(p);
            let word = match look {
                Look::Any => any,
                Look::Zeros => 0,
                Look::Largest => p - 1,
                Look::Sparse if random.one_in(5) => any,
                Look::Constant if place % n == 0 => any,
                Look::Sparse | Look::Constant => 0,
                Look::Small => random.below(4) % p,
                Look::Edges => random.pick(&[0, 1 % p, p - 1, p / 2, (p / 2 + 1) % p]),
            };
            word as u32
        })
        .collect()
}

/// A matrix of residues with an inverse: a diagonal without zeros, then rows
/// swapped and multiples of rows added to others.
fn invertible(random: &mut Random, r: u64, p: u64) -> Vec<u32> {
    let r = r as usize;
    let mut rows = vec![vec![0; r]; r];
    let look = random.below(4);
    for (place, row) in rows.iter_mut().enumerate() {
        row[place] = match look {
            0 => 1,
            1 => p - 1,
            _ => random.between(1, p - 1),
        };
    }
    if look != 1 {
        for _ in 0..random.below(4 * r as u64) {
            let (one, other) = (random.index(r), random.index(r));
            if one == other {
                continue;
            }
            if random.one_in(2) {
                rows.swap(one, other);
            } else {
                let factor = random.below(p);
                let added = rows[one].clone();
                for (word, add) in rows[other].iter_mut().zip(added) {
                    *word = (*word + factor * add) % p;
                }
            }
        }
    }
    rows.concat().into_iter().map(|word| word as u32).collect()
}

/// A matrix of residues without an inverse.
fn singular(random: &mut Random, r: u64, p: u64) -> Vec<u32> {
    let size = r as usize;
    let mut matrix: Vec<u64> = invertible(random, r, p)
        .iter()
        .map(|&word| u64::from(word))
        .collect();
    let line = random.index(size);
    match random.below(5) {
        0 => matrix.fill(0),
        1 => (0..size).for_each(|k| matrix[line * size + k] = 0),
        2 => (0..size).for_each(|k| matrix[k * size + line] = 0),
        3 if size > 1 => matrix.fill(p - 1),
        // One row becomes a sum of multiples of the others.
        _ => {
            let factors: Vec<u64> = (0..size).map(|_| random.below(p)).collect();
            for k in 0..size {
                matrix[line * size + k] = (0..size)
                    .filter(|&row| row != line)
                    .map(|row| factors[row] * matrix[row * size + k] % p)
                    .sum::<u64>()
                    % p;
            }
        }
    }
    matrix.iter().map(|&word| word as u32).collect()
}

/// A sound job of any kind, with r*r*N up to the bound.
pub fn good_job(random: &mut Random, bounds: Bounds) -> WordJob {
    let kind = random.kind();
    good_job_of(random, kind, bounds)
}

/// A sound job of this kind, with r*r*N up to the bound.
pub fn good_job_of(random: &mut Random, kind: Kind, bounds: Bounds) -> WordJob {
    let cells = bounds.cells.max(1);
    let largest_r = (1..=LARGEST_ORDER).take_while(|r| r * r <= cells).count() as u64;
    let r = random.between(1, largest_r);
    let p = some_prime(random);
    let most = p.min(MOST_TERMS).min(cells / (r * r));
    let n = match random.below(4) {
        0 => most,
        1 => random.between(1, most.min(9)),
        2 => random.between(most - most.min(3) + 1, most),
        _ => random.between(1, most),
    };
    sound_job(random, kind, r, n, p)
}

/// A sound job with these numbers, which must be in range.
pub fn sound_job(random: &mut Random, kind: Kind, r: u64, n: u64, p: u64) -> WordJob {
    // Most jobs have one look throughout, so that all words can be p - 1.
    let throughout = random.pick(&LOOKS);
    let mixed = random.one_in(3);
    let mut buffers: [Vec<u32>; 5] = Default::default();
    for (place, &length) in lengths(kind, r, n).iter().enumerate() {
        let look = if mixed {
            random.pick(&LOOKS)
        } else {
            throughout
        };
        buffers[place] = if place < kind.read_buffers() {
            residues(random, look, length, n, p)
        } else {
            // Whatever stood there before does not matter.
            (0..length).map(|_| random.draw() as u32).collect()
        };
    }
    match kind {
        Kind::System => (),
        Kind::Basis => buffers[1] = invertible(random, r, p),
        Kind::Equation => {
            let leading = &mut buffers[0][(r * n) as usize];
            if *leading == 0 {
                *leading = random.between(1, p - 1) as u32;
            }
        }
    }
    WordJob {
        kind,
        r,
        n,
        p,
        buffers,
    }
}

/// What can be wrong with a job.
#[derive(Clone, Copy, Debug, PartialEq, Eq)]
pub enum Damage {
    /// r outside 1..8.
    Order,
    /// N outside 1..4096.
    Terms,
    /// p too small, too large or composite.
    Modulus,
    /// N greater than p.
    TermsOverModulus,
    /// A buffer too long or too short.
    Length,
    /// A word of a read buffer that is p or more.
    Word,
    /// Y0 without an inverse (nothing happens to another kind).
    Singular,
    /// a_r(0) = 0 (nothing happens to another kind).
    Leading,
    /// r*r*N over 1024, for byte jobs and sheets; no damage to a word job.
    Large,
}

pub const DAMAGES: [Damage; 9] = [
    Damage::Order,
    Damage::Terms,
    Damage::Modulus,
    Damage::TermsOverModulus,
    Damage::Length,
    Damage::Word,
    Damage::Singular,
    Damage::Leading,
    Damage::Large,
];

/// A number of the list that is at most the widest one allowed.
fn pick_up_to(random: &mut Random, list: &[u64], widest: u64) -> u64 {
    let allowed: Vec<u64> = list.iter().copied().filter(|&x| x <= widest).collect();
    random.pick(&allowed)
}

/// Gives all buffers the lengths that the job's numbers ask for, where these
/// are not too large to be made.
fn fit(random: &mut Random, job: &mut WordJob) {
    if job.r > 16 || job.n > 8192 || job.r * job.r * job.n > 20_000 {
        return;
    }
    let bound = job.p.clamp(1, 1 << 32);
    for (buffer, length) in job.buffers.iter_mut().zip(lengths(job.kind, job.r, job.n)) {
        buffer.truncate(length as usize);
        while (buffer.len() as u64) < length {
            buffer.push(random.below(bound) as u32);
        }
    }
}

/// Does one damage to a job. Where r, N or p changes, the buffers follow it
/// sometimes, and sometimes stay as they were.
pub fn damage_job(random: &mut Random, job: &mut WordJob, damage: Damage, bounds: Bounds) {
    let follow = random.one_in(2);
    match damage {
        Damage::Order => {
            job.r = pick_up_to(random, &WRONG_ORDERS, bounds.widest);
            if follow {
                fit(random, job);
            }
        }
        Damage::Terms => {
            job.n = pick_up_to(random, &WRONG_TERMS, bounds.widest);
            if follow {
                fit(random, job);
            }
        }
        Damage::Modulus => {
            job.p = match random.below(4) {
                // Any number beyond the range.
                0 if bounds.widest > LARGEST_MODULUS => {
                    let above = bounds.widest - LARGEST_MODULUS;
                    LARGEST_MODULUS + 1 + random.below(above)
                }
                // A random composite number in range.
                1 => loop {
                    let most = LARGEST_MODULUS >> random.below(28);
                    let candidate = random.between(4, most);
                    if !is_prime(candidate) {
                        break candidate;
                    }
                },
                _ => pick_up_to(random, &WRONG_MODULI, bounds.widest),
            };
        }
        Damage::TermsOverModulus => {
            if job.p >= MOST_TERMS || job.p < 2 {
                job.p = random.pick(&SMALL_PRIMES);
                for buffer in &mut job.buffers {
                    for word in buffer.iter_mut() {
                        *word %= job.p as u32;
                    }
                }
            }
            job.n = if random.one_in(2) {
                job.p + 1
            } else {
                random.between(job.p + 1, MOST_TERMS.min(job.p + 40))
            };
            if follow {
                fit(random, job);
            }
        }
        Damage::Length => {
            let place = random.index(5);
            let buffer = &mut job.buffers[place];
            match random.below(6) {
                0 => buffer.clear(),
                1 => {
                    let length = random.index(buffer.len());
                    buffer.truncate(length);
                }
                2 => {
                    let again = buffer.clone();
                    buffer.extend(again);
                }
                3 => buffer.extend([0; 7]),
                4 => buffer.push(0),
                _ => {
                    buffer.pop();
                }
            }
        }
        Damage::Word => {
            let place = random.index(job.kind.read_buffers());
            let buffer = &mut job.buffers[place];
            let p = job.p;
            if !buffer.is_empty() && p <= u64::from(u32::MAX) {
                for _ in 0..random.between(1, 2) {
                    let index = match random.below(4) {
                        0 => 0,
                        1 => buffer.len() - 1,
                        _ => random.index(buffer.len()),
                    };
                    let top = u64::from(u32::MAX);
                    let choices = [p, p, (p + 1).min(top), (2 * p).min(top), top];
                    buffer[index] = random.pick(&choices) as u32;
                }
            }
        }
        Damage::Singular => {
            let in_range = (1..=LARGEST_ORDER).contains(&job.r) && (2..1 << 31).contains(&job.p);
            if job.kind == Kind::Basis && in_range {
                job.buffers[1] = singular(random, job.r, job.p);
            }
        }
        Damage::Leading => {
            if job.kind == Kind::Equation && job.r <= LARGEST_ORDER && job.n <= MOST_TERMS {
                if let Some(word) = job.buffers[0].get_mut((job.r * job.n) as usize) {
                    *word = 0;
                }
            }
        }
        Damage::Large => {
            job.r = random.between(1, LARGEST_ORDER);
            let least = SMALL_JOB / (job.r * job.r) + 1;
            job.n = if random.one_in(4) {
                random.between(least, MOST_TERMS)
            } else {
                random.between(least, MOST_TERMS.min(least + 2))
            };
            if job.p < job.n {
                job.p = random.pick(&[4099, 65_537, LARGEST_MODULUS]);
            }
            if follow {
                fit(random, job);
            }
        }
    }
}

/// A damage that does something to a job of this kind.
fn some_damage(random: &mut Random, kind: Kind, large_counts: bool) -> Damage {
    loop {
        let damage = random.pick(&DAMAGES);
        let does_something = match damage {
            Damage::Singular => kind == Kind::Basis,
            Damage::Leading => kind == Kind::Equation,
            Damage::Large => large_counts,
            _ => true,
        };
        if does_something {
            break damage;
        }
    }
}

/// A job with so many damages, each drawn anew. A later damage can undo or
/// hide an earlier one.
pub fn damaged_job(random: &mut Random, bounds: Bounds, damages: usize) -> WordJob {
    let mut job = good_job(random, bounds);
    for _ in 0..damages {
        let damage = some_damage(random, job.kind, false);
        damage_job(random, &mut job, damage, bounds);
    }
    job
}

/// A job that is sound, damaged once or damaged twice.
pub fn any_job(random: &mut Random, bounds: Bounds) -> WordJob {
    let damages = random.index(3);
    damaged_job(random, bounds, damages)
}

/// A sound byte job, with r*r*N up to the bound and to 1024.
pub fn good_byte_job(random: &mut Random, bounds: Bounds) -> ByteJob {
    good_job(random, small(bounds)).to_bytes()
}

/// A byte job with so many damages. One more is possible here: bytes missing
/// or too many, so that four does not divide their count.
pub fn damaged_byte_job(random: &mut Random, bounds: Bounds, damages: usize) -> ByteJob {
    let mut job = good_job(random, small(bounds));
    let mut odd_lengths = 0;
    for _ in 0..damages {
        if random.one_in(8) {
            odd_lengths += 1;
        } else {
            let damage = some_damage(random, job.kind, true);
            damage_job(random, &mut job, damage, bounds);
        }
    }
    let mut job = job.to_bytes();
    for _ in 0..odd_lengths {
        let place = random.index(5);
        let count = random.between(1, 5);
        let buffer = &mut job.buffers[place];
        let longer = random.one_in(2);
        for _ in 0..count {
            if longer {
                buffer.push(0);
            } else {
                buffer.pop();
            }
        }
    }
    job
}

/// A byte job that is sound, damaged once or damaged twice.
pub fn any_byte_job(random: &mut Random, bounds: Bounds) -> ByteJob {
    let damages = random.index(3);
    damaged_byte_job(random, bounds, damages)
}

/// The same bounds, but for a byte job or a sheet.
fn small(bounds: Bounds) -> Bounds {
    Bounds {
        cells: bounds.cells.min(SMALL_JOB),
        widest: bounds.widest,
    }
}

/// The job sheet of a job, each word written as it is.
pub fn plain_job_sheet(job: &WordJob) -> Vec<u8> {
    job_sheet(job, i64::from)
}

/// A job sheet of a job, each word written as some number of its class.
pub fn random_job_sheet(random: &mut Random, job: &WordJob) -> Vec<u8> {
    let habit = random.below(4);
    job_sheet(job, |word| {
        let choice = match habit {
            0 => 0,
            1 => random.below(3),
            2 => random.between(3, 5),
            _ => random.below(6),
        };
        let (word, p) = (i128::from(word), i128::from(job.p.max(1)));
        // word + q p lies between the two ends for q from `least` to `most`.
        let least = -((word - i128::from(i64::MIN)).div_euclid(p));
        let most = (i128::from(i64::MAX) - word).div_euclid(p);
        let q = match choice {
            0 => 0,
            1 => -1,
            2 => 1,
            3 => least,
            4 => most,
            _ => i128::from(random.draw() as i64).div_euclid(p),
        };
        (word + q.clamp(least, most) * p) as i64
    })
}

/// The text of a job sheet, the numbers chosen by `number`. Buffers that are
/// too short end the lines early; what is too much is left out.
fn job_sheet(job: &WordJob, mut number: impl FnMut(u32) -> i64) -> Vec<u8> {
    let mut text = format!("{}\t{}\t{}\t{}\n", job.kind.name(), job.r, job.n, job.p);
    let (r, n) = (job.r as usize, job.n as usize);
    let mut put = |begin: String, buffer: &[u32], from: usize, count: usize| {
        text.push_str(&begin);
        for &word in buffer.iter().skip(from).take(count) {
            text.push_str(&format!("\t{}", number(word)));
        }
        text.push('\n');
    };
    let [one, two, three, _, _] = &job.buffers;
    if job.kind != Kind::Equation {
        for entry in 0..r * r {
            let begin = format!("A\t{}\t{}", entry / r + 1, entry % r + 1);
            put(begin, one, entry * n, n);
        }
    }
    match job.kind {
        Kind::System => {
            for i in 0..r {
                put(format!("b\t{}", i + 1), two, i * n, n);
            }
            put("v".to_string(), three, 0, r);
        }
        Kind::Basis => {
            for i in 0..r {
                put(format!("V\t{}", i + 1), two, i * r, r);
            }
        }
        Kind::Equation => {
            for i in 0..=r {
                put(format!("a\t{i}"), one, i * n, n);
            }
            put("b".to_string(), two, 0, n);
            put("start".to_string(), three, 0, r);
        }
    }
    text.into_bytes()
}

/// A sound job sheet, with r*r*N up to the bound and to 1024.
pub fn good_sheet(random: &mut Random, bounds: Bounds) -> Vec<u8> {
    let job = good_job(random, small(bounds));
    random_job_sheet(random, &job)
}

/// A sound result sheet, made of random words.
pub fn good_result_sheet(random: &mut Random, bounds: Bounds) -> Vec<u8> {
    let call = good_writer_call(random, bounds);
    match call.answer() {
        Answer::Done(text) => text,
        Answer::Refused { .. } => unreachable!("a sound call of the writer"),
    }
}

/// Numbers that a line may hold, in right and in wrong forms, at every edge.
const NUMBER_FORMS: [&str; 52] = [
    "0",
    "1",
    "-1",
    "9",
    "10",
    "-10",
    "2147483646",
    "2147483647",
    "2147483648",
    "-2147483647",
    "-2147483648",
    "-2147483649",
    "4294967295",
    "4294967296",
    "-4294967296",
    "999999999999999999",
    "1000000000000000000",
    "9223372036854775799",
    "9223372036854775800",
    "9223372036854775806",
    "9223372036854775807",
    "9223372036854775808",
    "9223372036854775809",
    "9223372036854775810",
    "9300000000000000000",
    "-9223372036854775807",
    "-9223372036854775808",
    "-9223372036854775809",
    "-9223372036854775810",
    "-9300000000000000000",
    "10000000000000000000",
    "-10000000000000000000",
    "18446744073709551615",
    "18446744073709551616",
    "-18446744073709551616",
    "92233720368547758070",
    "99999999999999999999999999999999999999999999",
    "340282366920938463463374607431768211457",
    "00000000000000000000",
    "09223372036854775807",
    "-09223372036854775808",
    "-0",
    "00",
    "01",
    "-01",
    "+1",
    "+0",
    "-",
    "+",
    "--1",
    "1-",
    "",
];

/// Header numbers in right and in wrong forms.
const HEADER_FORMS: [&str; 42] = [
    "0",
    "1",
    "2",
    "3",
    "4",
    "5",
    "7",
    "8",
    "9",
    "10",
    "16",
    "17",
    "256",
    "257",
    "1024",
    "1025",
    "4096",
    "4097",
    "2147483629",
    "2147483646",
    "2147483647",
    "2147483648",
    "4294967295",
    "4294967296",
    "4294967297",
    "4294967303",
    "9999999998",
    "9999999999",
    "10000000000",
    "99999999999",
    "18446744073709551617",
    "0000000000",
    "0000000001",
    "00",
    "01",
    "08",
    "-1",
    "-0",
    "+1",
    "1.",
    "1x",
    "",
];

/// Words at the beginning of lines, right and wrong ones.
const WORDS: [&str; 18] = [
    "system", "basis", "equation", "result", "refused", "System", "systems", "bas", "", "A", "a",
    "b", "v", "V", "start", "y", "Y", "Z",
];

/// Bytes worth adding or putting in the place of others.
const BYTES: [u8; 24] = [
    b'\t', b'\t', b'\n', b'\n', b'\r', b' ', 0, b'0', b'0', b'1', b'5', b'9', b'-', b'-', b'+',
    b'.', b',', b'A', b'y', b'_', 0x0b, 0x80, 0xa0, 0xff,
];

/// Does one damage to a sheet, be it a job sheet or a result sheet. By chance
/// the sheet can still be sound afterwards.
pub fn damage_sheet(random: &mut Random, text: &mut Vec<u8>) {
    match random.below(30) {
        0..=6 => damage_bytes(random, text),
        7..=12 => damage_fields(random, text),
        13..=17 => damage_lines(random, text),
        18..=22 => damage_numbers(random, text),
        23..=25 => damage_header(random, text),
        26..=28 => damage_end(random, text),
        _ => pad(random, text),
    }
}

/// Bytes dropped, added, changed and swapped.
fn damage_bytes(random: &mut Random, text: &mut Vec<u8>) {
    if text.is_empty() {
        return;
    }
    let place = random.index(text.len());
    let byte = if random.one_in(8) {
        random.draw() as u8
    } else {
        random.pick(&BYTES)
    };
    match random.below(6) {
        0 => {
            text.remove(place);
        }
        1 => text.insert(place, byte),
        2 => text[place] = byte,
        3 => {
            let next = (place + 1) % text.len();
            text.swap(place, next);
        }
        4 => {
            let other = random.index(text.len());
            text.swap(place, other);
        }
        _ => {
            // At a tab or a line feed something happens more often.
            let marks: Vec<usize> = (0..text.len())
                .filter(|&p| text[p] == b'\t' || text[p] == b'\n')
                .collect();
            if !marks.is_empty() {
                let mark = random.pick(&marks);
                match random.below(4) {
                    0 => text[mark] = byte,
                    1 => text.insert(mark, byte),
                    2 => text.insert(mark + 1, byte),
                    _ => {
                        text.remove(mark);
                    }
                }
            }
        }
    }
}

/// A sheet taken apart into lines and fields. What stands behind the last line
/// feed is the last line.
fn take_apart(text: &[u8]) -> Vec<Vec<Vec<u8>>> {
    text.split(|&byte| byte == b'\n')
        .map(|line| {
            line.split(|&byte| byte == b'\t')
                .map(|field| field.to_vec())
                .collect()
        })
        .collect()
}

/// The same sheet put together again.
fn put_together(lines: &[Vec<Vec<u8>>]) -> Vec<u8> {
    let lines: Vec<Vec<u8>> = lines.iter().map(|line| line.join(&b'\t')).collect();
    lines.join(&b'\n')
}

/// A line other than the empty piece behind the last line feed.
fn some_line(random: &mut Random, lines: &[Vec<Vec<u8>>]) -> usize {
    random.index((lines.len() - 1).max(1))
}

/// Fields missing, doubled, emptied, swapped, or with another word.
fn damage_fields(random: &mut Random, text: &mut Vec<u8>) {
    let mut lines = take_apart(text);
    let one = some_line(random, &lines);
    let field = random.index(lines[one].len());
    match random.below(6) {
        0 => {
            lines[one].remove(field);
        }
        1 => {
            let again = lines[one][field].clone();
            lines[one].insert(field, again);
        }
        2 => lines[one][field].clear(),
        3 => {
            let other = random.index(lines[one].len());
            lines[one].swap(field, other);
        }
        4 => {
            // A field changes places with one of another line.
            let two = some_line(random, &lines);
            let other = random.index(lines[two].len());
            let from_one = lines[one][field].clone();
            let from_two = std::mem::replace(&mut lines[two][other], from_one);
            lines[one][field] = from_two;
        }
        _ => {
            let place = random.index(lines[one].len().min(3));
            lines[one][place] = random.pick(&WORDS).as_bytes().to_vec();
        }
    }
    *text = put_together(&lines);
}

/// Lines missing, doubled, emptied, swapped, joined, or ended by a carriage
/// return too.
fn damage_lines(random: &mut Random, text: &mut Vec<u8>) {
    let mut lines = take_apart(text);
    let one = some_line(random, &lines);
    match random.below(8) {
        0 => {
            lines.remove(one);
        }
        1 => {
            let again = lines[one].clone();
            lines.insert(one, again);
        }
        2 => lines[one] = vec![Vec::new()],
        3 => lines.insert(one, vec![Vec::new()]),
        4 => {
            let two = some_line(random, &lines);
            lines.swap(one, two);
        }
        5 => {
            let two = (one + 1) % lines.len();
            lines.swap(one, two);
        }
        6 => {
            if let Some(field) = lines[one].last_mut() {
                field.push(b'\r');
            }
        }
        _ => {
            let last = lines.len() - 1;
            for line in &mut lines[..last] {
                if let Some(field) = line.last_mut() {
                    field.push(b'\r');
                }
            }
        }
    }
    *text = put_together(&lines);
}

/// A field behind the header becomes a number at an edge, in a right or in a
/// wrong form, or a number near p, p/2 and their opposites.
fn damage_numbers(random: &mut Random, text: &mut Vec<u8>) {
    let mut lines = take_apart(text);
    let p: i64 = lines[0]
        .last()
        .and_then(|field| std::str::from_utf8(field).ok())
        .and_then(|field| field.parse().ok())
        .unwrap_or(7);
    let one = some_line(random, &lines).max(1) % lines.len();
    for _ in 0..random.between(1, 2) {
        let field = random.index(lines[one].len());
        let form = if random.one_in(3) {
            let near = random.pick(&[p, p / 2, p.wrapping_mul(2), 0]);
            let number = near.wrapping_add(random.between(0, 4) as i64 - 2);
            let number = if random.one_in(2) {
                number
            } else {
                number.wrapping_neg()
            };
            number.to_string()
        } else {
            random.pick(&NUMBER_FORMS).to_string()
        };
        lines[one][field] = form.into_bytes();
    }
    *text = put_together(&lines);
}

/// A number of the header, or two, changes.
fn damage_header(random: &mut Random, text: &mut Vec<u8>) {
    let mut lines = take_apart(text);
    for _ in 0..random.between(1, 2) {
        // The last three fields are r, N and p.
        let last = lines[0].len() - 1;
        let field = last - random.index(3).min(last);
        let form = if random.one_in(6) {
            random.pick(&WRONG_MODULI).to_string()
        } else {
            random.pick(&HEADER_FORMS).to_string()
        };
        lines[0][field] = form.into_bytes();
    }
    *text = put_together(&lines);
}

/// The end missing, or something behind it.
fn damage_end(random: &mut Random, text: &mut Vec<u8>) {
    match random.below(7) {
        0 => {
            text.pop();
        }
        1 => {
            let length = random.index(text.len() + 1);
            text.truncate(length);
        }
        2 => {
            // Cut behind a line feed.
            let length = random.index(text.len() + 1);
            text.truncate(length);
            while !text.is_empty() && text.last() != Some(&b'\n') {
                text.pop();
            }
        }
        3 => text.push(b'\n'),
        4 => text.push(random.pick(&BYTES)),
        5 => {
            let length = text.len() - text.len() / 4;
            let again = text[length..].to_vec();
            text.extend(again);
        }
        _ => {
            if random.one_in(4) {
                text.clear();
            } else {
                let first = text.iter().position(|&byte| byte == b'\n').unwrap_or(0);
                text.truncate(first + random.index(2));
            }
        }
    }
}

/// Padded to 65536 or 65537 bytes, or near it: behind the end, in front, or
/// somewhere inside.
fn pad(random: &mut Random, text: &mut Vec<u8>) {
    let wanted = random.pick(&[TEXT - 1, TEXT, TEXT, TEXT + 1, TEXT + 1, TEXT + 2, 2 * TEXT]);
    if text.len() >= wanted {
        return;
    }
    let byte = random.pick(&[b'\n', b'\t', b'0', b'1', b' ', 0]);
    let place = match random.below(4) {
        0 => 0,
        1 => random.index(text.len() + 1),
        _ => text.len(),
    };
    let rest = text.split_off(place);
    text.resize(wanted - rest.len(), byte);
    text.extend(rest);
}

/// A job sheet with so many damages. Some are done to the job before it is
/// written down, the others to the text.
pub fn damaged_sheet(random: &mut Random, bounds: Bounds, damages: usize) -> Vec<u8> {
    let mut job = good_job(random, small(bounds));
    let mut to_text = 0;
    for _ in 0..damages {
        if random.one_in(4) {
            let damage = some_damage(random, job.kind, true);
            let mut other = job.clone();
            damage_job(random, &mut other, damage, bounds);
            // Too many lines cannot be written down.
            if other.r <= 16 && other.n <= 8192 {
                job = other;
                continue;
            }
        }
        to_text += 1;
    }
    let mut text = random_job_sheet(random, &job);
    for _ in 0..to_text {
        damage_sheet(random, &mut text);
    }
    text
}

/// A job sheet that is sound, damaged once or damaged twice.
pub fn any_sheet(random: &mut Random, bounds: Bounds) -> Vec<u8> {
    let damages = random.index(3);
    damaged_sheet(random, bounds, damages)
}

/// A result sheet with so many damages.
pub fn damaged_result_sheet(random: &mut Random, bounds: Bounds, damages: usize) -> Vec<u8> {
    let mut text = good_result_sheet(random, bounds);
    for _ in 0..damages {
        damage_sheet(random, &mut text);
    }
    text
}

/// A result sheet that is sound, damaged once or damaged twice.
pub fn any_result_sheet(random: &mut Random, bounds: Bounds) -> Vec<u8> {
    let damages = random.index(3);
    damaged_result_sheet(random, bounds, damages)
}

/// The lengths of so many rooms: most often right, else with a wrong one.
pub fn room_lengths(random: &mut Random, rooms: usize) -> Vec<usize> {
    let mut lengths = vec![ROOM; rooms];
    if random.one_in(8) {
        for _ in 0..random.between(1, 2) {
            let room = random.index(rooms);
            lengths[room] = random.pick(&[0, 1, ROOM - 1, ROOM, ROOM + 1, 2 * ROOM]);
        }
    }
    lengths
}

/// A call of the writer: kind, r, N, p, the words, and the length of the
/// buffer for text.
#[derive(Clone, Debug, PartialEq, Eq)]
pub struct WriterCall {
    pub kind: Kind,
    pub r: u64,
    pub n: u64,
    pub p: u64,
    pub words: Words,
    pub text_length: usize,
}

impl WriterCall {
    /// The answer.
    pub fn answer(&self) -> Answer<Vec<u8>> {
        let words: Vec<&[u32]> = self.words.iter().map(|w| &w[..]).collect();
        write_result(self.kind, self.r, self.n, self.p, &words, self.text_length)
    }
}

/// A sound call of the writer.
pub fn good_writer_call(random: &mut Random, bounds: Bounds) -> WriterCall {
    // Any residues will do; only the numbers of the job are used.
    let job = good_job(random, small(bounds));
    let look = random.pick(&LOOKS);
    let words = result_lengths(job.kind, job.r, job.n)
        .into_iter()
        .map(|length| residues(random, look, length, job.n, job.p))
        .collect();
    WriterCall {
        kind: job.kind,
        r: job.r,
        n: job.n,
        p: job.p,
        words,
        text_length: TEXT,
    }
}

/// A call of the writer with so many damages.
pub fn damaged_writer_call(random: &mut Random, bounds: Bounds, damages: usize) -> WriterCall {
    let mut call = good_writer_call(random, bounds);
    for _ in 0..damages {
        let place = random.index(call.words.len());
        match random.below(8) {
            0 => call.r = pick_up_to(random, &WRONG_ORDERS, bounds.widest),
            1 => call.n = pick_up_to(random, &WRONG_TERMS, bounds.widest),
            2 => call.p = pick_up_to(random, &WRONG_MODULI, bounds.widest),
            3 => {
                call.p = random.pick(&SMALL_PRIMES);
                call.n = call.p + 1;
            }
            4 => {
                call.r = random.between(1, LARGEST_ORDER);
                call.n = SMALL_JOB / (call.r * call.r) + random.between(0, 1);
                call.p = LARGEST_MODULUS;
            }
            5 => {
                if random.one_in(2) {
                    call.words[place].push(0);
                } else {
                    call.words[place].pop();
                }
            }
            6 => call.text_length = random.pick(&[0, 1, TEXT - 1, TEXT + 1, 2 * TEXT]),
            _ => {
                let words = &mut call.words[place];
                let index = random.index(words.len());
                let p = call.p.min(u64::from(u32::MAX)) as u32;
                if let Some(word) = words.get_mut(index) {
                    *word = random.pick(&[p, p, p.saturating_add(1), u32::MAX]);
                }
            }
        }
    }
    call
}

/// A call of the writer that is sound, damaged once or damaged twice.
pub fn any_writer_call(random: &mut Random, bounds: Bounds) -> WriterCall {
    let damages = random.index(3);
    damaged_writer_call(random, bounds, damages)
}

#[cfg(test)]
mod tests {
    use super::*;
    use crate::jobs::satisfies;
    use crate::sheets::{job_of_sheet, read_job, read_result, solve_sheet};

    /// How often each refusal number came, with 0 for done.
    fn count(counts: &mut [u64; 11], refusal: Option<(u64, u64, u64)>) {
        counts[refusal.map_or(0, |(number, _, _)| number as usize)] += 1;
    }

    #[test]
    fn the_generator_is_the_known_one() {
        let mut random = Random::new(1_234_567);
        assert_eq!(random.draw(), 6_457_827_717_110_365_317);
        assert_eq!(random.draw(), 3_203_168_211_198_807_973);
    }

    #[test]
    fn good_jobs_are_solved_and_satisfied() {
        let mut random = Random::new(SEED);
        let mut orders = [0; 9];
        let mut full = 0;
        for _ in 0..2000 {
            let job = good_job(&mut random, QUICK);
            let answer = job.answer();
            let results = answer.done().expect("a sound job is solved");
            assert!(satisfies(&job, results), "{job:?}");
            orders[job.r as usize] += 1;
            full += u64::from(job.n == job.p);
            if job.r * job.r * job.n <= SMALL_JOB {
                assert_eq!(job.to_bytes().answer(), answer);
            }
        }
        assert!(orders[1..].iter().all(|&count| count > 50), "{orders:?}");
        assert!(full > 100);
    }

    #[test]
    fn a_few_longer_jobs() {
        let mut random = Random::new(SEED + 1);
        for (kind, r, n, p) in [
            (Kind::System, 8, 40, 2_147_483_647),
            (Kind::System, 1, 1024, 1031),
            (Kind::System, 2, 257, 257),
            (Kind::Basis, 8, 16, 2_147_483_629),
            (Kind::Basis, 3, 113, 113),
            (Kind::Equation, 8, 131, 131),
            (Kind::Equation, 1, 1024, 2_147_483_647),
        ] {
            let job = sound_job(&mut random, kind, r, n, p);
            let answer = job.answer();
            assert!(satisfies(&job, answer.done().unwrap()));
        }
    }

    #[test]
    fn all_words_at_their_largest() {
        let p = 2_147_483_647;
        for kind in Kind::ALL {
            let (r, n) = (8, 16);
            let mut job = sound_job(&mut Random::new(3), kind, r, n, p);
            let read: Vec<Vec<u32>> = lengths(kind, r, n)[..kind.read_buffers()]
                .iter()
                .map(|&length| vec![p as u32 - 1; length as usize])
                .collect();
            for (place, words) in read.into_iter().enumerate() {
                if (kind, place) != (Kind::Basis, 1) {
                    job.buffers[place] = words;
                }
            }
            assert!(satisfies(&job, job.answer().done().unwrap()));
        }
    }

    #[test]
    fn damaged_jobs_meet_every_refusal() {
        let mut random = Random::new(SEED + 2);
        let mut counts = [0; 11];
        for round in 0..4000 {
            let job = damaged_job(&mut random, QUICK, 1 + round % 2);
            let answer = job.answer();
            count(&mut counts, answer.refusal());
            if answer.refusal().is_some() {
                assert_eq!(job.buffers_after(&answer), job.buffers);
            }
        }
        assert!(counts[1..=8].iter().all(|&c| c > 20), "{counts:?}");
        assert_eq!(counts[9..], [0, 0]);
    }

    #[test]
    fn each_damage_alone_meets_its_refusal() {
        let mut random = Random::new(SEED + 3);
        for kind in Kind::ALL {
            for (damage, number) in [
                (Damage::Order, 1),
                (Damage::Terms, 2),
                (Damage::Modulus, 3),
                (Damage::TermsOverModulus, 4),
                (Damage::Length, 5),
                (Damage::Word, 6),
                (Damage::Singular, 7),
                (Damage::Leading, 8),
                (Damage::Large, 10),
            ] {
                if damage == Damage::Singular && kind != Kind::Basis
                    || damage == Damage::Leading && kind != Kind::Equation
                {
                    continue;
                }
                for _ in 0..60 {
                    let mut job = good_job_of(&mut random, kind, QUICK);
                    damage_job(&mut random, &mut job, damage, QUICK);
                    let refusal = job.to_bytes().answer().refusal();
                    assert_eq!(refusal.unwrap().0, number, "{job:?}");
                }
            }
        }
    }

    #[test]
    fn damaged_byte_jobs_meet_every_refusal() {
        let mut random = Random::new(SEED + 4);
        let mut counts = [0; 11];
        for _ in 0..3000 {
            let job = any_byte_job(&mut random, QUICK);
            let answer = job.answer();
            count(&mut counts, answer.refusal());
            if answer.refusal().is_some() {
                assert_eq!(job.buffers_after(&answer), job.buffers);
            }
        }
        assert_eq!(counts[9], 0);
        counts[9] = 99;
        assert!(counts.iter().all(|&c| c > 10), "{counts:?}");
    }

    #[test]
    fn numbers_stay_within_the_widest() {
        let narrow = Bounds {
            cells: 64,
            widest: u64::from(u32::MAX),
        };
        let mut random = Random::new(SEED + 5);
        for _ in 0..3000 {
            let job = any_job(&mut random, narrow);
            assert!(job.r.max(job.n).max(job.p) <= narrow.widest);
            let call = any_writer_call(&mut random, narrow);
            assert!(call.r.max(call.n).max(call.p) <= narrow.widest);
        }
    }

    #[test]
    fn good_sheets_are_read_back() {
        let mut random = Random::new(SEED + 6);
        for _ in 0..1000 {
            let job = good_job(&mut random, QUICK);
            let text = random_job_sheet(&mut random, &job);
            let answer = read_job(&text, [ROOM; 3]);
            let sheet = answer.done().expect("a sound sheet is read");
            let again = job_of_sheet(sheet);
            let count = job.kind.read_buffers();
            assert_eq!(
                (again.kind, again.r, again.n, again.p),
                (job.kind, job.r, job.n, job.p)
            );
            assert_eq!(again.buffers[..count], job.buffers[..count]);
            let printed = solve_sheet(&text);
            let result = read_result(&printed, [ROOM; 2]);
            assert_eq!(result.done().unwrap().rooms, *job.answer().done().unwrap());
        }
    }

    #[test]
    fn damaged_sheets_meet_every_refusal() {
        let mut random = Random::new(SEED + 7);
        let mut counts = [0; 11];
        for round in 0..6000 {
            let text = damaged_sheet(&mut random, QUICK, 1 + round % 2);
            let printed = solve_sheet(&text);
            let mut fields = printed.split(|&byte| byte == b'\t' || byte == b'\n');
            if fields.next() == Some(&b"refused"[..]) {
                let number = std::str::from_utf8(fields.next().unwrap()).unwrap();
                counts[number.parse::<usize>().unwrap()] += 1;
            } else {
                counts[0] += 1;
            }
        }
        // No room is wrong here, and no word of a sheet can be too large.
        assert_eq!(counts[5..=6], [0, 0]);
        counts[5..=6].copy_from_slice(&[99, 99]);
        assert!(counts.iter().all(|&c| c > 10), "{counts:?}");
    }

    #[test]
    fn result_sheets_are_read_back_or_refused() {
        let mut random = Random::new(SEED + 8);
        let mut counts = [0; 11];
        for round in 0..5000 {
            let text = damaged_result_sheet(&mut random, QUICK, round % 3);
            let answer = read_result(&text, [ROOM; 2]);
            count(&mut counts, answer.refusal());
            if let Answer::Done(sheet) = answer {
                // What is taken is exactly what would be written.
                let call = WriterCall {
                    kind: sheet.kind,
                    r: sheet.r,
                    n: sheet.n,
                    p: sheet.p,
                    words: sheet.rooms,
                    text_length: TEXT,
                };
                assert_eq!(call.answer(), Answer::Done(text));
            }
        }
        for number in [0, 1, 2, 3, 4, 9, 10] {
            assert!(counts[number] > 10, "{counts:?}");
        }
        assert_eq!(counts[5..=8], [0, 0, 0, 0]);
    }

    #[test]
    fn writer_calls_meet_every_refusal() {
        let mut random = Random::new(SEED + 9);
        let mut counts = [0; 11];
        for _ in 0..4000 {
            let call = any_writer_call(&mut random, QUICK);
            let answer = call.answer();
            count(&mut counts, answer.refusal());
            if let Answer::Done(text) = answer {
                assert!(text.len() <= TEXT);
                let back = read_result(&text, [ROOM; 2]);
                assert_eq!(back.done().unwrap().rooms, call.words);
            }
        }
        for number in [0, 1, 2, 3, 4, 5, 6, 10] {
            assert!(counts[number] > 10, "{counts:?}");
        }
    }

    #[test]
    fn wrong_rooms_come_now_and_then() {
        let mut random = Random::new(SEED + 10);
        let mut wrong = 0;
        for _ in 0..400 {
            let rooms = room_lengths(&mut random, 3);
            let answer = read_job(b"", [rooms[0], rooms[1], rooms[2]]);
            match rooms.iter().position(|&room| room != ROOM) {
                Some(place) => {
                    wrong += 1;
                    assert_eq!(answer.refusal(), Some((5, place as u64 + 1, 0)));
                }
                None => assert_eq!(answer.refusal(), Some((9, 1, 0))),
            }
        }
        assert!(wrong > 10);
    }
}
