//! Times of several programs that do the same, taken in turns.

use std::os::raw::{c_int, c_long};
use std::time::Instant;

/// Runs each program in turns, so that whatever else the machine does meets all of them alike, and answers the best
/// time of each in microseconds. A short program runs several times in its turn. There are at least three turns, and
/// more until a second has gone by.
pub fn best_of_turns(programs: &mut [&mut dyn FnMut()]) -> Vec<f64> {
    let measure = |program: &mut dyn FnMut(), runs: usize| {
        let start = own_time();
        (0..runs).for_each(|_| program());
        (own_time() - start) / runs as f64
    };
    let mut best: Vec<f64> = programs.iter_mut().map(|each| measure(each, 1)).collect();
    let runs: Vec<usize> = best
        .iter()
        .map(|once| 1 + (100.0 / once) as usize)
        .collect();
    let begun = Instant::now();
    let mut turns = 1;
    while turns < 3 || (begun.elapsed().as_millis() < 1000 && turns < 5000) {
        for (place, program) in programs.iter_mut().enumerate() {
            best[place] = best[place].min(measure(program, runs[place]));
        }
        turns += 1;
    }
    best
}

#[repr(C)]
struct Timespec {
    seconds: i64,
    nanoseconds: c_long,
}

extern "C" {
    fn clock_gettime(clock: c_int, time: *mut Timespec) -> c_int;
}

/// The processor's time that this thread has had, in microseconds: other programs' turns are not in it.
fn own_time() -> f64 {
    const THREAD_CPUTIME: c_int = 3;
    let mut time = Timespec {
        seconds: 0,
        nanoseconds: 0,
    };
    let answer = unsafe { clock_gettime(THREAD_CPUTIME, &mut time) };
    assert_eq!(answer, 0, "this machine has no such clock");
    time.seconds as f64 * 1e6 + time.nanoseconds as f64 / 1e3
}

/// Prints a heading and the head of a table.
pub fn head(title: &str, columns: &[&str]) {
    println!("\n### {title}\n");
    println!("| {} |", columns.join(" | "));
    println!("|{}", "---|".repeat(columns.len()));
}

/// Prints a row: r, N, and what follows.
pub fn row(r: usize, n: usize, cells: &[String]) {
    println!("| {r} | {n} | {} |", cells.join(" | "));
}

/// A time in microseconds.
pub fn time(microseconds: f64) -> String {
    format!("{microseconds:.1}")
}

/// A ratio of two times.
pub fn ratio(one: f64, other: f64) -> String {
    format!("{:.3}", one / other)
}
