//! Sheets read and written, beside the second program (`rust/reference`), which shares no code with the library and is
//! used as it is.
//!
//! Both get the same bytes or words and make all checks, the test for a prime among them. The library fills rooms and
//! text that are lent to it; the second program allocates what it answers. Answers, rooms and text are compared to the
//! last cell, those that stay as they were too.

use crate::turns::{best_of_turns, head, ratio, row};
use crate::{random_words, P};
use pealvixen::lent;
use reference::random::WriterCall;
use reference::sheets::{self, result_lengths, rooms_after, solve_sheet, text_after, ROOM, TEXT};
use reference::{Answer, Kind};
use std::ops::RangeInclusive;

/// Job sheets by hand: the shortest of the worked ones, and those of `examples/`.
const BY_HAND: [&[u8]; 4] = [
    b"system\t1\t3\t7\nA\t1\t1\t1\t0\t0\nb\t1\t0\t0\t0\nv\t-6\n",
    include_bytes!("../../../examples/servo-drive.sheet"),
    include_bytes!("../../../examples/film-transport.sheet"),
    include_bytes!("../../../examples/lens-focus.sheet"),
];

/// The square of 46337: of all moduli that are refused as no prime, the one whose least divisor is the largest.
const COMPOSITE: u64 = 2147117569;

/// r, N and the numbers of the random job sheets, for each kind. r*r*N goes up to 1024; the last sheet of the last kind
/// is the longest that there is.
const JOBS: [(u64, u64, Look); 6] = [
    (2, 64, Look::Residues),
    (8, 16, Look::Any),
    (2, 256, Look::Residues),
    (1, 1024, Look::Digits),
    (1, 1024, Look::Any),
    (1, 1024, Look::Longest),
];

/// The same for the random results.
const RESULTS: [(u64, u64, Look); 5] = [
    (2, 64, Look::Residues),
    (8, 16, Look::Residues),
    (2, 256, Look::Residues),
    (1, 1024, Look::Digits),
    (1, 1024, Look::Residues),
];

/// What random numbers are.
#[derive(Clone, Copy)]
enum Look {
    Digits,
    Residues,
    Any,
    Longest,
}

impl Look {
    fn name(self) -> &'static str {
        match self {
            Look::Digits => "0 to 9",
            Look::Residues => "residues",
            Look::Any => "any of 64 bits",
            Look::Longest => "20 bytes each",
        }
    }

    fn number(self, seed: &mut u64) -> i64 {
        let words = random_words(seed, 3);
        let [one, two, three] = [words[0], words[1], words[2]].map(i64::from);
        match self {
            Look::Digits => one % 10,
            Look::Residues => one,
            Look::Any => (one << 33) ^ (two << 16) ^ three,
            Look::Longest => i64::MIN + one,
        }
    }
}

/// What is read or written, and what its row says of it.
struct Case<T> {
    kind: Kind,
    r: u64,
    n: u64,
    numbers: &'static str,
    given: T,
}

impl<T> Case<T> {
    /// The same job with other numbers.
    fn with<U>(&self, numbers: &'static str, given: U) -> Case<U> {
        let Case { kind, r, n, .. } = *self;
        Case {
            kind,
            r,
            n,
            numbers,
            given,
        }
    }

    /// Prints the row, with the times of the library and of the second program.
    fn print(&self, bytes: usize, times: &[f64]) {
        let cells = [
            self.kind.name().to_string(),
            self.numbers.to_string(),
            bytes.to_string(),
            format!("{:.2}", times[0]),
            format!("{:.2}", times[1]),
            ratio(times[0], times[1]),
        ];
        row(self.r as usize, self.n as usize, &cells);
    }
}

/// Prints the tables of the readers and of the writers.
pub fn sheets() {
    let columns = [
        "r",
        "N",
        "kind",
        "numbers",
        "bytes",
        "library",
        "reference",
        "library/reference",
    ];
    let mut seed = 8;
    head("Job sheets, read", &columns);
    for case in job_sheets(&mut seed) {
        case.print(case.given.len(), &read_job(&case.given));
    }
    let results = results(&mut seed);
    head("Result sheets, read", &columns);
    for case in result_sheets(&results) {
        case.print(case.given.len(), &read_result(&case.given));
    }
    head("Result sheets, written", &columns);
    for case in results.iter().chain(&refused_results(&results)) {
        let (bytes, times) = write_result(&case.given);
        case.print(bytes, &times);
    }
}

fn job_sheets(seed: &mut u64) -> Vec<Case<Vec<u8>>> {
    let mut all = Vec::new();
    for text in BY_HAND {
        let answer = sheets::read_job(text, [ROOM; 3]);
        let sheet = answer.done().expect("the sheet is sound");
        all.push(Case {
            kind: sheet.kind,
            r: sheet.r,
            n: sheet.n,
            numbers: "by hand",
            given: text.to_vec(),
        });
    }
    for kind in Kind::ALL {
        for (r, n, look) in JOBS {
            all.push(Case {
                kind,
                r,
                n,
                numbers: look.name(),
                given: job_sheet(kind, r as usize, n as usize, look, seed),
            });
        }
    }
    add_refused(&mut all);
    all
}

/// A random job sheet at the largest modulus.
fn job_sheet(kind: Kind, r: usize, n: usize, look: Look, seed: &mut u64) -> Vec<u8> {
    let one = |word: &str, count| vec![(word.to_string(), count)];
    let parts = match kind {
        Kind::System => [entries("A", r, n), rows("b", 1..=r, n), one("v", r)],
        Kind::Basis => [entries("A", r, n), rows("V", 1..=r, r), vec![]],
        Kind::Equation => [rows("a", 0..=r, n), one("b", n), one("start", r)],
    };
    let mut text = format!("{}\t{r}\t{n}\t{P}\n", kind.name());
    for (begin, count) in parts.concat() {
        text += &begin;
        for _ in 0..count {
            text += &format!("\t{}", look.number(seed));
        }
        text += "\n";
    }
    text.into_bytes()
}

/// Lines with a word and a row: how they begin, and how many numbers follow.
fn rows(word: &str, places: RangeInclusive<usize>, count: usize) -> Vec<(String, usize)> {
    places.map(|i| (format!("{word}\t{i}"), count)).collect()
}

/// Lines with a word, a row and a column.
fn entries(word: &str, r: usize, count: usize) -> Vec<(String, usize)> {
    let row = |i| rows(&format!("{word}\t{i}"), 1..=r, count);
    (1..=r).flat_map(row).collect()
}

/// Sheets that are refused: the last one with a last number that is none, the last one with bytes behind it until it
/// is too long, and the first one with a modulus that is no prime.
fn add_refused(all: &mut Vec<Case<Vec<u8>>>) {
    let (first, last) = (&all[0], &all[all.len() - 1]);
    let end = last.given.len() - 1;
    let broken = [&last.given[..end], b"x\n"].concat();
    let mut long = last.given.clone();
    long.resize(TEXT + 1, b'\n');
    let text = String::from_utf8_lossy(&first.given);
    let composite = text.replacen("\t7\n", &format!("\t{COMPOSITE}\n"), 1);
    let refused = [
        last.with("the last is none", broken),
        last.with("65537 bytes", long),
        first.with("p is no prime", composite.into_bytes()),
    ];
    all.extend(refused);
}

/// Results: those of the sheets by hand, and random ones.
fn results(seed: &mut u64) -> Vec<Case<WriterCall>> {
    let mut all = Vec::new();
    for text in BY_HAND {
        let answer = sheets::read_result(&solve_sheet(text), [ROOM; 2]);
        let sheet = answer.done().expect("the job has a result");
        all.push(result(
            sheet.kind,
            [sheet.r, sheet.n, sheet.p],
            "by hand",
            sheet.rooms.clone(),
        ));
    }
    for kind in Kind::ALL {
        for (r, n, look) in RESULTS {
            let mut word = || look.number(seed) as u32;
            let words = result_lengths(kind, r, n)
                .iter()
                .map(|&length| (0..length).map(|_| word()).collect())
                .collect();
            all.push(result(kind, [r, n, u64::from(P)], look.name(), words));
        }
    }
    all
}

fn result(
    kind: Kind,
    [r, n, p]: [u64; 3],
    numbers: &'static str,
    words: Vec<Vec<u32>>,
) -> Case<WriterCall> {
    let given = WriterCall {
        kind,
        r,
        n,
        p,
        words,
        text_length: TEXT,
    };
    Case {
        kind,
        r,
        n,
        numbers,
        given,
    }
}

/// Results that are refused: the last one with a last word that is p, and the first one with a modulus that is no
/// prime.
fn refused_results(results: &[Case<WriterCall>]) -> [Case<WriterCall>; 2] {
    let (first, last) = (&results[0], &results[results.len() - 1]);
    let mut over = last.given.clone();
    over.words[0][last.n as usize - 1] = P;
    let composite = WriterCall {
        p: COMPOSITE,
        ..first.given.clone()
    };
    [
        last.with("the last is p", over),
        first.with("p is no prime", composite),
    ]
}

/// The sheets of these results.
fn result_sheets(results: &[Case<WriterCall>]) -> Vec<Case<Vec<u8>>> {
    let sheet = |case: &Case<WriterCall>| {
        let text = case.given.answer().done().cloned();
        case.with(case.numbers, text.expect("the result is sound"))
    };
    let mut all: Vec<_> = results.iter().map(sheet).collect();
    add_refused(&mut all);
    all
}

/// Times of the readers of job sheets.
fn read_job(text: &[u8]) -> Vec<f64> {
    let before = [vec![7; ROOM], vec![8; ROOM], vec![9; ROOM]];
    let mut rooms = before.clone();
    let [one, two, three] = &mut rooms;
    let mut sheet = lent::read_job(text, one, two, three);
    let mut answer = sheets::read_job(text, [ROOM; 3]);
    let mut library = || sheet = lent::read_job(text, one, two, three);
    let mut second = || answer = sheets::read_job(text, [ROOM; 3]);
    let times = best_of_turns(&mut [&mut library, &mut second]);
    compare_read(sheet, &rooms, &before, &answer);
    times
}

/// Times of the readers of result sheets.
fn read_result(text: &[u8]) -> Vec<f64> {
    let before = [vec![7; ROOM], vec![8; ROOM]];
    let mut rooms = before.clone();
    let [one, two] = &mut rooms;
    let mut sheet = lent::read_result(text, one, two);
    let mut answer = sheets::read_result(text, [ROOM; 2]);
    let mut library = || sheet = lent::read_result(text, one, two);
    let mut second = || answer = sheets::read_result(text, [ROOM; 2]);
    let times = best_of_turns(&mut [&mut library, &mut second]);
    compare_read(sheet, &rooms, &before, &answer);
    times
}

/// Both programs read the same: answer, kind, r, N, p, and every word of the rooms.
fn compare_read(
    sheet: lent::Sheet,
    rooms: &[Vec<u32>],
    before: &[Vec<u32>],
    answer: &Answer<sheets::Sheet>,
) {
    let said = match answer {
        Answer::Done(read) => [1 + read.kind as u64, read.r, read.n, read.p],
        Answer::Refused { .. } => [0; 4],
    };
    assert_eq!(sheet.answer, packed(answer));
    assert_eq!([sheet.kind, sheet.r, sheet.n, sheet.p], said);
    assert!(rooms == rooms_after(before, answer), "words differ");
}

/// The length of the text, and the times of the writers.
fn write_result(call: &WriterCall) -> (usize, Vec<f64>) {
    let before = vec![b'#'; TEXT];
    let mut text = before.clone();
    let words: Vec<&[u32]> = call.words.iter().map(|words| &words[..]).collect();
    let mut written = lend(call, &mut text);
    let write = || sheets::write_result(call.kind, call.r, call.n, call.p, &words, TEXT);
    let mut answer = write();
    let mut library = || written = lend(call, &mut text);
    let mut second = || answer = write();
    let times = best_of_turns(&mut [&mut library, &mut second]);
    let length = answer.done().map_or(0, Vec::len);
    assert_eq!(written.answer, packed(&answer));
    assert_eq!(written.length, length as u64);
    assert!(text == text_after(&before, &answer), "text differs");
    (length, times)
}

/// The library's writer.
fn lend(call: &WriterCall, text: &mut [u8]) -> lent::Text {
    let (r, n, p, words) = (call.r, call.n, call.p, &call.words);
    match call.kind {
        Kind::System => lent::write_system(r, n, p, &words[0], text),
        Kind::Basis => lent::write_basis(r, n, p, &words[0], &words[1], text),
        Kind::Equation => lent::write_equation(r, n, p, &words[0], text),
    }
}

/// An answer of the second program as the library packs it.
fn packed<T>(answer: &Answer<T>) -> u64 {
    let (number, first, second) = answer.refusal().unwrap_or_default();
    number + (first << 8) + (second << 32)
}
