//! The proved library beside the second program: every answer, place, lent word and lent byte is compared.

#![forbid(unsafe_code)]

use pealvixen::lent::{self, Cell};
use pealvixen::Method;
use reference::jobs::{ByteJob, WordJob};
use reference::random::{Random, WriterCall, SEED};
use reference::sheets::{self, rooms_after, text_after};
use reference::{Answer, Kind};
use std::fmt::Debug;

/// The generator of a test, each of which has a number of its own. The seed is PEALVIXEN_SEED where that is set, and else
/// the second program's.
pub fn random(test: u64) -> Random {
    let seed = match std::env::var("PEALVIXEN_SEED") {
        Ok(text) => text
            .parse()
            .expect("PEALVIXEN_SEED is a whole number below 2^64"),
        Err(_) => SEED,
    };
    Random::new(seed.wrapping_add(test))
}

/// The packed answer that the library must give: number + 2^8 * first place + 2^32 * second place, and 0 for done.
pub fn packed<T>(answer: &Answer<T>) -> u64 {
    match answer.refusal() {
        None => 0,
        Some((number, first, second)) => number + (first << 8) + (second << 32),
    }
}

/// How many calls were compared, and how often each answer came, with 0 for done.
#[derive(Clone, Debug, Default, PartialEq, Eq)]
pub struct Tally {
    pub calls: u64,
    pub answers: [u64; 11],
}

impl Tally {
    fn count<T>(&mut self, answer: &Answer<T>) {
        self.calls += 1;
        self.answers[answer.refusal().map_or(0, |(number, _, _)| number as usize)] += 1;
    }

    /// Compares a job on words with each method that the library has for its kind.
    pub fn words(&mut self, job: &WordJob) {
        let answer = job.answer();
        let after = job.buffers_after(&answer);
        let ran = Ran {
            kind: job.kind,
            numbers: [job.r, job.n, job.p],
            before: &job.buffers,
            after: &after,
            code: packed(&answer),
            of: "words",
        };
        for _ in 0..ran.compare(0) {
            self.count(&answer);
        }
    }

    /// Compares a job on bytes with each method that the library has for its kind.
    pub fn bytes(&mut self, job: &ByteJob) {
        let answer = job.answer();
        let after = job.buffers_after(&answer);
        let ran = Ran {
            kind: job.kind,
            numbers: [job.r, job.n, job.p],
            before: &job.buffers,
            after: &after,
            code: packed(&answer),
            of: "bytes",
        };
        for _ in 0..ran.compare(0xa5) {
            self.count(&answer);
        }
    }

    /// Compares the reading of a job sheet into rooms that hold these words.
    pub fn job_sheet(&mut self, text: &[u8], rooms: &[Vec<u32>; 3]) {
        let [one, two, three] = rooms;
        let answer = sheets::read_job(text, [one.len(), two.len(), three.len()]);
        self.count(&answer);
        let mut after = rooms.clone();
        let [one, two, three] = &mut after;
        let sheet = lent::read_job(text, one, two, three);
        compare_sheet(text, sheet, &answer);
        assert!(after[..] == rooms_after(rooms, &answer), "{}", shown(text));
    }

    /// Compares the reading of a result sheet into rooms that hold these words.
    pub fn result_sheet(&mut self, text: &[u8], rooms: &[Vec<u32>; 2]) {
        let [one, two] = rooms;
        let answer = sheets::read_result(text, [one.len(), two.len()]);
        self.count(&answer);
        let mut after = rooms.clone();
        let [one, two] = &mut after;
        let sheet = lent::read_result(text, one, two);
        compare_sheet(text, sheet, &answer);
        assert!(after[..] == rooms_after(rooms, &answer), "{}", shown(text));
    }

    /// Compares a call of a writer, into text that holds this byte throughout.
    pub fn writer(&mut self, call: &WriterCall, byte: u8) {
        let answer = call.answer();
        self.count(&answer);
        let before = vec![byte; call.text_length];
        let mut text = before.clone();
        let (r, n, p) = (call.r, call.n, call.p);
        let written = match (call.kind, &call.words[..]) {
            (Kind::System, [y]) => lent::write_system(r, n, p, y, &mut text),
            (Kind::Equation, [y]) => lent::write_equation(r, n, p, y, &mut text),
            (Kind::Basis, [y, z]) => lent::write_basis(r, n, p, y, z, &mut text),
            _ => unreachable!("a call has as many slices of words as its kind"),
        };
        assert_eq!(written.answer, packed(&answer), "{call:?}");
        let length = answer.done().map_or(0, |text| text.len() as u64);
        assert_eq!(written.length, length, "{call:?}");
        assert!(text == text_after(&before, &answer), "{call:?}");
    }

    /// Prints a line on what was compared.
    pub fn report(&self, what: &str) {
        let Tally { calls, answers } = self;
        let refused: Vec<String> = (1..=10)
            .filter(|&number| answers[number] > 0)
            .map(|number| format!("{} x {number}", answers[number]))
            .collect();
        println!(
            "{what}: {calls} calls, {} done; refused {}",
            answers[0],
            refused.join(", ")
        );
    }
}

fn shown(text: &[u8]) -> String {
    String::from_utf8_lossy(&text[..text.len().min(400)]).into_owned()
}

/// A reader's answer: on a refusal kind, r, N and p are 0.
fn compare_sheet(text: &[u8], sheet: lent::Sheet, answer: &Answer<sheets::Sheet>) {
    let expected = match answer {
        Answer::Done(read) => {
            let kind = match read.kind {
                Kind::System => 1,
                Kind::Basis => 2,
                Kind::Equation => 3,
            };
            [0, kind, read.r, read.n, read.p]
        }
        Answer::Refused { .. } => [packed(answer), 0, 0, 0, 0],
    };
    let given = [sheet.answer, sheet.kind, sheet.r, sheet.n, sheet.p];
    assert_eq!(given, expected, "{}", shown(text));
}

/// A job with what it must come to.
struct Ran<'a, C> {
    kind: Kind,
    numbers: [u64; 3],
    before: &'a [Vec<C>; 5],
    after: &'a [Vec<C>; 5],
    code: u64,
    of: &'static str,
}

impl<C: Cell + PartialEq + Debug> Ran<'_, C> {
    /// Runs the job by each method that the library has, and answers how many there were. Each buffer stands between
    /// cells that no call may touch.
    fn compare(&self, guard: C) -> usize {
        let methods: &[Method] = match self.kind {
            Kind::System | Kind::Equation => &[Method::Halving, Method::Newton],
            Kind::Basis => &[Method::Newton],
        };
        for &method in methods {
            let mut lent = guarded(self.before, guard);
            let code = call(self.kind, method, self.numbers, &mut lent);
            let what = || {
                format!(
                    "{} {:?} {method:?} at {:?}",
                    self.of, self.kind, self.numbers
                )
            };
            assert_eq!(code, self.code, "the answers differ: {}", what());
            let expected = guarded(self.after, guard);
            for place in 0..5 {
                let same = lent[place] == expected[place];
                assert!(same, "buffer {} differs: {}", place + 1, what());
            }
        }
        methods.len()
    }
}

/// Calls the library on the middle parts of these buffers.
fn call<C: Cell>(kind: Kind, method: Method, numbers: [u64; 3], buffers: &mut [Vec<C>; 5]) -> u64 {
    fn middle<C>(cells: &mut [C]) -> &mut [C] {
        let end = cells.len() - 3;
        &mut cells[3..end]
    }
    let [r, n, p] = numbers;
    let [one, two, three, four, five] = buffers;
    let (one, two, three) = (middle(one), middle(two), middle(three));
    let (four, five) = (middle(four), middle(five));
    match kind {
        Kind::System => lent::system(method, r, n, p, one, two, three, four, five),
        Kind::Basis => lent::basis(r, n, p, one, two, three, four, five),
        Kind::Equation => lent::equation(method, r, n, p, one, two, three, four, five),
    }
}

/// Each buffer between two runs of the guard.
fn guarded<C: Copy>(buffers: &[Vec<C>; 5], guard: C) -> [Vec<C>; 5] {
    let [one, two, three, four, five] = buffers;
    // An odd number of cells in front, so that bytes do not start at a word's address.
    let around = |cells: &Vec<C>| [&[guard; 3][..], cells, &[guard; 3]].concat();
    [
        around(one),
        around(two),
        around(three),
        around(four),
        around(five),
    ]
}
