//! Job sheets, result sheets, and what the solving program prints.
//!
//! A sheet is taken apart in the simplest way: at its line feeds into lines,
//! and each line at its tabs into fields. What a line must look like is said
//! beforehand: which fields it begins with and how many numbers follow. A
//! number is in the right form when printing it again gives the same bytes.

use crate::jobs::{check_lengths, check_numbers, check_small, check_words, lengths};
use crate::jobs::{word_job, WordJob};
use crate::{refuse, refuse_at, Answer, Kind, Refusal};

/// The most bytes of a sheet, and the length of the buffer for text.
pub const TEXT: usize = 65536;
/// The words of a room.
pub const ROOM: usize = 2048;

/// What a reader brings: kind, r, N and p, and for each room that it fills the
/// words that the room then begins with. A job fills the rooms with its read
/// buffers; a result with y, or with Y and Z.
#[derive(Clone, Debug, PartialEq, Eq)]
pub struct Sheet {
    pub kind: Kind,
    pub r: u64,
    pub n: u64,
    pub p: u64,
    pub rooms: Vec<Vec<u32>>,
}

/// A line as it must be: the fields that it begins with, how many numbers
/// follow, and which room, counted from 0, takes these numbers.
struct Line {
    begin: Vec<String>,
    numbers: u64,
    room: usize,
}

/// Reads a job sheet over three rooms of these lengths.
pub fn read_job(text: &[u8], rooms: [usize; 3]) -> Answer<Sheet> {
    read(text, &rooms, &[], job_lines, |number, p| {
        // Every signed number of 64 bits stands for its residue.
        Some(number.rem_euclid(p as i64) as u32)
    })
    .into()
}

/// Reads a result sheet over two rooms of these lengths.
pub fn read_result(text: &[u8], rooms: [usize; 2]) -> Answer<Sheet> {
    read(text, &rooms, &["result"], result_lines, |number, p| {
        // Only c with -p < 2c <= p is ever written.
        let double = 2 * i128::from(number);
        let p = i128::from(p);
        if -p < double && double <= p {
            Some(i128::from(number).rem_euclid(p) as u32)
        } else {
            None
        }
    })
    .into()
}

/// What both readers do: 5 for the rooms, 10 for the bytes, 9 for line 1,
/// 1 to 4, 10 for r*r*N, and 9 for the remaining lines.
fn read(
    text: &[u8],
    rooms: &[usize],
    before_kind: &[&str],
    lines: fn(Kind, u64, u64) -> Vec<Line>,
    residue: fn(i64, u64) -> Option<u32>,
) -> Result<Sheet, Refusal> {
    let given: Vec<u64> = rooms.iter().map(|&room| room as u64).collect();
    check_lengths(&given, &vec![ROOM as u64; rooms.len()])?;
    if text.len() > TEXT {
        return Err(refuse(10));
    }

    // The pieces between the line feeds. All but the last one are ended lines;
    // the last one is what stands behind the last line feed.
    let mut ended: Vec<&[u8]> = text.split(|&byte| byte == b'\n').collect();
    let behind = ended.pop().expect("splitting gives one piece at least");

    let broken = |line: usize| refuse_at(9, line as u64, 0);
    let header = ended.first().and_then(|line| header(line, before_kind));
    let (kind, r, n, p) = header.ok_or_else(|| broken(1))?;
    check_numbers(r, n, p)?;
    check_small(r, n)?;

    let mut filled: Vec<Vec<u32>> = Vec::new();
    let mut number = 1;
    for line in lines(kind, r, n) {
        number += 1;
        // A missing line, and a line without its line feed, have no place here.
        let bytes = ended.get(number - 1).ok_or_else(|| broken(number))?;
        let words = line_words(bytes, &line, p, residue).ok_or_else(|| broken(number))?;
        filled.resize(filled.len().max(line.room + 1), Vec::new());
        filled[line.room].extend(words);
    }
    if ended.len() > number || !behind.is_empty() {
        return Err(broken(number + 1));
    }
    Ok(Sheet {
        kind,
        r,
        n,
        p,
        rooms: filled,
    })
}

/// Kind, r, N and p of a first line, or nothing where it breaks the form.
fn header(line: &[u8], before_kind: &[&str]) -> Option<(Kind, u64, u64, u64)> {
    let fields: Vec<&[u8]> = line.split(|&byte| byte == b'\t').collect();
    let count = before_kind.len();
    if fields.len() != count + 4 {
        return None;
    }
    if (0..count).any(|place| fields[place] != before_kind[place].as_bytes()) {
        return None;
    }
    let kind = Kind::named(fields[count])?;
    let r = header_number(fields[count + 1])?;
    let n = header_number(fields[count + 2])?;
    let p = header_number(fields[count + 3])?;
    Some((kind, r, n, p))
}

/// A number of the header: 1 to 10 digits, no leading zero.
pub fn header_number(field: &[u8]) -> Option<u64> {
    if field.len() > 10 {
        return None;
    }
    let number: u64 = std::str::from_utf8(field).ok()?.parse().ok()?;
    same_bytes(&number.to_string(), field).then_some(number)
}

/// Any other number: signed, of 64 bits, no plus sign, no leading zero, no -0.
pub fn sheet_number(field: &[u8]) -> Option<i64> {
    let number: i64 = std::str::from_utf8(field).ok()?.parse().ok()?;
    same_bytes(&number.to_string(), field).then_some(number)
}

fn same_bytes(printed: &str, field: &[u8]) -> bool {
    printed.as_bytes() == field
}

/// The words of a line, or nothing where it breaks the form.
fn line_words(
    bytes: &[u8],
    line: &Line,
    p: u64,
    residue: fn(i64, u64) -> Option<u32>,
) -> Option<Vec<u32>> {
    let fields: Vec<&[u8]> = bytes.split(|&byte| byte == b'\t').collect();
    let count = line.begin.len();
    if fields.len() as u64 != count as u64 + line.numbers {
        return None;
    }
    if (0..count).any(|place| !same_bytes(&line.begin[place], fields[place])) {
        return None;
    }
    fields[count..]
        .iter()
        .map(|field| residue(sheet_number(field)?, p))
        .collect()
}

/// A line that begins with a letter or word and then these places.
fn line(word: &str, places: &[u64], numbers: u64, room: usize) -> Line {
    let mut begin = vec![word.to_string()];
    begin.extend(places.iter().map(|place| place.to_string()));
    Line {
        begin,
        numbers,
        room,
    }
}

/// All pairs of a row and a column, row by row.
fn pairs(r: u64) -> Vec<(u64, u64)> {
    (1..=r).flat_map(|i| (1..=r).map(move |j| (i, j))).collect()
}

/// The lines of a job sheet behind its header.
fn job_lines(kind: Kind, r: u64, n: u64) -> Vec<Line> {
    let mut lines = Vec::new();
    if kind != Kind::Equation {
        for (i, j) in pairs(r) {
            lines.push(line("A", &[i, j], n, 0));
        }
    }
    match kind {
        Kind::System => {
            for i in 1..=r {
                lines.push(line("b", &[i], n, 1));
            }
            lines.push(line("v", &[], r, 2));
        }
        Kind::Basis => {
            for i in 1..=r {
                lines.push(line("V", &[i], r, 1));
            }
        }
        Kind::Equation => {
            for i in 0..=r {
                lines.push(line("a", &[i], n, 0));
            }
            lines.push(line("b", &[], n, 1));
            lines.push(line("start", &[], r, 2));
        }
    }
    lines
}

/// The lines of a result sheet behind its header.
fn result_lines(kind: Kind, r: u64, n: u64) -> Vec<Line> {
    match kind {
        Kind::System => (1..=r).map(|i| line("y", &[i], n, 0)).collect(),
        Kind::Equation => vec![line("y", &[1], n, 0)],
        Kind::Basis => {
            let mut lines = Vec::new();
            for (room, word) in ["Y", "Z"].iter().enumerate() {
                for (i, j) in pairs(r) {
                    lines.push(line(word, &[i, j], n, room));
                }
            }
            lines
        }
    }
}

/// The lengths of the words that the writer takes.
pub fn result_lengths(kind: Kind, r: u64, n: u64) -> Vec<u64> {
    // The written buffers of the job without the work room.
    lengths(kind, r, n)[kind.read_buffers()..4].to_vec()
}

/// Writes a result sheet and brings its text. The words are y alone, or Y and
/// Z for a basis; the buffer for text, of this length, counts as the next one.
/// Should more slices of words be handed over than the kind has, they must be
/// empty and are counted before the text.
pub fn write_result(
    kind: Kind,
    r: u64,
    n: u64,
    p: u64,
    words: &[&[u32]],
    text_length: usize,
) -> Answer<Vec<u8>> {
    let checked = || -> Result<Vec<u8>, Refusal> {
        check_numbers(r, n, p)?;
        check_small(r, n)?;
        let mut wanted = result_lengths(kind, r, n);
        assert!(words.len() >= wanted.len(), "a buffer is not handed over");
        wanted.resize(words.len(), 0);
        wanted.push(TEXT as u64);
        let mut given: Vec<u64> = words.iter().map(|w| w.len() as u64).collect();
        given.push(text_length as u64);
        check_lengths(&given, &wanted)?;
        check_words(words, p)?;
        Ok(result_text(kind, r, n, p, words))
    };
    checked().into()
}

/// The text of a result sheet for words of the right lengths.
fn result_text(kind: Kind, r: u64, n: u64, p: u64, words: &[&[u32]]) -> Vec<u8> {
    let mut text = format!("result\t{}\t{r}\t{n}\t{p}\n", kind.name());
    let mut taken = vec![0; words.len()];
    for line in result_lines(kind, r, n) {
        let mut fields = line.begin;
        for _ in 0..line.numbers {
            let word = words[line.room][taken[line.room]];
            taken[line.room] += 1;
            fields.push(balanced(word, p).to_string());
        }
        text.push_str(&fields.join("\t"));
        text.push('\n');
    }
    text.into_bytes()
}

/// The whole number c of the class of a residue with -p < 2c <= p.
pub fn balanced(word: u32, p: u64) -> i64 {
    let (word, p) = (i64::from(word), p as i64);
    if 2 * word <= p {
        word
    } else {
        word - p
    }
}

/// The job that a job sheet describes, its written buffers filled with zeros.
pub fn job_of_sheet(sheet: &Sheet) -> WordJob {
    WordJob::with_read(sheet.kind, sheet.r, sheet.n, sheet.p, &sheet.rooms, 0)
}

/// What the solving program prints for this input.
pub fn solve_sheet(text: &[u8]) -> Vec<u8> {
    let sheet = match read_job(text, [ROOM; 3]) {
        Answer::Done(sheet) => sheet,
        Answer::Refused {
            number,
            first,
            second,
        } => return refused_line(number, first, second),
    };
    let job = job_of_sheet(&sheet);
    let [one, two, three, four, five] = &job.buffers;
    let buffers: [&[u32]; 5] = [one, two, three, four, five];
    match word_job(sheet.kind, sheet.r, sheet.n, sheet.p, buffers) {
        Answer::Done(results) => {
            let words: Vec<&[u32]> = results.iter().map(|w| &w[..]).collect();
            result_text(sheet.kind, sheet.r, sheet.n, sheet.p, &words)
        }
        Answer::Refused {
            number,
            first,
            second,
        } => refused_line(number, first, second),
    }
}

fn refused_line(number: u64, first: u64, second: u64) -> Vec<u8> {
    format!("refused\t{number}\t{first}\t{second}\n").into_bytes()
}

/// What the rooms hold after a reader's answer: on success each filled room
/// begins with its words, and every other cell stays what it was.
pub fn rooms_after(before: &[Vec<u32>], answer: &Answer<Sheet>) -> Vec<Vec<u32>> {
    let mut after = before.to_vec();
    if let Answer::Done(sheet) = answer {
        for (room, words) in sheet.rooms.iter().enumerate() {
            after[room][..words.len()].copy_from_slice(words);
        }
    }
    after
}

/// What the buffer for text holds after the writer's answer.
pub fn text_after(before: &[u8], answer: &Answer<Vec<u8>>) -> Vec<u8> {
    let mut after = before.to_vec();
    if let Answer::Done(text) = answer {
        after[..text.len()].copy_from_slice(text);
    }
    after
}

#[cfg(test)]
mod tests {
    use super::*;
    use crate::worked::worked;

    /// The bytes of a sheet written with blanks for tabs and `|` for line feeds.
    fn sheet(text: &str) -> Vec<u8> {
        text.replace(' ', "\t").replace('|', "\n").into_bytes()
    }

    fn printed(text: &str) -> String {
        let bytes = solve_sheet(&sheet(text));
        let text = String::from_utf8(bytes).unwrap();
        text.replace('\t', " ").replace('\n', "|")
    }

    fn job_refusal(text: &[u8]) -> Option<(u64, u64, u64)> {
        read_job(text, [ROOM; 3]).refusal()
    }

    fn result_refusal(text: &[u8]) -> Option<(u64, u64, u64)> {
        read_result(text, [ROOM; 2]).refusal()
    }

    const EXAMPLE: &str = "system 1 3 7|A 1 1 1 0 0|b 1 0 0 0|v -6|";

    #[test]
    fn the_whole_example() {
        assert_eq!(
            solve_sheet(b"system\t1\t3\t7\nA\t1\t1\t1\t0\t0\nb\t1\t0\t0\t0\nv\t-6\n"),
            b"result\tsystem\t1\t3\t7\ny\t1\t1\t1\t-3\n"
        );
        assert_eq!(printed(EXAMPLE), "result system 1 3 7|y 1 1 1 -3|");
        let answer = read_job(&sheet(EXAMPLE), [ROOM; 3]);
        let expected = Sheet {
            kind: Kind::System,
            r: 1,
            n: 3,
            p: 7,
            rooms: vec![vec![1, 0, 0], vec![0, 0, 0], vec![1]],
        };
        assert_eq!(answer, Answer::Done(expected));
        let before = vec![vec![9; ROOM]; 3];
        let after = rooms_after(&before, &answer);
        assert_eq!(after[0][..5], [1, 0, 0, 9, 9]);
        assert_eq!(after[1][..5], [0, 0, 0, 9, 9]);
        assert_eq!(after[2][..5], [1, 9, 9, 9, 9]);
        assert!(after.iter().all(|room| room.len() == ROOM));
    }

    #[test]
    fn worked_jobs_by_sheets() {
        assert_eq!(
            printed("system 1 2 2|A 1 1 1 0|b 1 0 0|v 1|"),
            "result system 1 2 2|y 1 1 1|"
        );
        assert_eq!(
            printed(
                "system 2 5 11|A 1 1 0 0 0 0 0|A 1 2 1 0 0 0 0|A 2 1 -1 0 0 0 0|A 2 2 0 0 0 0 0|\
                 b 1 0 0 0 0 0|b 2 0 0 0 0 0|v 0 1|"
            ),
            "result system 2 5 11|y 1 0 1 0 -2 0|y 2 1 0 5 0 -5|"
        );
        assert_eq!(
            printed("basis 2 4 7|A 1 1 0 0 0 0|A 1 2 1 0 0 0|A 2 1 0 1 0 0|A 2 2 0 0 0 0|V 1 1 0|V 2 0 1|"),
            "result basis 2 4 7|Y 1 1 1 0 0 -1|Y 1 2 0 1 0 0|Y 2 1 0 0 -3 0|Y 2 2 1 0 0 -2|\
             Z 1 1 1 0 0 -2|Z 1 2 0 -1 0 0|Z 2 1 0 0 3 0|Z 2 2 1 0 0 -1|"
        );
        assert_eq!(
            printed("basis 2 1 7|A 1 1 0|A 1 2 0|A 2 1 0|A 2 2 0|V 1 2 1|V 2 1 4|"),
            "refused 7 0 0|"
        );
        assert_eq!(
            printed("equation 3 3 5|a 0 0 0 0|a 1 0 0 0|a 2 0 0 0|a 3 1 0 0|b 0 0 0|start 0 0 1|"),
            "result equation 3 3 5|y 1 0 0 -2|"
        );
        assert_eq!(
            printed("equation 1 2 5|a 0 -1 0|a 1 0 1|b 0 0|start 1|"),
            "refused 8 0 0|"
        );
        assert_eq!(
            printed("equation 1 4 5|a 0 -1 0 0 0|a 1 1 1 0 0|b 0 0 0 0|start 1|"),
            "result equation 1 4 5|y 1 1 1 0 0|"
        );
    }

    #[test]
    fn every_worked_job_that_fits_a_sheet() {
        for case in worked() {
            let job = &case.job;
            let text = crate::random::plain_job_sheet(job);
            let printed = solve_sheet(&text);
            match &case.answer {
                Answer::Done(results) => {
                    let words: Vec<&[u32]> = results.iter().map(|w| &w[..]).collect();
                    let written = write_result(job.kind, job.r, job.n, job.p, &words, TEXT);
                    assert_eq!(written, Answer::Done(printed.clone()), "{}", case.name);
                    let back = read_result(&printed, [ROOM; 2]);
                    let expected = Sheet {
                        kind: job.kind,
                        r: job.r,
                        n: job.n,
                        p: job.p,
                        rooms: results.clone(),
                    };
                    assert_eq!(back, Answer::Done(expected), "{}", case.name);
                }
                Answer::Refused { number, .. } => {
                    assert_eq!(printed, refused_line(*number, 0, 0), "{}", case.name);
                }
            }
        }
    }

    #[test]
    fn numbers() {
        for (field, number) in [
            ("0", 0),
            ("7", 7),
            ("-7", -7),
            ("10", 10),
            ("-10", -10),
            ("9223372036854775807", i64::MAX),
            ("-9223372036854775808", i64::MIN),
            ("-9223372036854775807", i64::MIN + 1),
            ("9223372036854775806", i64::MAX - 1),
        ] {
            assert_eq!(sheet_number(field.as_bytes()), Some(number));
        }
        for field in [
            "",
            "-",
            "+",
            "+0",
            "+7",
            "-0",
            "00",
            "-00",
            "07",
            "-07",
            "--7",
            "7-",
            " 7",
            "7 ",
            "7\r",
            "7\u{0}",
            "\u{0}7",
            "0x7",
            "7.0",
            "1e3",
            "1_000",
            "9223372036854775808",
            "-9223372036854775809",
            "18446744073709551616",
            "-18446744073709551616",
            "18446744073709551617",
            "99999999999999999999999999999999999999999",
            "00000000000000000000000000000000000000001",
            "\u{0661}",
        ] {
            assert_eq!(sheet_number(field.as_bytes()), None, "{field:?}");
        }
        assert_eq!(sheet_number(b"\xff"), None);
        assert_eq!(sheet_number(b"1\xff"), None);
    }

    #[test]
    fn header_numbers() {
        for (field, number) in [
            ("0", 0),
            ("9", 9),
            ("10", 10),
            ("4294967296", 1 << 32),
            ("9999999999", 9_999_999_999),
        ] {
            assert_eq!(header_number(field.as_bytes()), Some(number));
        }
        for field in [
            "",
            "-1",
            "-0",
            "+1",
            "00",
            "01",
            "0000000001",
            "10000000000",
            "00000000001",
            "1 ",
            " 1",
            "1\r",
            "x",
            "18446744073709551616",
        ] {
            assert_eq!(header_number(field.as_bytes()), None, "{field:?}");
        }
    }

    #[test]
    fn numbers_below_zero_and_at_the_edges() {
        let word = |number: &str, p: u64| {
            let text = sheet(&format!("system 1 1 {p}|A 1 1 0|b 1 0|v {number}|"));
            let answer = read_job(&text, [ROOM; 3]);
            answer.done().map(|sheet| sheet.rooms[2][0])
        };
        assert_eq!(word("-6", 7), Some(1));
        assert_eq!(word("-7", 7), Some(0));
        assert_eq!(word("-8", 7), Some(6));
        assert_eq!(word("-1", 2), Some(1));
        assert_eq!(word("-1", 2_147_483_647), Some(2_147_483_646));
        // 2^63 = 4 (2^31 - 1)(..) + 2 modulo 2^31 - 1, since 63 = 2 * 31 + 1.
        assert_eq!(word("9223372036854775807", 2_147_483_647), Some(1));
        assert_eq!(
            word("-9223372036854775808", 2_147_483_647),
            Some(2_147_483_645)
        );
        assert_eq!(word("-9223372036854775808", 2), Some(0));
        assert_eq!(word("9223372036854775807", 2), Some(1));
        // 2^63 = (2^3)^21 = 1 modulo 7.
        assert_eq!(word("-9223372036854775808", 7), Some(6));
        assert_eq!(word("9223372036854775807", 7), Some(0));
        assert_eq!(word("9223372036854775808", 7), None);
        assert_eq!(word("-9223372036854775809", 7), None);
    }

    #[test]
    fn balanced_numbers() {
        assert_eq!([0, 1].map(|w| balanced(w, 2)), [0, 1]);
        assert_eq!([0, 1, 2].map(|w| balanced(w, 3)), [0, 1, -1]);
        assert_eq!([0, 2, 3, 4].map(|w| balanced(w, 5)), [0, 2, -2, -1]);
        let p = 2_147_483_647;
        assert_eq!(balanced(1_073_741_823, p), 1_073_741_823);
        assert_eq!(balanced(1_073_741_824, p), -1_073_741_823);
        assert_eq!(balanced(2_147_483_646, p), -1);
    }

    #[test]
    fn order_of_the_checks_of_a_job_sheet() {
        let refusal = |text: &str| job_refusal(&sheet(text));
        for (text, expected) in [
            ("", (9, 1, 0)),
            ("|", (9, 1, 0)),
            ("system 1 3 7", (9, 1, 0)),
            ("sys 1 3 7|", (9, 1, 0)),
            ("result system 1 3 7|", (9, 1, 0)),
            ("System 1 3 7|", (9, 1, 0)),
            ("system 1 3|", (9, 1, 0)),
            ("system 1 3 7 |", (9, 1, 0)),
            ("system 1 3 7 7|", (9, 1, 0)),
            ("system  1 3 7|", (9, 1, 0)),
            (" system 1 3 7|", (9, 1, 0)),
            ("system 01 3 7|", (9, 1, 0)),
            ("system 1 -3 7|", (9, 1, 0)),
            ("system 1 3 +7|", (9, 1, 0)),
            ("system 9 0 00|", (9, 1, 0)),
            ("system 9 0 10000000000|", (9, 1, 0)),
            ("system 9 0 9999999999|", (1, 0, 0)),
            ("system 0 0 0|", (1, 0, 0)),
            ("system 9999999999 0 0|", (1, 0, 0)),
            ("system 4294967297 1 7|", (1, 0, 0)),
            ("system 8 0 0|", (2, 0, 0)),
            ("system 8 4097 0|", (2, 0, 0)),
            ("system 8 4294967297 7|", (2, 0, 0)),
            ("system 8 4096 0|", (3, 0, 0)),
            ("system 8 4096 4294967303|", (3, 0, 0)),
            ("system 8 4096 9999999999|", (3, 0, 0)),
            ("system 8 4096 7|", (4, 0, 0)),
            ("system 8 17 17|", (10, 0, 0)),
            ("equation 1 1025 1031|", (10, 0, 0)),
            ("system 8 16 17|", (9, 2, 0)),
            ("equation 1 1024 1031|", (9, 2, 0)),
        ] {
            assert_eq!(refusal(text), Some(expected), "{text}");
            let expected = format!("refused {} {} {}|", expected.0, expected.1, expected.2);
            assert_eq!(printed(text), expected, "{text}");
        }
    }

    #[test]
    fn broken_lines_of_a_job_sheet() {
        let refusal = |text: &str| job_refusal(&sheet(text));
        assert_eq!(refusal(EXAMPLE), None);
        for (text, line) in [
            // Missing and unended lines.
            ("system 1 3 7|", 2),
            ("system 1 3 7|A 1 1 1 0 0", 2),
            ("system 1 3 7|A 1 1 1 0 0|", 3),
            ("system 1 3 7|A 1 1 1 0 0|b 1 0 0 0|", 4),
            ("system 1 3 7|A 1 1 1 0 0|b 1 0 0 0|v", 4),
            ("system 1 3 7|A 1 1 1 0 0|b 1 0 0 0|v -6", 4),
            ("system 1 3 7|A 1 1 1 0 0|v -6|", 3),
            // Something behind the last line.
            ("system 1 3 7|A 1 1 1 0 0|b 1 0 0 0|v -6||", 5),
            ("system 1 3 7|A 1 1 1 0 0|b 1 0 0 0|v -6| ", 5),
            ("system 1 3 7|A 1 1 1 0 0|b 1 0 0 0|v -6|v", 5),
            ("system 1 3 7|A 1 1 1 0 0|b 1 0 0 0|v -6|v -6|", 5),
            // Fields.
            ("system 1 3 7|A 1 1 1 0|b 1 0 0 0|v -6|", 2),
            ("system 1 3 7|A 1 1 1 0 0 0|b 1 0 0 0|v -6|", 2),
            ("system 1 3 7|A 1 1 1 0 0 |b 1 0 0 0|v -6|", 2),
            ("system 1 3 7|A 1 1 1  0|b 1 0 0 0|v -6|", 2),
            ("system 1 3 7|A 1 1  1 0 0|b 1 0 0 0|v -6|", 2),
            ("system 1 3 7|A 1 2 1 0 0|b 1 0 0 0|v -6|", 2),
            ("system 1 3 7|A 2 1 1 0 0|b 1 0 0 0|v -6|", 2),
            ("system 1 3 7|A 01 1 1 0 0|b 1 0 0 0|v -6|", 2),
            ("system 1 3 7|a 1 1 1 0 0|b 1 0 0 0|v -6|", 2),
            ("system 1 3 7|A 1 1 1 0 0|B 1 0 0 0|v -6|", 3),
            ("system 1 3 7|A 1 1 1 0 0|b 0 0 0 0|v -6|", 3),
            ("system 1 3 7|A 1 1 1 0 0|b 1 0 0 -0|v -6|", 3),
            ("system 1 3 7|A 1 1 1 0 0||v -6|", 3),
            ("system 1 3 7|A 1 1 1 0 0|b 1 0 0 0|v 06|", 4),
            ("system 1 3 7|A 1 1 1 0 0|b 1 0 0 0|v +6|", 4),
            ("system 1 3 7|A 1 1 1 0 0|b 1 0 0 0|v -6 0|", 4),
            ("system 1 3 7|A 1 1 1 0 0|b 1 0 0 0|V -6|", 4),
            ("system 1 3 7|A 1 1 1 0 0|b 1 0 0 0||", 4),
            // The first of two broken lines.
            ("system 1 3 7|A 1 1 1 0 x|b 1 0 0 x|v x|", 2),
            // Other kinds.
            ("equation 1 1 5|a 1 1|a 1 1|b 0|start 0|", 2),
            ("equation 1 1 5|a 0 1|b 0|a 1 1|start 0|", 3),
            ("equation 1 1 5|a 0 1|a 1 1|b 1 0|start 0|", 4),
            ("equation 1 1 5|a 0 1|a 1 1|b 0|start|", 5),
            ("equation 1 1 5|a 0 1|a 1 1|b 0|v 0|", 5),
            ("basis 1 1 5|A 1 1 1|V 1|", 3),
            ("basis 1 1 5|A 1 1 1|v 1 1|", 3),
            ("basis 1 1 5|A 1 1 1|V 1 1|V 1 1|", 4),
        ] {
            assert_eq!(refusal(text), Some((9, line, 0)), "{text}");
        }
        // Blanks, carriage returns and a zero byte break a line.
        let good = sheet(EXAMPLE);
        for byte in [b' ', b'\r', 0, b'\t', 0xff, b'x'] {
            for (line, end) in (1..).zip((0..good.len()).filter(|&place| good[place] == b'\n')) {
                let mut bad = good.clone();
                bad.insert(end, byte);
                assert_eq!(job_refusal(&bad), Some((9, line, 0)));
            }
        }
    }

    #[test]
    fn sixty_four_kilobytes_and_one_more() {
        for text in ["", EXAMPLE, "system 9 0 0|", "system 8 17 17|", "x|"] {
            let mut text = sheet(text);
            text.resize(TEXT, b'0');
            let refusal = job_refusal(&text).unwrap();
            let expected = match () {
                _ if text.starts_with(b"system\t1") => (9, 5, 0),
                _ if text.starts_with(b"system\t9") => (1, 0, 0),
                _ if text.starts_with(b"system\t8") => (10, 0, 0),
                _ => (9, 1, 0),
            };
            assert_eq!(refusal, expected);
            text.push(b'0');
            assert_eq!(job_refusal(&text), Some((10, 0, 0)));
            assert_eq!(result_refusal(&text), Some((10, 0, 0)));
        }
    }

    #[test]
    fn the_longest_sound_sheet_fits() {
        let number = " -9223372036854775807".repeat(1024);
        let text = format!(
            "equation 1 1024 2147483647|a 0{number}|a 1{number}|b{number}|start -9223372036854775807|"
        );
        assert_eq!(text.len(), 64576);
        assert_eq!(job_refusal(&sheet(&text)), None);
        let answer = read_job(&sheet(&text), [ROOM; 3]);
        let rooms = &answer.done().unwrap().rooms;
        assert_eq!(rooms[0].len(), ROOM);
        assert!(rooms[0].iter().all(|&word| word == 2_147_483_646));
        assert!(solve_sheet(&sheet(&text)).starts_with(b"result\tequation\t1\t1024\t"));
    }

    #[test]
    fn rooms_of_another_length() {
        let example = sheet(EXAMPLE);
        let huge = vec![b'0'; TEXT + 1];
        for text in [&example[..], &huge[..], b""] {
            for (rooms, place) in [
                ([ROOM - 1, ROOM, ROOM], 1),
                ([ROOM + 1, 0, 0], 1),
                ([ROOM, 0, 0], 2),
                ([ROOM, ROOM, ROOM - 1], 3),
            ] {
                assert_eq!(read_job(text, rooms).refusal(), Some((5, place, 0)));
            }
            for (rooms, place) in [([0, 0], 1), ([ROOM, ROOM + 1], 2)] {
                assert_eq!(read_result(text, rooms).refusal(), Some((5, place, 0)));
            }
        }
    }

    #[test]
    fn result_sheets_are_taken_back_exactly() {
        let refusal = |text: &str| result_refusal(&sheet(text));
        let answer = read_result(&sheet("result system 1 3 7|y 1 1 1 -3|"), [ROOM; 2]);
        let read = answer.done().unwrap();
        assert_eq!((read.kind, read.r, read.n, read.p), (Kind::System, 1, 3, 7));
        assert_eq!(read.rooms, vec![vec![1, 1, 4]]);
        assert_eq!(refusal("result system 1 2 2|y 1 1 1|"), None);
        assert_eq!(refusal("result equation 8 1 2|y 1 0|"), None);
        for (text, expected) in [
            ("", (9, 1, 0)),
            ("system 1 3 7|y 1 1 1 -3|", (9, 1, 0)),
            ("result 1 3 7|y 1 1 1 -3|", (9, 1, 0)),
            ("result  system 1 3 7|y 1 1 1 -3|", (9, 1, 0)),
            ("results system 1 3 7|y 1 1 1 -3|", (9, 1, 0)),
            ("refused 9 1 0|", (9, 1, 0)),
            ("result system 1 3 7", (9, 1, 0)),
            ("result system 9 0 1|", (1, 0, 0)),
            ("result system 1 0 1|", (2, 0, 0)),
            ("result system 1 3 1|", (3, 0, 0)),
            ("result system 1 3 2|", (4, 0, 0)),
            ("result system 8 17 17|", (10, 0, 0)),
            ("result system 1 3 7|", (9, 2, 0)),
            ("result system 1 3 7|y 1 1 1 -3", (9, 2, 0)),
            ("result system 1 3 7|y 1 1 1 4|", (9, 2, 0)),
            ("result system 1 3 7|y 1 1 1 -4|", (9, 2, 0)),
            (
                "result system 1 3 7|y 1 1 1 9223372036854775807|",
                (9, 2, 0),
            ),
            (
                "result system 1 3 7|y 1 1 1 -9223372036854775808|",
                (9, 2, 0),
            ),
            (
                "result system 1 3 7|y 1 1 1 9223372036854775808|",
                (9, 2, 0),
            ),
            ("result system 1 3 7|y 1 1 1 -0|", (9, 2, 0)),
            ("result system 1 3 7|y 2 1 1 -3|", (9, 2, 0)),
            ("result system 1 3 7|Y 1 1 1 -3|", (9, 2, 0)),
            ("result system 1 3 7|y 1 1 1 -3||", (9, 3, 0)),
            ("result system 2 1 7|y 1 1|", (9, 3, 0)),
            ("result system 2 1 7|y 2 1|y 1 1|", (9, 2, 0)),
            ("result equation 2 1 7|y 1 1|y 2 1|", (9, 3, 0)),
            ("result system 1 2 2|y 1 1 -1|", (9, 2, 0)),
            ("result basis 1 1 5|Y 1 1 1|", (9, 3, 0)),
            ("result basis 1 1 5|Z 1 1 1|Y 1 1 1|", (9, 2, 0)),
            ("result basis 1 1 5|Y 1 1 1|Z 1 1 1|Z 1 1 1|", (9, 4, 0)),
        ] {
            assert_eq!(refusal(text), Some(expected), "{text}");
        }
        // Nothing is said about Y and Z beyond their form.
        assert_eq!(refusal("result basis 1 1 5|Y 1 1 0|Z 1 1 2|"), None);
    }

    #[test]
    fn the_checks_of_the_writer() {
        let write = |kind, r, n, p, words: &[&[u32]], length| {
            write_result(kind, r, n, p, words, length).refusal()
        };
        let y: &[u32] = &[1, 1, 4];
        assert_eq!(write(Kind::System, 1, 3, 7, &[y], TEXT), None);
        assert_eq!(write(Kind::System, 9, 0, 1, &[], 0), Some((1, 0, 0)));
        assert_eq!(write(Kind::System, 1, 0, 1, &[], 0), Some((2, 0, 0)));
        assert_eq!(write(Kind::System, 1, 3, 1, &[], 0), Some((3, 0, 0)));
        assert_eq!(write(Kind::System, 1, 3, 2, &[], 0), Some((4, 0, 0)));
        assert_eq!(write(Kind::System, 8, 17, 17, &[], 0), Some((10, 0, 0)));
        assert_eq!(write(Kind::System, 1, 2, 7, &[y], 0), Some((5, 1, 0)));
        assert_eq!(write(Kind::System, 1, 3, 7, &[y], 0), Some((5, 2, 0)));
        let long = TEXT + 1;
        assert_eq!(write(Kind::System, 1, 3, 3, &[y], long), Some((5, 2, 0)));
        assert_eq!(write(Kind::System, 1, 3, 3, &[y], TEXT), Some((6, 1, 2)));
        assert_eq!(write(Kind::Equation, 8, 3, 7, &[y], TEXT), None);
        assert_eq!(write(Kind::System, 2, 3, 7, &[y], TEXT), Some((5, 1, 0)));
        assert_eq!(write(Kind::Basis, 1, 3, 7, &[y, y], TEXT), None);
        let short = &y[..2];
        assert_eq!(write(Kind::Basis, 1, 3, 7, &[y, short], 0), Some((5, 2, 0)));
        assert_eq!(write(Kind::Basis, 1, 3, 7, &[y, y], 0), Some((5, 3, 0)));
        let large: &[u32] = &[1, 9, 9];
        assert_eq!(
            write(Kind::Basis, 1, 3, 7, &[y, large], TEXT),
            Some((6, 2, 1))
        );
        assert_eq!(
            write(Kind::Basis, 1, 3, 7, &[large, large], TEXT),
            Some((6, 1, 1))
        );
        let answer = write_result(Kind::System, 1, 3, 7, &[y], TEXT);
        let text = answer.done().unwrap();
        assert_eq!(text, b"result\tsystem\t1\t3\t7\ny\t1\t1\t1\t-3\n");
        let after = text_after(&[b'#'; TEXT], &answer);
        assert_eq!(&after[..text.len()], &text[..]);
        assert!(after[text.len()..].iter().all(|&byte| byte == b'#'));
    }
}
