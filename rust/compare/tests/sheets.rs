//! Sheets: the library's readers and writers against the second program's.

use compare::Tally;
use reference::jobs::{lengths, WordJob};
use reference::random::{
    any_result_sheet, any_sheet, any_writer_call, damaged_result_sheet, damaged_sheet,
};
use reference::random::{
    good_job_of, good_result_sheet, good_writer_call, plain_job_sheet, random_job_sheet,
};
use reference::random::{room_lengths, Bounds, Random, QUICK};
use reference::sheets::{read_job, read_result, solve_sheet, ROOM, TEXT};
use reference::worked::worked;
use reference::{Answer, Kind};

/// Jobs up to the largest that a sheet takes.
const WHOLE: Bounds = Bounds {
    cells: 1024,
    widest: u64::MAX,
};

/// Rooms of these lengths with something in every word.
fn rooms<const COUNT: usize>(random: &mut Random, lengths: &[usize]) -> [Vec<u32>; COUNT] {
    let mut rooms = [(); COUNT].map(|_| Vec::new());
    for (room, &length) in rooms.iter_mut().zip(lengths) {
        *room = vec![random.draw() as u32; length];
    }
    rooms
}

/// Reads a text as a job sheet and as a result sheet.
fn read_both(tally: &mut Tally, text: &[u8]) {
    tally.job_sheet(text, &[vec![7; ROOM], vec![8; ROOM], vec![9; ROOM]]);
    tally.result_sheet(text, &[vec![7; ROOM], vec![8; ROOM]]);
}

#[test]
fn worked_jobs_by_sheets() {
    let mut tally = Tally::default();
    for worked in worked() {
        let text = plain_job_sheet(&worked.job);
        read_both(&mut tally, &text);
        read_both(&mut tally, &solve_sheet(&text));
    }
    tally.report("worked jobs as sheets");
}

/// A sound sheet is read, solved, written and read back.
#[test]
fn round_trips() {
    let (mut jobs, mut results, mut writers) = <(Tally, Tally, Tally)>::default();
    let mut random = compare::random(20);
    for round in 0..1500 {
        let bounds = if round % 10 == 0 { WHOLE } else { QUICK };
        let job = good_job_of(&mut random, Kind::ALL[round % 3], bounds);
        let text = random_job_sheet(&mut random, &job);
        let answer = read_job(&text, [ROOM; 3]);
        assert_eq!(
            answer.done().unwrap().rooms,
            job.buffers[..job.kind.read_buffers()]
        );
        jobs.job_sheet(&text, &rooms(&mut random, &[ROOM; 3]));

        let printed = solve_sheet(&text);
        let answer = read_result(&printed, [ROOM; 2]);
        assert_eq!(Some(&answer.done().unwrap().rooms), job.answer().done());
        results.result_sheet(&printed, &rooms(&mut random, &[ROOM; 2]));

        let call = good_writer_call(&mut random, bounds);
        writers.writer(&call, random.draw() as u8);
        let text = call.answer().done().unwrap().clone();
        let answer = read_result(&text, [ROOM; 2]);
        assert_eq!(answer.done().unwrap().rooms, call.words);
        results.result_sheet(&text, &rooms(&mut random, &[ROOM; 2]));
    }
    jobs.report("round trips, job sheets");
    results.report("round trips, result sheets");
    writers.report("round trips, written");
    assert_eq!(
        jobs.answers[0] + results.answers[0] + writers.answers[0],
        6000
    );
}

#[test]
fn random_and_damaged_sheets() {
    let (mut jobs, mut results) = <(Tally, Tally)>::default();
    let mut random = compare::random(21);
    for round in 0..9000 {
        let text = match round % 4 {
            0 => any_sheet(&mut random, WHOLE),
            _ => damaged_sheet(&mut random, QUICK, 1 + round % 3),
        };
        let lengths = room_lengths(&mut random, 3);
        jobs.job_sheet(&text, &rooms(&mut random, &lengths));
        let text = match round % 4 {
            0 => any_result_sheet(&mut random, WHOLE),
            _ => damaged_result_sheet(&mut random, QUICK, 1 + round % 3),
        };
        let lengths = room_lengths(&mut random, 2);
        results.result_sheet(&text, &rooms(&mut random, &lengths));
    }
    jobs.report("damaged job sheets");
    results.report("damaged result sheets");
    for number in [0, 1, 2, 3, 4, 5, 9, 10] {
        assert!(jobs.answers[number] > 20 && results.answers[number] > 20);
    }
}

#[test]
fn writer_calls() {
    let mut tally = Tally::default();
    let mut random = compare::random(22);
    for round in 0..6000 {
        let bounds = if round % 10 == 0 { WHOLE } else { QUICK };
        let call = any_writer_call(&mut random, bounds);
        tally.writer(&call, random.draw() as u8);
    }
    tally.report("writers");
    for number in [0, 1, 2, 3, 4, 5, 6, 10] {
        assert!(tally.answers[number] > 20);
    }
}

/// Small sheets of every kind, job and result.
fn small_sheets() -> Vec<Vec<u8>> {
    let mut random = compare::random(23);
    let mut sheets = Vec::new();
    for (kind, r, n, p) in [
        (Kind::System, 1, 3, 7),
        (Kind::System, 2, 1, 11),
        (Kind::Basis, 1, 2, 2),
        (Kind::Basis, 2, 2, 13),
        (Kind::Equation, 1, 2, 5),
        (Kind::Equation, 2, 3, 101),
    ] {
        let job = reference::random::sound_job(&mut random, kind, r, n, p);
        let text = random_job_sheet(&mut random, &job);
        sheets.push(solve_sheet(&text));
        sheets.push(text);
        sheets.push(plain_job_sheet(&job));
    }
    sheets
}

/// Every byte of small sheets dropped, doubled, changed, put in front of, and swapped with its neighbour.
#[test]
fn every_byte_of_small_sheets() {
    let mut tally = Tally::default();
    for sheet in small_sheets() {
        for place in 0..=sheet.len() {
            for byte in *b"\t\n\r 0179-+.aAbvVyYZ\0\xff" {
                let mut text = sheet.clone();
                text.insert(place, byte);
                read_both(&mut tally, &text);
                if place < sheet.len() {
                    text.remove(place + 1);
                    read_both(&mut tally, &text);
                }
            }
            read_both(&mut tally, &sheet[..place]);
            if place < sheet.len() {
                let mut text = sheet.clone();
                text.remove(place);
                read_both(&mut tally, &text);
                let mut text = sheet.clone();
                text.insert(place, sheet[place]);
                read_both(&mut tally, &text);
                let mut text = sheet.clone();
                text.swap(place, (place + 1) % sheet.len());
                read_both(&mut tally, &text);
            }
        }
    }
    tally.report("every byte of small sheets");
}

/// Every field and every line of small sheets dropped, doubled, and swapped with every other of its line or sheet.
#[test]
fn every_field_and_line_of_small_sheets() {
    let mut tally = Tally::default();
    for sheet in small_sheets() {
        let lines: Vec<&[u8]> = sheet.split(|&byte| byte == b'\n').collect();
        for changed in changes(&lines) {
            read_both(&mut tally, &changed.join(&b'\n'));
        }
        for (place, line) in lines.iter().enumerate() {
            let fields: Vec<&[u8]> = line.split(|&byte| byte == b'\t').collect();
            for changed in changes(&fields) {
                let line = changed.join(&b'\t');
                let mut lines = lines.clone();
                lines[place] = &line;
                read_both(&mut tally, &lines.join(&b'\n'));
            }
        }
    }
    tally.report("every field and line of small sheets");
}

/// A list with each part dropped, doubled or emptied, and with each two parts swapped.
fn changes<'a>(parts: &[&'a [u8]]) -> Vec<Vec<&'a [u8]>> {
    let mut all = Vec::new();
    for one in 0..parts.len() {
        let mut dropped = parts.to_vec();
        dropped.remove(one);
        all.push(dropped);
        let mut doubled = parts.to_vec();
        doubled.insert(one, parts[one]);
        all.push(doubled);
        let mut emptied = parts.to_vec();
        emptied[one] = b"";
        all.push(emptied);
        for other in one + 1..parts.len() {
            let mut swapped = parts.to_vec();
            swapped.swap(one, other);
            all.push(swapped);
        }
    }
    all
}

/// Numbers at and beside every edge, in the place of every number of a small sheet.
#[test]
fn numbers_at_every_edge() {
    let mut forms: Vec<String> = Vec::new();
    let edges: [i128; 12] = [
        0,
        7,
        1 << 31,
        1 << 32,
        2_147_483_647,
        4096,
        9_999_999_999,
        10_000_000_000,
        1 << 63,
        1 << 64,
        10_000_000_000_000_000_000,
        99_999_999_999_999_999_999_999,
    ];
    for edge in edges {
        for number in edge - 2..=edge + 2 {
            for sign in ["", "-", "+", "--", "0", "-0", " "] {
                forms.push(format!("{sign}{}", number.unsigned_abs()));
            }
            forms.push(format!("{} ", number.unsigned_abs()));
        }
    }
    for (r, n, p) in [(1, 1, 2), (1, 1, 7), (1, 1, 2_147_483_647)] {
        for number in [
            p / 2 - 1,
            p / 2,
            p / 2 + 1,
            p - 1,
            p,
            p + 1,
            2 * p,
            2 * p + 1,
        ] {
            forms.push(number.to_string());
            forms.push(format!("-{number}"));
        }
        let mut tally = Tally::default();
        for kind in Kind::ALL {
            let read: Vec<Vec<u32>> = lengths(kind, r, n)[..kind.read_buffers()]
                .iter()
                .map(|&length| vec![1; length as usize])
                .collect();
            let job = WordJob::with_read(kind, r, n, p, &read, 0);
            let text = plain_job_sheet(&job);
            for sheet in [solve_sheet(&text), text] {
                let lines: Vec<&[u8]> = sheet.split(|&byte| byte == b'\n').collect();
                for place in 0..lines.len() - 1 {
                    let fields: Vec<&[u8]> = lines[place].split(|&byte| byte == b'\t').collect();
                    for field in 1..fields.len() {
                        for form in &forms {
                            let mut fields = fields.clone();
                            fields[field] = form.as_bytes();
                            let line = fields.join(&b'\t');
                            let mut lines = lines.clone();
                            lines[place] = &line;
                            read_both(&mut tally, &lines.join(&b'\n'));
                        }
                    }
                }
            }
        }
        tally.report(&format!("numbers at every edge, p = {p}"));
    }
}

/// Texts of 65535 to 65538 bytes, and the longest sound sheet.
#[test]
fn the_longest_sheets() {
    let mut tally = Tally::default();
    let mut random = compare::random(24);
    for length in [TEXT - 1, TEXT, TEXT + 1, TEXT + 2, 2 * TEXT] {
        for byte in *b"\t\n0 a" {
            read_both(&mut tally, &vec![byte; length]);
            for sheet in [
                good_result_sheet(&mut random, QUICK),
                any_sheet(&mut random, QUICK),
            ] {
                let mut behind = sheet.clone();
                behind.resize(length, byte);
                read_both(&mut tally, &behind);
                let mut inside = sheet;
                let at = inside.len() / 2;
                let rest = inside.split_off(at);
                inside.resize(length - rest.len(), byte);
                inside.extend(rest);
                read_both(&mut tally, &inside);
            }
        }
    }
    // The largest sheet with every number as long as a number can be.
    for kind in Kind::ALL {
        for r in 1..=8u64 {
            let n = 1024 / (r * r);
            let p = 2_147_483_647;
            let job = reference::random::sound_job(&mut random, kind, r, n, p);
            let wide = lengthened(&plain_job_sheet(&job), p as i64);
            assert!(wide.len() <= TEXT);
            let answer = read_job(&wide, [ROOM; 3]);
            assert!(matches!(answer, Answer::Done(_)));
            read_both(&mut tally, &wide);
        }
    }
    tally.report("the longest sheets");
}

/// A sheet with every number above 8 behind its header (the others may be places) written as the lowest of its class.
fn lengthened(text: &[u8], p: i64) -> Vec<u8> {
    let header = text.iter().position(|&byte| byte == b'\n').unwrap() + 1;
    let mut wide = text[..header].to_vec();
    for field in text[header..].split_inclusive(|&byte| byte == b'\n' || byte == b'\t') {
        let (digits, end) = field.split_at(field.len() - 1);
        match std::str::from_utf8(digits).unwrap().parse::<i64>() {
            Ok(number) if number > 8 => {
                let least = i64::MIN + (number - i64::MIN.rem_euclid(p)).rem_euclid(p);
                wide.extend(least.to_string().as_bytes());
            }
            _ => wide.extend(digits),
        }
        wide.extend(end);
    }
    wide
}
