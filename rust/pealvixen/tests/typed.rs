//! The typed jobs: lengths, rooms that are used again, and refusals as a caller meets them.

use pealvixen::{Basis, Equation, Kind, Method, Refusal, Room, System};

/// y' = y, y(0) = 1, with N terms modulo 101.
fn exponential(terms: usize) -> Vec<u32> {
    let mut a = vec![0; terms];
    a[0] = 1;
    a
}

#[test]
fn a_room_serves_small_and_large_jobs() {
    let mut room = Room::new();
    let mut before: Vec<u32> = Vec::new();
    for n in [3, 80, 1, 101, 7] {
        let (a, b) = (exponential(n), vec![0; n]);
        let job = System {
            r: 1,
            n: n as u64,
            p: 101,
            a: &a,
            b: &b,
            v: &[1],
        };
        let y = job.solve(Method::Halving, &mut room).unwrap();
        assert_eq!(y.cells().len(), n);
        let common = n.min(before.len());
        assert_eq!(y.row(0)[..common], before[..common]);
        before = y.row(0).to_vec();

        let found = Basis {
            r: 1,
            n: n as u64,
            p: 101,
            a: &a,
            y0: &[1],
        };
        let found = found.solve(&mut room).unwrap();
        assert_eq!(found.y.entry(0, 0), before);
        assert_eq!(found.z.cells().len(), n);
    }
}

#[test]
fn numbers_out_of_range_are_refused_before_any_length_is_computed() {
    let mut room = Room::new();
    for (r, n, refusal) in [
        (0, 1, Refusal::Order),
        (9, 0, Refusal::Order),
        (u64::MAX, u64::MAX, Refusal::Order),
        (1, 0, Refusal::Terms),
        (8, 4097, Refusal::Terms),
        (8, u64::MAX, Refusal::Terms),
    ] {
        let p = 7;
        let (a, b, v) = (&[][..], &[][..], &[][..]);
        let system = System { r, n, p, a, b, v };
        assert_eq!(system.solve(Method::Halving, &mut room), Err(refusal));
        let basis = Basis { r, n, p, a, y0: b };
        assert_eq!(basis.solve(&mut room), Err(refusal));
        let equation = Equation {
            r,
            n,
            p,
            a,
            b,
            start: v,
        };
        assert_eq!(equation.solve(Method::Halving, &mut room), Err(refusal));
    }
}

#[test]
fn the_lowest_wrong_length_is_named() {
    let mut room = Room::new();
    let whole = [0; 12];
    for (a, b, v, buffer) in [(11, 5, 1, 1), (12, 7, 1, 2), (12, 6, 3, 3)] {
        let job = System {
            r: 2,
            n: 3,
            p: 5,
            a: &whole[..a],
            b: &whole[..b],
            v: &whole[..v],
        };
        let refusal = job.solve(Method::Halving, &mut room).unwrap_err();
        assert_eq!(refusal, Refusal::Length { buffer });
        assert_eq!((refusal.number(), refusal.places()), (5, (buffer, 0)));
    }
}

#[test]
fn every_refusal_is_a_sentence_with_its_number() {
    let all = [
        Refusal::Order,
        Refusal::Terms,
        Refusal::Modulus,
        Refusal::TermsOverModulus,
        Refusal::Length { buffer: 5 },
        Refusal::Word {
            buffer: 1,
            index: 11,
        },
        Refusal::Singular,
        Refusal::LeadingZero,
        Refusal::Line { line: 4 },
        Refusal::Large,
    ];
    for (place, refusal) in all.iter().enumerate() {
        let begin = format!("refused ({}): ", place + 1);
        assert_eq!(refusal.number() as usize, place + 1);
        assert!(refusal.to_string().starts_with(&begin));
    }
    assert_eq!(
        all[4].sentence(Kind::Basis),
        "refused (5): the work room has the wrong length"
    );
    assert_eq!(
        all[5].sentence(Kind::Equation),
        "refused (6): word 11 of a_0..a_r, counted from 0, is not below the modulus"
    );
    assert_eq!(
        all[8].sentence(Kind::System),
        "refused (9): line 4 of the sheet is not in form"
    );
}
