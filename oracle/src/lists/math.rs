//! Linear systems, least squares, medians, deviations.
use super::Kind;
use crate::calls::math::*;
use crate::rng::{Rng, special32};
use crate::words::{List, Record};

pub const KIND: Kind = Kind {
    name: "math",
    seed: 2,
    random: 50,
    header: "
        solve n |a| |b| |x| = out |a|' |b|' |x|'     f64; out 0 solved, FFFF no solution, else refused (5, 6)
        least_squares terms |rows| |targets| |x| = out |x|'     f64; row after row, `terms` each
        add_row terms |m| |rhs| |row| target = no |m|' |rhs|'     f64; m is the first part of the matrix of 324
            doubles, whose rest is +0 before and after; element (i, j) stands at i * terms + j
        finish terms |m| |rhs| |x| = out |m|' |rhs|' |x|'     1e-9 onto the diagonal, then solve
        median |v| = r |v|'     f32
        mad_sigma |v| |scratch| = no r |scratch|'     f32
    ",
    structured,
    one,
};

fn outcome(result: Result<(), u32>) -> u32 {
    result.err().unwrap_or(0)
}

fn put_solve(out: &mut List, n: usize, a: &[f64], b: &[f64], x: &[f64]) {
    let record = Record::new("solve").w(n).slice(a).slice(b).slice(x);
    let (mut a, mut b, mut x) = (a.to_vec(), b.to_vec(), x.to_vec());
    let result = solve(&mut a, &mut b, &mut x, n);
    record.is().w(outcome(result)).slice(&a).slice(&b).slice(&x).end(out);
}

fn put_least_squares(out: &mut List, terms: usize, rows: &[f64], targets: &[f64], x: &[f64]) {
    let record = Record::new("least_squares").w(terms).slice(rows).slice(targets).slice(x);
    let mut x = x.to_vec();
    let result = least_squares(rows, targets, terms, &mut x);
    if result.is_ok() {
        assert_by_pair(rows, targets, terms, &x);
    }
    record.is().w(outcome(result)).slice(&x).end(out);
}

/// The pair of functions gives the Rust's answer.
fn assert_by_pair(rows: &[f64], targets: &[f64], terms: usize, want: &[f64]) {
    let (mut m, mut rhs, mut x) = ([0.0; 324], vec![0.0; terms], vec![0.0; terms]);
    for (row, &target) in rows.chunks(terms).zip(targets) {
        add_row(&mut m, &mut rhs, row, target, terms).unwrap();
    }
    finish(&mut m, &mut rhs, &mut x, terms).unwrap();
    let bits = |v: &[f64]| v.iter().map(|v| if v.is_nan() { 0 } else { v.to_bits() }).collect::<Vec<_>>();
    assert_eq!(bits(&x), bits(&want[..terms]));
}

/// The first part of the matrix as the whole of it.
fn whole(part: &[f64]) -> [f64; 324] {
    std::array::from_fn(|i| part.get(i).copied().unwrap_or(0.0))
}

/// The same first part afterwards; the rest is still +0.
fn part_of(m: &[f64; 324], n: usize) -> &[f64] {
    assert!(m[n..].iter().all(|v| v.to_bits() == 0));
    &m[..n]
}

fn put_add(out: &mut List, terms: usize, part: &[f64], rhs: &[f64], row: &[f64], target: f64) {
    let record = Record::new("add_row").w(terms).slice(part).slice(rhs).slice(row).w(target);
    let (mut m, mut rhs) = (whole(part), rhs.to_vec());
    let result = add_row(&mut m, &mut rhs, row, target, terms);
    record.is().w(outcome(result)).slice(part_of(&m, part.len())).slice(&rhs).end(out);
}

fn put_finish(out: &mut List, terms: usize, part: &[f64], rhs: &[f64], x: &[f64]) {
    let record = Record::new("finish").w(terms).slice(part).slice(rhs).slice(x);
    let (mut m, mut rhs, mut x) = (whole(part), rhs.to_vec(), x.to_vec());
    let result = finish(&mut m, &mut rhs, &mut x, terms);
    record.is().w(outcome(result)).slice(part_of(&m, part.len())).slice(&rhs).slice(&x).end(out);
}

fn put_median(out: &mut List, v: &[f32]) {
    let record = Record::new("median").slice(v);
    let mut v = v.to_vec();
    let r = median(&mut v);
    record.is().w(r).slice(&v).end(out);
}

fn put_mad_sigma(out: &mut List, v: &[f32], scratch: &[f32]) {
    let record = Record::new("mad_sigma").slice(v).slice(scratch);
    let mut scratch = scratch.to_vec();
    let result = mad_sigma(v, &mut scratch);
    record.answer(result.map(|r| [r])).slice(&scratch).end(out);
}

fn doubles(rng: &mut Rng, n: usize) -> Vec<f64> {
    (0..n).map(|_| (rng.normal() * 64.0).round() / 8.0).collect()
}

fn structured(out: &mut List) {
    let rng = &mut Rng::new(20);
    for n in 1..=18 {
        let (a, b, x) = (doubles(rng, n * n), doubles(rng, n), doubles(rng, n));
        put_solve(out, n, &a, &b, &x);
    }
    systems_at_the_edges(out);
    refused_systems(out, rng);
    fits(out, rng);
    medians(out, rng);
    deviations(out, rng);
}

/// Singular, nearly singular and NaN systems, pivots around 1e-12, ties between pivots, factors of zero.
fn systems_at_the_edges(out: &mut List) {
    let nan = f64::NAN;
    let inf = f64::INFINITY;
    let below = f64::from_bits(1e-12f64.to_bits() - 1);
    for p in [0.0, -0.0, 1e-12, -1e-12, below, -below, 1e-13, f64::MIN_POSITIVE, f64::MAX, nan, inf, -inf] {
        put_solve(out, 1, &[p], &[3.0], &[7.0]);
        put_solve(out, 2, &[1.0, 2.0, 0.5, 1.0 + p], &[1.0, 2.0], &[7.0, 8.0]);
        put_solve(out, 2, &[p, 1.0, 1.0, 1.0], &[1.0, 2.0], &[7.0, 8.0]);
        put_solve(out, 2, &[1.0, 1.0, p, 1.0], &[1.0, p], &[7.0, 8.0]);
    }
    put_solve(out, 2, &[1.0, 2.0, -1.0, 4.0], &[1.0, 2.0], &[0.0, 0.0]);
    put_solve(out, 2, &[-1.0, 2.0, 1.0, 4.0], &[1.0, 2.0], &[0.0, 0.0]);
    put_solve(out, 2, &[nan, 1.0, 2.0, 1.0], &[1.0, 2.0], &[7.0, 8.0]);
    put_solve(out, 3, &[1.0, 2.0, 3.0, 2.0, 4.0, 6.0, 1.0, 0.0, 1.0], &[1.0, 2.0, 3.0], &[7.0, 8.0, 9.0]);
    put_solve(out, 3, &[1.0, 2.0, 3.0, 4.0, 5.0, 6.0, 7.0, 8.0, 9.0], &[1.0, 2.0, 3.0], &[7.0, 8.0, 9.0]);
    put_solve(out, 3, &[0.0, 2.0, 3.0, 0.0, 5.0, 6.0, 0.0, 8.0, 9.0], &[1.0, 2.0, 3.0], &[7.0, 8.0, 9.0]);
    put_solve(out, 3, &[0.0, 0.0, 1.0, 0.0, 1.0, 0.0, 1.0, 0.0, 0.0], &[1.0, 2.0, 3.0], &[7.0, 8.0, 9.0]);
    put_solve(out, 3, &[2.0, 1.0, 0.0, 0.0, 1.0, nan, 0.0, 3.0, 1.0], &[1.0, 2.0, 3.0], &[7.0, 8.0, 9.0]);
    put_solve(
        out,
        3,
        &[1e200, 1.0, 0.0, 1e-200, 1e200, 1.0, 1e200, 3.0, 1e-300],
        &[1e300, 2.0, 1e-300],
        &[7.0, 8.0, 9.0],
    );
}

fn refused_systems(out: &mut List, rng: &mut Rng) {
    for (n, a, b, x) in [
        (0, 0, 0, 0),
        (0, 1, 1, 1),
        (1, 0, 1, 1),
        (1, 1, 0, 1),
        (1, 1, 1, 0),
        (2, 3, 2, 2),
        (2, 4, 1, 2),
        (2, 4, 2, 1),
        (3, 8, 3, 3),
        (19, 361, 19, 19),
        (1000, 18, 18, 18),
        (1 << 32, 4, 4, 4),
        (1 << 33, 4, 4, 4),
        (usize::MAX, 4, 4, 4),
        (2, 5, 3, 4),
        (4, 18, 5, 4),
    ] {
        let (a, b, x) = (doubles(rng, a), doubles(rng, b), doubles(rng, x));
        put_solve(out, n, &a, &b, &x);
    }
    for (terms, rows, targets, x) in [
        (0, 0, 0, 0),
        (0, 3, 2, 1),
        (19, 19, 1, 19),
        (19, 18, 1, 19),
        (2, 5, 3, 2),
        (2, 6, 3, 1),
        (2, 7, 3, 3),
        (1 << 63, 4, 2, 4),
        (usize::MAX, 4, 0, 4),
        (2, 0, 0, 2),
    ] {
        let (rows, targets, x) = (doubles(rng, rows), doubles(rng, targets), doubles(rng, x));
        put_least_squares(out, terms, &rows, &targets, &x);
    }
    for (terms, m, rhs, row) in
        [(0, 1, 1, 1), (19, 4, 19, 19), (19, 4, 18, 19), (2, 4, 1, 2), (2, 4, 2, 1), (usize::MAX, 1, 1, 1)]
    {
        let (m, rhs, row) = (doubles(rng, m), doubles(rng, rhs), doubles(rng, row));
        put_add(out, terms, &m, &rhs, &row, 3.0);
        put_finish(out, terms, &m, &rhs, &row);
    }
}

/// Least squares with rows one short, exactly enough and many; equal rows; NaN; the pair by itself.
fn fits(out: &mut List, rng: &mut Rng) {
    for terms in [1, 2, 3, 4, 9] {
        for count in [terms - 1, terms, terms + 1, 2 * terms] {
            let (rows, targets, x) = (doubles(rng, terms * count), doubles(rng, count), doubles(rng, terms));
            put_least_squares(out, terms, &rows, &targets, &x);
        }
    }
    let (rows, targets, x) = (doubles(rng, 18 * 18), doubles(rng, 18), doubles(rng, 18));
    put_least_squares(out, 18, &rows, &targets, &x);
    put_least_squares(out, 1, &doubles(rng, 40), &doubles(rng, 40), &[0.5]);
    // 1e-9 is lost against 8e8, so equal rows have no solution there.
    put_least_squares(out, 2, &[1e4; 16], &[1e4; 8], &[5.0, 6.0]);
    put_least_squares(out, 2, &[1.0; 6], &[1.0; 3], &[5.0, 6.0]);
    put_least_squares(out, 2, &[0.0; 6], &[0.0; 3], &[5.0, 6.0]);
    put_least_squares(out, 2, &[1.0, f64::NAN, 1.0, 2.0, 3.0, 4.0], &[1.0; 3], &[5.0, 6.0]);
    put_least_squares(out, 2, &[1e200, 1.0, 1.0, 2.0, 3.0, 4.0], &[1.0; 3], &[5.0, 6.0]);
    put_least_squares(out, 1, &[0.0], &[f64::INFINITY], &[5.0]);
    for terms in [1, 2, 4, 5] {
        let (m, rhs, row) = (doubles(rng, terms * terms + 1), doubles(rng, terms + 1), doubles(rng, terms + 2));
        put_add(out, terms, &m, &rhs, &row, -2.5);
        put_add(out, terms, &m, &rhs, &row, f64::NAN);
        put_finish(out, terms, &m, &rhs, &row);
        put_finish(out, terms, &vec![0.0; terms * terms], &rhs, &row);
    }
    put_finish(out, 1, &[-1e-9], &[1.0], &[4.0]);
    put_finish(out, 1, &[f64::NAN], &[1.0], &[4.0]);
}

/// Every length to 64 with repeats; every way to order short lists of a few values, NaN and both zeros among them.
fn medians(out: &mut List, rng: &mut Rng) {
    for n in 0..=64 {
        let values: Vec<f32> = (0..n).map(|_| rng.between(0, n as i64 / 2 + 3) as f32 * 0.5).collect();
        put_median(out, &values);
    }
    let few = [0.0, -0.0, 1.0, f32::NAN];
    for n in 1..=3 {
        for code in 0..4usize.pow(n) {
            let v: Vec<f32> = (0..n).map(|i| few[code / 4usize.pow(i) % 4]).collect();
            put_median(out, &v);
        }
    }
    put_median(out, &[4.0, 1.0, 3.0, 2.0]);
    put_median(out, &[1.0, f32::NAN, 2.0]);
    put_median(out, &[f32::INFINITY, f32::NEG_INFINITY]);
    put_median(out, &[f32::MAX, f32::MAX]);
    put_median(out, &[f32::from_bits(1), f32::from_bits(2)]);
    put_median(out, &[0.0, 0.0, 0.0, -0.0, -0.0, -0.0, -1.0, -1.0, -0.0, -0.0, -0.0, 0.0, -0.0, -0.0, -1.0, 0.0]);
    for n in 4..12 {
        put_median(out, &(0..n).map(|_| rng.pick(&few)).collect::<Vec<_>>());
        put_median(out, &(0..n).map(|_| rng.pick(&special32())).collect::<Vec<_>>());
        put_median(out, &(0..n).map(|i| i as f32).collect::<Vec<_>>());
        put_median(out, &(0..n).map(|i| -i as f32).collect::<Vec<_>>());
    }
}

fn deviations(out: &mut List, rng: &mut Rng) {
    put_mad_sigma(out, &[], &[]);
    put_mad_sigma(out, &[], &[3.0]);
    put_mad_sigma(out, &[1.0, 1.0, 1.0], &[9.0; 6]);
    put_mad_sigma(out, &[1.0], &[9.0]);
    put_mad_sigma(out, &[1.0, 2.0], &[9.0; 3]);
    put_mad_sigma(out, &[f32::NAN, 1.0, 2.0], &[f32::NAN; 7]);
    put_mad_sigma(out, &[f32::INFINITY, 1.0, 2.0], &[9.0; 6]);
    put_mad_sigma(out, &[f32::MAX, f32::MIN, 0.0, 1.0], &[9.0; 8]);
    for n in 1..=12 {
        let values: Vec<f32> = (0..n).map(|_| rng.single(-2.0, 2.0)).collect();
        put_mad_sigma(out, &values, &vec![-0.0; 2 * n + n % 3]);
    }
}

fn one(out: &mut List, rng: &mut Rng) {
    match rng.below(8) {
        0 | 1 => {
            let n = rng.between(1, 4) as usize;
            let wild = rng.chance(4);
            let mut numbers =
                |n: usize| (0..n).map(|_| if wild { rng.float64() } else { rng.normal() }).collect::<Vec<_>>();
            let (a, b, x) = (numbers(n * n), numbers(n), numbers(n));
            put_solve(out, n, &a, &b, &x);
        }
        2 => {
            let (terms, count) = (rng.between(1, 5) as usize, rng.below(9));
            let wild = rng.chance(8);
            let mut numbers =
                |n: usize| (0..n).map(|_| if wild { rng.float64() } else { rng.normal() }).collect::<Vec<_>>();
            let (rows, targets, x) = (numbers(terms * count), numbers(count), numbers(terms));
            put_least_squares(out, terms, &rows, &targets, &x);
        }
        3 => {
            let terms = rng.between(1, 4) as usize;
            let mut numbers = |n: usize| (0..n).map(|_| rng.float64()).collect::<Vec<_>>();
            let (m, rhs, row) = (numbers(terms * terms), numbers(terms), numbers(terms));
            if rng.chance(2) {
                put_add(out, terms, &m, &rhs, &row, rng.float64());
            } else {
                put_finish(out, terms, &m, &rhs, &row);
            }
        }
        4..7 => {
            let n = rng.below(17);
            let few = [0.0, -0.0, 1.0, -1.0, 2.0, f32::NAN, f32::INFINITY];
            let kind = rng.below(4);
            let values: Vec<f32> = (0..n)
                .map(|_| match kind {
                    0 => rng.pick(&few),
                    1 => rng.float32(),
                    2 => rng.pick(&few[..5]),
                    _ => rng.normal() as f32,
                })
                .collect();
            put_median(out, &values);
        }
        _ => {
            let n = rng.below(9);
            let wild = rng.chance(3);
            let values: Vec<f32> = (0..n).map(|_| if wild { rng.float32() } else { rng.normal() as f32 }).collect();
            let length = (2 * n + rng.below(4)).saturating_sub(1);
            put_mad_sigma(out, &values, &(0..length).map(|_| rng.any32()).collect::<Vec<_>>());
        }
    }
}
