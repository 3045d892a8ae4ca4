//! Which references a fit kept, and which of them stand near a module.
use super::Kind;
use super::illum::with_outliers;
use crate::calls::illum::fit_kept;
use crate::calls::near::*;
use crate::rng::Rng;
use crate::words::{List, Record};

pub const KIND: Kind = Kind {
    name: "near",
    seed: 13,
    random: 120,
    header: "
        kept |flat| side version len fill = no rejected kept |marks|'     f32, eight a reference (x, y, observed,
            nominal); the lent marks are `len` bytes, each `fill` before; the scratch is long enough; refused 2, 5, 6,
            7, 8, 11, and then |marks|' follows the number; so does |out|' below
        nearest |xy| |kept| side x y len fill = no count |out|'     f32, two a reference; the lent room has `len` places,
            each `fill` before; refused 2, 5, 6, 7
        within |xy| |kept| side x y radius len fill = no count |out|'     the radius is an f32; refused 15 too
        cut_off |xy| |kept| side x y column len fill = no count |out|'     refused 2, 5, 6, 7
    ",
    structured,
    one,
};

fn put_near(out: &mut List, xy: &[f32], kept: &[u8], side: usize, [x, y]: [i32; 2], query: Query, len: usize) {
    let fill = 0xDEAD_BEEFu32;
    let name = match query {
        Query::Nearest => "nearest",
        Query::Within(_) => "within",
        Query::CutOff(_) => "cut_off",
    };
    let record = Record::new(name).slice(xy).slice(kept).w(side).w(x).w(y);
    let record = match query {
        Query::Nearest => record,
        Query::Within(radius) => record.w(radius),
        Query::CutOff(column) => record.w(column),
    };
    let record = record.w(len).w(fill).is();
    let mut room = vec![fill; len];
    let record = match near(xy, kept, side, x, y, query, &mut room) {
        Ok(count) => record.w(0u8).w(count),
        Err(number) => record.w(number),
    };
    record.slice(&room).end(out);
}

/// All three queries of one module, with as much room as they need, and two places more.
fn put_all(out: &mut List, xy: &[f32], kept: &[u8], side: usize, at: [i32; 2], radius: f32, column: i32) {
    for query in [Query::Nearest, Query::Within(radius), Query::CutOff(column)] {
        put_near(out, xy, kept, side, at, query, xy.len() / 2 + 2);
    }
}

fn put_kept(out: &mut List, flat: &[f32], side: usize, version: u8, len: usize) {
    let fill = 9u8;
    // A reference that is not whole counts too, and is missing.
    let n = flat.len().div_ceil(8);
    let record = Record::new("kept").slice(flat).w(side).w(version).w(len).w(fill).is();
    let mut marks = vec![fill; len];
    let record = match fit_kept(flat, n, side, version, len, &mut vec![0.0; 4 * n]) {
        Ok((model, kept)) => {
            marks.iter_mut().zip(&kept).for_each(|(mark, &kept)| *mark = kept as u8);
            record.w(0u8).w(model.rejected).w(model.kept)
        }
        Err(number) => record.w(number),
    };
    record.slice(&marks).end(out);
}

const ALL: [u8; 12] = [1; 12];

/// Positions by pairs.
fn flat(pairs: &[[f32; 2]]) -> Vec<f32> {
    pairs.concat()
}

fn structured(out: &mut List) {
    nearest_and_within(out);
    radii(out);
    columns(out);
    ties(out);
    refused(out);
    marks(out);
}

fn nearest_and_within(out: &mut List) {
    let xy = flat(&[[10.5, 10.5], [12.5, 10.5], [10.5, 13.5], [8.5, 10.5], [10.5, 8.5], [14.5, 13.5]]);
    for at in [[10, 10], [-6, -6], [26, 26], [27, 0], [0, -7], [i32::MIN, 0], [0, i32::MAX]] {
        put_all(out, &xy, &ALL, 21, at, 3.4e38, at[0]);
    }
    for kept in [[0, 0, 1, 0, 1, 0], [0; 6], [0, 0, 0, 0, 0, 255], [2, 0, 3, 0, 128, 0], [1, 1, 1, 1, 0, 0]] {
        put_all(out, &xy, &kept, 21, [10, 10], 3.0, 11);
    }
    put_all(out, &[], &[], 1, [0, 0], 0.0, 0);
    put_all(out, &[0.5, 0.5], &[1], 1, [0, 0], 0.0, 0);
}

fn radii(out: &mut List) {
    let xy = flat(&[[13.5, 14.5], [10.5, 10.5]]);
    let below = |v: f32| f32::from_bits(v.to_bits() - 1);
    let named = [5.0, below(5.0), 0.0, -0.0, f32::from_bits(1), f32::MAX, f32::MIN_POSITIVE, 4.0, 6.0];
    let bad = [f32::from_bits(0x8000_0001), -1.0, f32::NAN, f32::INFINITY, f32::NEG_INFINITY, -f32::MAX];
    for radius in named.into_iter().chain(bad) {
        put_near(out, &xy, &ALL, 21, [10, 10], Query::Within(radius), 2);
        put_near(out, &xy, &ALL, 21, [-7, 10], Query::Within(radius), 2);
    }
    // As far as a position lets: the square of the distance has digits to round.
    let far = flat(&[[1040.0, 1040.0], [-16.0, -16.0], [1039.9999, 3.1415927], [0.1, 0.2]]);
    for radius in [1465.0, 1464.9998, 1465.0002, 22.0, 23.0] {
        put_near(out, &far, &ALL, 1024, [3, 4], Query::Within(radius), 4);
    }
}

fn columns(out: &mut List) {
    let mut pairs: Vec<[f32; 2]> = [2.5, 4.5, 6.5, 8.5, 10.5, 12.5, 7.0].map(|x| [x, 5.5]).to_vec();
    pairs.push([6.5, 9.5]);
    pairs.extend([0x4117_FFFF, 0x4118_0000, 0x4118_0001].map(|bits| [f32::from_bits(bits), 5.5]));
    for column in [9, 4, 6, 5, 7, -6, 26, -7, 27, i32::MIN, i32::MAX] {
        put_near(out, &flat(&pairs), &ALL, 21, [6, 5], Query::CutOff(column), 11);
        // Turned: the column cuts by x alone.
        let turned: Vec<[f32; 2]> = pairs.iter().map(|&[x, y]| [y, x]).collect();
        put_near(out, &flat(&turned), &ALL, 21, [5, 6], Query::CutOff(column), 11);
    }
}

fn ties(out: &mut List) {
    let tiny = f32::from_bits(1);
    put_all(out, &flat(&[[0.0, 0.5], [tiny, 0.5], [-tiny, 0.5]]), &ALL, 21, [0, 0], 0.5, 0);
    put_all(out, &flat(&[[12.5, f32::from_bits(0x3F00_0001)], [12.5, 0.5]]), &ALL, 21, [3, 0], 9.0, 12);
    // A ring of references, all as far, with nearer ones between.
    let ring = [[3.0, 4.0], [4.0, 3.0], [5.0, 0.0], [0.0, 1.0], [-3.0, 4.0], [0.0, -5.0], [-1.0, 0.0], [-4.0, -3.0]];
    let ring: Vec<[f32; 2]> = ring.iter().map(|[x, y]| [x + 10.5, y + 10.5]).collect();
    for kept in [[1; 8], [1, 1, 0, 0, 1, 1, 0, 1], [0, 1, 1, 1, 1, 1, 0, 0]] {
        put_all(out, &flat(&ring), &kept, 21, [10, 10], 5.0, 12);
    }
}

fn refused(out: &mut List) {
    let xy = flat(&[[1.0, 2.0], [3.0, 4.0], [5.0, 6.0]]);
    let queries = [Query::Nearest, Query::Within(f32::NAN), Query::CutOff(27), Query::Within(2.0)];
    for query in queries {
        for side in [0, 1025, usize::MAX] {
            put_near(out, &xy[..5], &ALL, side, [99, 99], query, 0);
        }
        put_near(out, &xy[..5], &ALL, 21, [99, 99], query, 3);
        put_near(out, &xy, &ALL[..2], 21, [99, 99], query, 3);
        put_near(out, &xy, &ALL, 21, [99, 99], query, 2);
        put_near(out, &xy, &ALL[..3], 21, [4, 4], query, 3);
        // A reference that was not kept is checked all the same.
        for (at, value) in [(2, 37.000004), (3, f32::NAN), (4, -16.000002), (5, 37.0), (0, -16.0)] {
            let mut moved = xy.clone();
            moved[at] = value;
            put_near(out, &moved, &[1, 0, 0], 21, [4, 4], query, 3);
        }
    }
}

fn marks(out: &mut List) {
    let rng = &mut Rng::new(60);
    for (n, outliers) in
        [(0, 0), (7, 0), (7, 2), (8, 0), (8, 1), (8, 3), (9, 1), (10, 2), (11, 2), (12, 3), (12, 4), (16, 3), (24, 6)]
    {
        for version in [1, 10] {
            let flat = with_outliers(rng, n, outliers);
            put_kept(out, &flat, 21, version, n + 2);
        }
    }
    let flat = with_outliers(rng, 10, 2);
    for (side, len) in [(21, 10), (21, 9), (21, 0), (0, 10), (1025, 9)] {
        put_kept(out, &flat, side, 1, len);
        put_kept(out, &flat[..79], side, 1, len);
    }
    for (at, value) in
        [(0, 38.0), (9, f32::NAN), (2, f32::INFINITY), (7, f32::NAN), (2, f32::MAX), (3, 1e30), (13, -f32::MAX)]
    {
        let mut changed = flat.clone();
        changed[at] = value;
        put_kept(out, &changed, 21, 1, 10);
        put_kept(out, &changed, 21, 1, 9);
    }
    // All alike: the equations have no solution.
    put_kept(out, &[5.0, 5.0, 0.5, 0.5, 0.5, 0.25, 0.25, 0.25].repeat(9), 21, 1, 9);
}

/// A random coordinate: a module's centre or edge, or anywhere.
fn coordinate(rng: &mut Rng, side: usize) -> f32 {
    match rng.below(3) {
        0 => rng.between(-12, side as i64 * 2 + 12) as f32 / 2.0,
        1 => rng.between(0, 6) as f32 / 2.0,
        _ => rng.single(-16.0, side as f64 + 16.0),
    }
}

fn one(out: &mut List, rng: &mut Rng) {
    if rng.chance(8) {
        let n = rng.between(7, 16) as usize;
        let outliers = rng.below(5);
        let flat = with_outliers(rng, n, outliers);
        return put_kept(out, &flat, 21, rng.pick(&[1, 10]), n + rng.below(2));
    }
    let side = rng.pick(&[1, 2, 21, 21, 1024]);
    let n = rng.pick(&[1, 3, 4, 5, 12, 40]);
    let xy: Vec<f32> = (0..2 * n).map(|_| coordinate(rng, side)).collect();
    let kept: Vec<u8> = (0..n).map(|_| rng.pick(&[0, 1, 1, 1])).collect();
    let mut module = || rng.between(-6, side as i64 + 5) as i32;
    let (at, column) = ([module(), module()], module());
    let query = match rng.below(3) {
        0 => Query::Nearest,
        1 => Query::Within(rng.pick(&[0.5, 1.0, 2.5, 5.0, 12.0, 1500.0])),
        _ => Query::CutOff(column),
    };
    put_near(out, &xy, &kept, side, at, query, n);
}
