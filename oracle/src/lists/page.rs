//! Pages for the panel door.
use super::Kind;
use crate::calls::page::*;
use crate::rng::{Rng, special32};
use crate::words::{List, Record};

pub const KIND: Kind = Kind {
    name: "page",
    seed: 14,
    random: 110,
    header: "
        page side terms kept rejected held |xs| |ys| grid |luma| lent fill = no |page|'
            i32, f32, bytes; the slice that is lent has `lent` bytes, at most 2,304, each `fill`; refused 2, 5, 6, 7, 10, 14
    ",
    structured,
    one,
};

fn put(out: &mut List, p: &Laying, lent: usize, fill: u8) {
    let record = Record::new("page").w(p.side).w(p.terms).w(p.kept).w(p.rejected).w(p.held).slice(&p.xs).slice(&p.ys).w(p.grid);
    let record = record.slice(&p.luma).w(lent).w(fill);
    let mut after = vec![fill; lent];
    let number = page(p, &mut after).err().unwrap_or(0);
    record.is().w(number).slice(&after).end(out);
}

/// The bytes of a page of this side.
fn room(side: usize) -> usize {
    51 * (side + 1)
}

/// Modules at these places, the first `grid` of them grid modules.
fn laying(side: usize, grid: usize, listed: &[(i32, i32, f32)]) -> Laying {
    Laying {
        side,
        terms: 4,
        kept: 0,
        rejected: 0,
        held: 0,
        xs: listed.iter().map(|m| m.0).collect(),
        ys: listed.iter().map(|m| m.1).collect(),
        grid,
        luma: listed.iter().map(|m| m.2).collect(),
    }
}

fn structured(out: &mut List) {
    pages(out);
    numbers(out);
    scores(out);
    refusals(out);
}

fn pages(out: &mut List) {
    for side in [1, 2, 3, 39, 40] {
        put(out, &laying(side, 0, &[]), room(side), 0);
    }
    // A longer slice keeps its rest.
    put(out, &laying(1, 0, &[]), room(1) + 7, 0x55);
    // Which of x and y is the column.
    put(out, &laying(3, 2, &[(2, 0, -20.0), (0, 2, 20.0)]), room(3), 0);
    // Ring modules on the grid and off it.
    let ring =
        [(0, 0, -20.0), (2, 1, 20.0), (-6, 0, 1.0), (9, 9, 1.0), (-1, 3, 1.0), (3, -1, 1.0), (4, 0, 1.0), (0, 4, 1.0)];
    put(out, &laying(4, 1, &ring), room(4), 0);
    // Listed twice and three times: the last entry shows.
    put(out, &laying(4, 1, &[(1, 1, 20.0), (1, 1, 0.0)]), room(4), 0);
    put(out, &laying(4, 3, &[(1, 2, 0.0), (1, 2, 20.0), (1, 2, -20.0), (2, 1, 20.0)]), room(4), 0);
    // Scores behind the modules do not count.
    let mut more = laying(2, 1, &[(1, 0, 1.0)]);
    more.luma.extend([f32::NAN, -1.0]);
    put(out, &more, room(2), 0);
    // The corners of the widest page.
    put(out, &laying(40, 4, &[(0, 0, 1.0), (39, 0, -1.0), (0, 39, 0.0), (39, 39, 1.0)]), room(40), 0);
}

fn numbers(out: &mut List) {
    for (terms, kept, rejected, held) in [
        (4, 1, 2, 3),
        (9, 9, 10, 11),
        (9, 99, 100, 999_999),
        (4, 999, 1000, 1_000_000),
        (9, 9999, 10000, 1_048_575),
        (9, 16384, 16384, 1_048_576),
        (9, 12345, 678, 90),
    ] {
        put(out, &Laying { terms, kept, rejected, held, ..laying(1, 0, &[]) }, room(1), 0);
    }
}

fn scores(out: &mut List) {
    let edges = [0x41A0_0000, 0xC1A0_0000, 0, 0x8000_0000, 0x7FC0_0000, 0xFFC0_0001, 1, 0x8000_0001, 0x7F80_0000];
    let listed: Vec<_> = (0..9).map(|i| (i % 3, i / 3, f32::from_bits(edges[i as usize]))).collect();
    put(out, &laying(3, 9, &listed), room(3), 0);
    let all = special32();
    let listed: Vec<_> = (0..all.len() as i32).map(|i| (i % 7, i / 7, all[i as usize])).collect();
    put(out, &laying(7, listed.len(), &listed), room(7), 0);
}

/// Each sentence, and its neighbours in checking order.
fn refusals(out: &mut List) {
    let one = laying(3, 1, &[(0, 0, 1.0)]);
    let wide = laying(41, 1, &[(0, 0, 1.0)]);
    for side in [0, 1025, usize::MAX] {
        put(out, &Laying { side, ..one.clone() }, 51, 9);
    }
    put(out, &one, room(3) - 1, 9);
    put(out, &laying(1, 0, &[]), 101, 9);
    put(out, &laying(1024, 0, &[]), 100, 9);
    put(out, &wide, room(41) - 1, 9);
    put(out, &Laying { ys: vec![], ..one.clone() }, room(3), 9);
    put(out, &Laying { xs: vec![], ..one.clone() }, room(3), 9);
    put(out, &Laying { luma: vec![], grid: 2, ..one.clone() }, room(3), 9);
    put(out, &Laying { grid: 2, ..one.clone() }, room(3), 9);
    put(out, &Laying { grid: usize::MAX, ..one.clone() }, room(3), 9);
    for (kept, rejected) in [(16385, 0), (0, 16385), (16385, 16385), (u32::MAX, 0), (0, u32::MAX)] {
        put(out, &Laying { kept, rejected, xs: vec![7], ..one.clone() }, room(3), 9);
    }
    for held in [1_048_577, usize::MAX] {
        put(out, &Laying { held, xs: vec![7], ..one.clone() }, room(3), 9);
    }
    put(out, &Laying { held: 1_048_576, xs: vec![7], ..one.clone() }, room(3), 9);
    put(out, &Laying { kept: 16385, xs: vec![-1], ..wide.clone() }, room(41), 9);
    for place in [-1, 3, i32::MIN, i32::MAX] {
        put(out, &Laying { xs: vec![place], terms: 5, ..one.clone() }, room(3), 9);
        put(out, &Laying { ys: vec![place], ..one.clone() }, room(3), 9);
    }
    put(out, &laying(4, 0, &[(10, 0, 1.0)]), room(4), 9);
    put(out, &laying(4, 0, &[(-7, 0, 1.0)]), room(4), 9);
    for terms in [0, 3, 5, 8, 10, usize::MAX] {
        put(out, &Laying { terms, ..one.clone() }, room(3), 9);
    }
    put(out, &Laying { terms: 5, ..wide.clone() }, room(41), 9);
    put(out, &wide, room(41), 9);
}

fn one(out: &mut List, rng: &mut Rng) {
    let side = if rng.chance(12) { rng.between(1, 42) } else { rng.between(1, 7) } as usize;
    let modules = rng.below(40);
    let grid = rng.below(modules + 1);
    let mut listed = Vec::new();
    for i in 0..modules {
        let out = if i < grid { 0 } else { 6 };
        let mut place = || rng.between(-out, side as i64 - 1 + out) as i32;
        let (x, y) = (place(), place());
        listed.push((x, y, rng.float32()));
    }
    let mut p = laying(side, grid, &listed);
    p.terms = rng.pick(&[4, 9]);
    p.kept = rng.below(16_385) as u32 >> rng.below(15);
    p.rejected = rng.below(16_385) as u32 >> rng.below(15);
    p.held = rng.below(1_048_577) >> rng.below(21);
    // One in four has something spoiled.
    if rng.chance(4) {
        match rng.below(6) {
            0 => p.terms = rng.below(12),
            1 => p.kept += 16_384,
            2 => p.rejected += 16_384,
            3 => p.grid = rng.below(modules + 3),
            4 => p.held += 1_048_576,
            _ => p.luma.truncate(rng.below(modules + 1)),
        }
        if modules > 0 && rng.chance(2) {
            p.xs[rng.below(modules)] += rng.between(-3, 3) as i32;
        }
    }
    let lent = (room(side) + rng.below(12)).saturating_sub(if rng.chance(10) { 12 } else { 0 });
    put(out, &p, lent, rng.bits() as u8);
}
