//! Gray code, masks, rotations, bit scores, unmasking, reading, drawing.
use super::Kind;
use crate::calls::modulate::*;
use crate::rng::{Rng, special32};
use crate::words::{List, Record};

pub const KIND: Kind = Kind {
    name: "modulate",
    seed: 4,
    random: 380,
    header: "
        gray n = g, gray_inverse g = n
        chroma_symbol_to_hue symbol hues = no hue, hue_to_chroma_symbol hue hues = no symbol     refused 3
        luma_mask_row id x y count = bits     bit i (of value 2^i) is luma_mask(id, x + i, y), count at most 64
        chroma_rotation cx cy hues = no r     refused 3, 7
        chroma_mask_apply hue cx cy hues = no hue, chroma_mask_remove hue cx cy hues = no hue     refused 3, 7
        chroma_bit_llrs |ll| cell cx cy hues |out| = no |out|'     f32; cell 0: no cell (cx, cy are 0); refused 3, 5, 7
        unmask_luma |luma| side |xs| |ys| grid mask = no |luma|'     f32, i32; refused 2, 5, 6, 7
        read score = bit, read_list |scores| |out| = no |out|'     f32, bytes; refused 5
        draw |bits| side hues size |xs| |ys| grid |cxs| |cys| mask |levels| |hues| = no |levels|' |hues|'
            bits and levels are bytes, xs and ys i32, cxs and cys u16, hues usize; refused 2, 3, 4, 5, 6, 7
    ",
    structured,
    one,
};

const COUNTS: [usize; 5] = [1, 2, 4, 8, 16];

fn number<T>(result: Result<T, u32>) -> u32 {
    result.err().unwrap_or(0)
}

fn put_gray(out: &mut List, n: usize) {
    Record::new("gray").w(n).is().w(gray(n)).end(out);
    Record::new("gray_inverse").w(n).is().w(gray_inverse(n)).end(out);
}

fn put_symbol(out: &mut List, n: usize, k: usize) {
    Record::new("chroma_symbol_to_hue").w(n).w(k).answer(chroma_symbol_to_hue(n, k).map(|v| [v])).end(out);
    Record::new("hue_to_chroma_symbol").w(n).w(k).answer(hue_to_chroma_symbol(n, k).map(|v| [v])).end(out);
}

fn put_mask_row(out: &mut List, id: u8, x: u16, y: u16, count: u16) {
    let bits = (0..count).fold(0u64, |bits, i| bits | (luma_mask(id, x + i, y) as u64) << i);
    Record::new("luma_mask_row").w(id).w(x).w(y).w(count).is().w(bits).end(out);
}

fn put_rotation(out: &mut List, h: usize, cx: u16, cy: u16, k: usize) {
    let apply = caught(|| chroma_mask_apply(h, cx, cy, k));
    let remove = caught(|| chroma_mask_remove(h, cx, cy, k));
    Record::new("chroma_mask_apply").w(h).w(cx).w(cy).w(k).answer(apply.map(|v| [v])).end(out);
    Record::new("chroma_mask_remove").w(h).w(cx).w(cy).w(k).answer(remove.map(|v| [v])).end(out);
}

/// The unaltered Rust overflows at the largest hues in a debug build: written as FFFE there.
fn caught(call: impl Fn() -> Result<usize, u32> + std::panic::UnwindSafe) -> Result<usize, u32> {
    std::panic::catch_unwind(call).unwrap_or(Err(0xFFFE))
}

fn put_llrs(out: &mut List, ll: &[f32], cell: Option<(u16, u16)>, k: usize, before: &[f32]) {
    let (cx, cy) = cell.unwrap_or((0, 0));
    let record = Record::new("chroma_bit_llrs").slice(ll).w(cell.is_some()).w(cx).w(cy).w(k).slice(before);
    let mut after = before.to_vec();
    let result = chroma_bit_llrs(ll, cell, k, &mut after);
    record.is().w(number(result)).slice(&after).end(out);
}

fn put_unmask(out: &mut List, luma: &[f32], side: usize, places: (&[i32], &[i32]), grid: usize, mask: u8) {
    let (xs, ys) = places;
    let record = Record::new("unmask_luma").slice(luma).w(side).slice(xs).slice(ys).w(grid).w(mask);
    let mut luma = luma.to_vec();
    let result = unmask_luma(&mut luma, side, xs, ys, grid, mask);
    record.is().w(number(result)).slice(&luma).end(out);
}

fn put_read_list(out: &mut List, scores: &[f32], before: &[u8]) {
    let record = Record::new("read_list").slice(scores).slice(before);
    let mut after = before.to_vec();
    let result = read_list(scores, &mut after);
    record.is().w(number(result)).slice(&after).end(out);
}

fn put_draw(out: &mut List, d: &Drawing, levels: &[u8], hues: &[usize]) {
    let record = Record::new("draw").slice(&d.bits).w(d.side).w(d.k).w(d.size).slice(&d.xs).slice(&d.ys).w(d.grid);
    let record = record.slice(&d.cxs).slice(&d.cys).w(d.mask).slice(levels).slice(hues);
    let (mut levels, mut hues) = (levels.to_vec(), hues.to_vec());
    let result = draw(d, &mut levels, &mut hues);
    record.is().w(number(result)).slice(&levels).slice(&hues).end(out);
}

fn structured(out: &mut List) {
    for n in (0..40).chain([0xFFFF, 1 << 32, 1 << 63, usize::MAX - 1, usize::MAX, 0x5555_5555_5555_5555]) {
        put_gray(out, n);
    }
    for k in [0, 1, 2, 3, 4, 5, 8, 16, 17, 32, usize::MAX] {
        for n in [0, 1, 2, 3, 5, 7, 12, 15, 16, 29, usize::MAX] {
            put_symbol(out, n, k);
        }
    }
    masks(out);
    rotations(out);
    bit_scores(out);
    unmaskings(out);
    readings(out);
    drawings(out);
}

/// All eight rules over a patch of 64 by 64, at the corners of u16, and ids beyond 7.
fn masks(out: &mut List) {
    for id in 0..8 {
        for y in 0..64 {
            put_mask_row(out, id, 0, y, 64);
        }
        for y in [0, 1, 2, 65533, 65534, 65535] {
            put_mask_row(out, id, 65535 - 63, y, 64);
        }
        for y in 65530..=65535 {
            put_mask_row(out, id, 0, y, 12);
        }
    }
    for id in [8, 9, 15, 128, 255] {
        put_mask_row(out, id, 0, 5, 64);
    }
}

fn rotations(out: &mut List) {
    for k in [0, 1, 2, 3, 4, 8, 16, 32, usize::MAX] {
        for (cx, cy) in [(0, 0), (1, 0), (7, 10), (1023, 1022), (1023, 1023), (1024, 0), (0, 1024), (65535, 65535)] {
            Record::new("chroma_rotation").w(cx).w(cy).w(k).answer(chroma_rotation(cx, cy, k).map(|v| [v])).end(out);
            for h in [1, usize::MAX] {
                put_rotation(out, h, cx, cy, k);
            }
        }
    }
    for h in 0..20 {
        for k in COUNTS {
            put_rotation(out, h, h as u16 % 5, 3, k);
        }
    }
    for h in [1 << 63, usize::MAX - 1, usize::MAX - 15, usize::MAX - 16] {
        for k in COUNTS {
            put_rotation(out, h, 1, 0, k);
            put_rotation(out, h, 0, 0, k);
        }
    }
}

fn bit_scores(out: &mut List) {
    let worked = [0.0, -1.0, -4.0, -9.0];
    put_llrs(out, &worked, None, 4, &[7.0; 2]);
    put_llrs(out, &worked, Some((1, 0)), 4, &[7.0; 3]);
    // Every way to fill two scores, in and out of a cell.
    let few = [0.0, -0.0, 1.0, f32::NAN, f32::INFINITY, f32::NEG_INFINITY];
    for a in few {
        for b in few {
            for cell in [None, Some((0, 1))] {
                put_llrs(out, &[a, b], cell, 2, &[5.0]);
            }
        }
    }
    let rng = &mut Rng::new(40);
    for k in COUNTS {
        for cell in [None, Some((0, 0)), Some((1, 2)), Some((1023, 1023))] {
            for values in [&[-1.0f32, -2.0, -3.5][..], &few[..], &[0.0, -0.0][..]] {
                let ll: Vec<f32> = (0..k + rng.below(2)).map(|_| rng.pick(values)).collect();
                put_llrs(out, &ll, cell, k, &vec![9.0; k.trailing_zeros() as usize + rng.below(2)]);
            }
        }
    }
    // Refused: 3 before 5 before 7.
    for k in [0, 3, 5, 32, usize::MAX] {
        put_llrs(out, &[1.0], Some((1024, 0)), k, &[]);
    }
    put_llrs(out, &[1.0; 3], Some((1024, 0)), 4, &[5.0; 2]);
    put_llrs(out, &[1.0; 4], Some((1024, 0)), 4, &[5.0]);
    put_llrs(out, &[1.0; 4], Some((1024, 0)), 4, &[5.0; 2]);
    put_llrs(out, &[1.0; 4], Some((0, 1024)), 4, &[5.0; 2]);
    put_llrs(out, &[1.0; 15], None, 16, &[5.0; 4]);
    put_llrs(out, &[], None, 1, &[]);
    put_llrs(out, &[1.0], None, 1, &[5.0]);
    put_llrs(out, &[1.0], Some((65535, 0)), 1, &[5.0]);
}

fn unmaskings(out: &mut List) {
    let scores = [1.5, -2.5, 0.0, -0.0, f32::NAN, f32::INFINITY, f32::NEG_INFINITY, 20.0];
    let (xs, ys) = ([0, 1, 2, 3, 20, 0, -6, 26], [0, 0, 1, 2, 20, 0, 3, -1]);
    for mask in [0, 1, 2, 3, 4, 5, 6, 7, 8, 255] {
        for grid in [0, 6] {
            put_unmask(out, &scores, 21, (&xs, &ys), grid, mask);
        }
    }
    for side in [0, 1, 20, 21, 1024, 1025, usize::MAX] {
        put_unmask(out, &scores, side, (&xs, &ys), 6, 0);
        put_unmask(out, &[1.0], side, (&[side.saturating_sub(1) as i32], &[0]), 1, 0);
        put_unmask(out, &[1.0], side, (&[side as i32], &[0]), 1, 0);
        put_unmask(out, &[1.0], side, (&[side as i32 + 5], &[-6]), 0, 0);
        put_unmask(out, &[1.0], side, (&[side as i32 + 6], &[-6]), 0, 0);
    }
    put_unmask(out, &[], 21, (&[], &[]), 0, 0);
    put_unmask(out, &[], 21, (&[], &[]), 1, 0);
    put_unmask(out, &[1.0], 21, (&[0, 1], &[0, 1]), 3, 0);
    put_unmask(out, &[1.0; 2], 21, (&[0, 1], &[0]), 3, 0);
    put_unmask(out, &[1.0; 2], 21, (&[0], &[0, 1]), 1, 0);
    put_unmask(out, &[1.0; 4], 21, (&[0, 1], &[-1, 1]), 3, 0);
    put_unmask(out, &[1.0; 4], 21, (&[0, 1], &[-1, 1]), 2, 0);
    put_unmask(out, &[1.0; 4], 21, (&[0, 1], &[-7, 1]), 0, 0);
    put_unmask(out, &[1.0; 4], 21, (&[0, i32::MIN], &[0, 1]), 1, 0);
    put_unmask(out, &[1.0; 4], 21, (&[0, 1], &[0, i32::MAX]), 1, 0);
    put_unmask(out, &[1.0; 4], 21, (&[0, 2, 2], &[0, 0, 0]), 2, 0);
}

fn readings(out: &mut List) {
    for s in special32() {
        Record::new("read").w(s).is().w(read(s)).end(out);
    }
    let scores = [1.0, -1.0, 0.0, -0.0, f32::NAN, -f32::NAN, f32::NEG_INFINITY, f32::from_bits(0x8000_0001)];
    put_read_list(out, &scores, &[9; 8]);
    put_read_list(out, &scores, &[9; 10]);
    put_read_list(out, &scores, &[9; 7]);
    put_read_list(out, &[], &[]);
    put_read_list(out, &[], &[9]);
}

/// A small card: four grid modules, two ring modules, three cells, bits that run through every symbol.
fn small(k: usize, size: usize, mask: u8) -> (Drawing, Vec<u8>, Vec<usize>) {
    let d = Drawing {
        bits: (0..6 + 5 * k.trailing_zeros()).map(|i| (0x9B5D_A631u32 >> (i % 32)) as u8 & 1).collect(),
        side: 21,
        k,
        size,
        xs: vec![0, 3, 20, 3, -6, 25],
        ys: vec![0, 1, 20, 1, 4, -1],
        grid: 4,
        cxs: vec![0, 5, 1023],
        cys: vec![0, 2, 1022],
        mask,
    };
    let entries = if k == 1 { 1 } else { chroma_entries(3, 6, 4, size) };
    (d, vec![7; 6], vec![0x77; entries])
}

fn drawings(out: &mut List) {
    for k in COUNTS {
        for (size, mask) in [(1, 0), (1, 5), (2, 3), (16, 254)] {
            let (d, levels, hues) = small(k, size, mask);
            put_draw(out, &d, &levels, &hues);
        }
        let (mut d, mut levels, mut hues) = small(k, 1, 7);
        d.bits.extend([1, 0]);
        levels.push(3);
        hues.push(5);
        put_draw(out, &d, &levels, &hues);
        d.grid = 0;
        d.bits.extend(vec![1; 16]);
        hues.extend([4; 4]);
        put_draw(out, &d, &levels, &hues);
        d.grid = 6;
        put_draw(out, &d, &levels, &hues);
    }
    refused_drawings(out);
    let none = Drawing { bits: vec![], xs: vec![], ys: vec![], grid: 0, cxs: vec![], cys: vec![], ..small(4, 1, 0).0 };
    put_draw(out, &none, &[], &[]);
    put_draw(out, &none, &[1], &[2, 3]);
}

fn refused_drawings(out: &mut List) {
    let (good, levels, hues) = small(4, 1, 0);
    let mut put = |change: &dyn Fn(&mut Drawing)| {
        let mut d = good.clone();
        change(&mut d);
        put_draw(out, &d, &levels, &hues);
    };
    put(&|d| d.side = 0);
    put(&|d| (d.side, d.k) = (1025, 3));
    put(&|d| (d.k, d.size) = (3, 0));
    put(&|d| (d.k, d.size) = (usize::MAX, 0));
    put(&|d| (d.size, d.grid) = (0, 7));
    put(&|d| d.size = 17);
    put(&|d| d.size = usize::MAX);
    put(&|d| (d.bits, d.grid) = (d.bits[..15].to_vec(), 7));
    put(&|d| (d.bits, d.grid) = (d.bits[..11].to_vec(), 7));
    put(&|d| d.bits.truncate(3));
    put(&|d| (d.xs, d.grid) = (vec![0; 5], 7));
    put(&|d| (d.cys, d.grid) = (vec![0; 4], 7));
    put(&|d| (d.grid, d.xs[0]) = (7, -1));
    put(&|d| d.grid = usize::MAX);
    put(&|d| d.xs[0] = -1);
    put(&|d| d.ys[3] = 21);
    put(&|d| d.ys[5] = 26);
    put(&|d| d.xs[4] = -7);
    put(&|d| d.cxs[1] = 1024);
    put(&|d| d.cys[2] = 65535);
    put(&|d| (d.k, d.cys[2]) = (1, 1024));
    put_draw(out, &good, &levels[..5], &hues);
    put_draw(out, &good, &levels, &hues[..4]);
}

fn one(out: &mut List, rng: &mut Rng) {
    let k = if rng.chance(20) { rng.below(20) } else { rng.pick(&COUNTS) };
    let cell = |rng: &mut Rng| (rng.bits() & if rng.chance(20) { 65535 } else { 1023 }) as u16;
    match rng.below(10) {
        0 => put_gray(out, rng.bits() as usize),
        1 => put_symbol(out, rng.bits() as usize, k),
        2 => put_mask_row(out, rng.below(256) as u8, rng.below(65536 - 63) as u16, rng.below(65536) as u16, 64),
        3 => put_rotation(out, rng.bits() as usize, cell(rng), cell(rng), k),
        4..7 => {
            let place = if rng.chance(3) { None } else { Some((cell(rng), cell(rng))) };
            let kind = rng.below(3);
            let ll: Vec<f32> = (0..k + rng.below(2))
                .map(|_| match kind {
                    0 => rng.float32(),
                    1 => rng.pick(&[0.0, -0.0, -1.0, -2.0]),
                    _ => -rng.single(0.0, 40.0),
                })
                .collect();
            let before = vec![1.0; bits_a_cell(k) + rng.below(2)];
            put_llrs(out, &ll, place, k, &before);
        }
        7 => {
            let scores: Vec<f32> = (0..rng.below(9)).map(|_| rng.float32()).collect();
            put_read_list(out, &scores, &vec![9; (scores.len() + rng.below(3)).saturating_sub(1)]);
        }
        8 => {
            let (m, side) = (rng.below(6), rng.between(1, 30));
            let grid = rng.below(m + 1);
            let places = |rng: &mut Rng| -> Vec<i32> {
                let wide = if rng.chance(9) { 8 } else { 6 };
                (0..m)
                    .map(|i| if i < grid { 0 } else { wide })
                    .map(|out| rng.between(-out, side - 1 + out) as i32)
                    .collect()
            };
            let (xs, ys) = (places(rng), places(rng));
            let luma: Vec<f32> = (0..m + rng.below(2)).map(|_| rng.float32()).collect();
            put_unmask(out, &luma, side as usize, (&xs, &ys), grid, rng.below(256) as u8);
        }
        _ => {
            let (mut d, levels, hues) = small(rng.pick(&COUNTS), rng.between(1, 3) as usize, rng.below(8) as u8);
            d.bits.iter_mut().for_each(|b| *b = rng.below(2) as u8);
            d.xs[..4].iter_mut().chain(&mut d.ys[..4]).for_each(|v| *v = rng.between(0, 20) as i32);
            d.xs[4..].iter_mut().chain(&mut d.ys[4..]).for_each(|v| *v = rng.between(-6, 26) as i32);
            d.cxs.iter_mut().chain(&mut d.cys).for_each(|v| *v = rng.below(1024) as u16);
            put_draw(out, &d, &levels, &hues);
        }
    }
}
