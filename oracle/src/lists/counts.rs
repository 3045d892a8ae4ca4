//! How palettes divide the colours.
use super::Kind;
use super::stats::{any_stats, put_stats, stats};
use crate::calls::color::{Srgb8, srgb8_to_lab};
use crate::calls::counts::*;
use crate::calls::stats::{ChannelStats, nominal};
use crate::card::make;
use crate::rng::Rng;
use crate::words::{List, Record};
use lcr_core::palette::{C4_COLORS, C8_COLORS, M_COLORS, Palette};

pub const KIND: Kind = Kind {
    name: "counts",
    seed: 10,
    random: 24,
    header: "
        STATS is: l0 l1 sigma_l sigma_ab level0 level1 (f32), samples (a count)
        PALETTE is a slice of f32: two levels, a and b per hue, Lab per colour (dark by hue, then light)
        colour_counts STATS PALETTE hues length = no |out|'     lent `length` u32, each 7, which needs 2 * hues + 1; refused 3, 5, 8, 9
    ",
    structured,
    one,
};

fn put_counts(out: &mut List, s: &ChannelStats, palette: &[f32], k: usize, length: usize) {
    let record = put_stats(Record::new("colour_counts"), s).slice(palette).w(k).w(length);
    let mut after = vec![7; length];
    let result = colour_counts(s, palette, k, &mut after);
    record.is().w(result.err().unwrap_or(0)).slice(&after).end(out);
}

/// The flat palette of inks: the Rust's levels and hue points.
fn inks(colours: &[Srgb8]) -> Vec<f32> {
    let k = colours.len() / 2;
    let p = Palette::new(k, colours);
    let mut flat = p.level_l.to_vec();
    flat.extend(p.hue_ab.iter().flatten());
    flat.extend(p.lab.iter().flat_map(|c| [c.l, c.a, c.b]));
    flat
}

fn structured(out: &mut List) {
    // The Rust's palettes at nominal noise, and with the levels exchanged.
    for colours in [&M_COLORS[..], &C4_COLORS, &C8_COLORS] {
        let (k, palette) = (colours.len() / 2, inks(colours));
        let s = nominal(&palette, k).expect("a palette");
        put_counts(out, &s, &palette, k, classes(k));
        put_counts(out, &ChannelStats { l0: s.l1, l1: s.l0, ..s }, &palette, k, classes(k) + 4);
    }
    for k in [8, 16] {
        let palette = make::palette(k, 30.0, 74.0, 40.0, 0.0);
        put_counts(out, &stats(30.0, 74.0, 3.0, 4.0, [0.0; 2]), &palette, k, classes(k));
        put_counts(out, &stats(30.0, 74.0, 3.0, 4.0, [5.0, 2.0]), &palette, k, classes(k) + 1);
    }
    let most = 1_099_511_627_776.0;
    // Equal levels; a difference that underflows; the widest.
    let two = inks(&C4_COLORS);
    for (l0, l1, sigma_l) in [
        (50.0, 50.0, 6.0),
        (-0.0, 0.0, 0.75),
        (0.0, 1e-22, most),
        (1e-45, 0.0, most),
        (-most, most, most),
        (most, -most, 0.75),
        (0.0, 100.0, 0.75),
    ] {
        put_counts(out, &stats(l0, l1, sigma_l, 6.0, [0.0; 2]), &two, 2, classes(2));
    }
    // Hue points that are equal, all of them or in pairs, and far away.
    let good = stats(30.0, 74.0, 6.0, 6.0, [0.0; 2]);
    for points in [[0.0; 8], [20.0, 0.0, 0.0, 20.0, 0.0, 20.0, 20.0, 0.0], [1_048_576.0; 8]] {
        let mut palette = inks(&C8_COLORS);
        palette[2..10].copy_from_slice(&points);
        put_counts(out, &good, &palette, 4, classes(4));
    }
    // The sigma vanishes from the light level on: a colour that sits on a hue point has a NaN there, the others minus
    // infinity.
    let vanishing = stats(most, 0.0, 6.0, 6.0, [most, 0.75]);
    let grey = srgb8_to_lab(Srgb8::new(128, 64, 200));
    for points in [[0.0, 0.0, 0.0, 0.0, 0.0, 0.0, 1.0, 1.0], [grey.a, grey.b, grey.a, grey.b, 1.0, 1.0, 0.0, 0.0]] {
        let mut palette = inks(&C8_COLORS);
        palette[2..10].copy_from_slice(&points);
        put_counts(out, &vanishing, &palette, 4, classes(4));
        put_counts(out, &stats(-1.0, 0.0, 6.0, 6.0, [most, 0.75]), &palette, 4, classes(4));
    }
    refusals(out, &good, &two);
}

/// Refused, each with the later ones broken too.
fn refusals(out: &mut List, good: &ChannelStats, two: &[f32]) {
    let narrow = ChannelStats { sigma_l: 0.5, ..*good };
    let mut wild = two.to_vec();
    wild[4] = f32::NAN;
    for k in [0, 3, 17, usize::MAX] {
        put_counts(out, &narrow, &wild, k, 3);
        put_counts(out, good, two, k, 33);
    }
    for (palette, length) in [(&wild[..], 4), (&wild[..17], 5), (&wild[..17], 40), (&wild[..0], 0)] {
        put_counts(out, &narrow, palette, 2, length);
    }
    put_counts(out, &narrow, &wild, 2, 5);
    put_counts(out, &ChannelStats { l0: f32::INFINITY, ..narrow }, two, 2, 5);
    for s in [narrow, ChannelStats { sigma_ab: 0.0, ..*good }, ChannelStats { sigma_ab_level: [0.0, 0.5], ..*good }] {
        put_counts(out, &s, two, 2, 6);
    }
    // What the counts do not need is not looked at, past the palette's numbers and the room.
    let mut long = two.to_vec();
    long.push(f32::NAN);
    put_counts(out, good, &long, 2, 9);
}

fn one(out: &mut List, rng: &mut Rng) {
    let s = any_stats(rng);
    let k = rng.pick(&[1, 2, 4, 8]);
    let chroma = rng.single(10.0, 70.0);
    let mut palette = make::palette(k, s.l0, s.l1, chroma, rng.pick(&[0.0, 1.0, 4.0]));
    if rng.chance(12) {
        let at = rng.below(palette.len());
        palette[at] = rng.float32();
    }
    let more = rng.below(3);
    put_counts(out, &s, &palette, k, classes(k) + more);
}
