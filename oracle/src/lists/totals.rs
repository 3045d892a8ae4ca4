//! Totals over a season's cards: a card added, two totals added, the mean.
use super::Kind;
use crate::calls::totals::*;
use crate::rng::{Rng, special32};
use crate::words::{List, Record};

pub const KIND: Kind = Kind {
    name: "totals",
    seed: 12,
    random: 240,
    header: "
        TOTALS is five counts: cards, modules, undecided modules, modules under 12, the sum in 65,536ths
        add_card TOTALS |luma| = no TOTALS     luma f32, the card's refined scores; refused 6, 18, 19
        add_totals TOTALS TOTALS = no TOTALS     refused 18
        mean TOTALS = no numerator denominator     refused 18
    ",
    structured,
    one,
};

const CARDS: u64 = 65_535;
const MODULES: u64 = 1_048_576;
const PARTS: u64 = 1_310_720;

fn put_card(out: &mut List, t: Totals, luma: &[f32]) {
    Record::new("add_card").all(t).slice(luma).answer(add_card(t, luma)).end(out);
}

fn put_totals(out: &mut List, a: Totals, b: Totals) {
    Record::new("add_totals").all(a).all(b).answer(add_totals(a, b)).end(out);
}

fn put_mean(out: &mut List, t: Totals) {
    Record::new("mean").all(t).answer(mean(t)).end(out);
}

/// `n` cards whose every module counts for all that it can.
fn filled(n: u64) -> Totals {
    [n, n * MODULES, n * MODULES, n * MODULES, n * MODULES * PARTS]
}

/// Totals at each limit of sentence 18, and one past it.
fn edges() -> Vec<Totals> {
    let mut all = vec![[0; 5], [u64::MAX; 5], [CARDS + 1, 0, 0, 0, 0], [CARDS - 1, 1 << 44, 0, 0, 0], [2, 5, 5, 3, 0]];
    for cards in [0, 1, 2, CARDS - 1, CARDS] {
        let modules = cards * MODULES;
        all.extend([[cards, 0, 0, 0, 0], [cards, modules, 0, 0, 0], [cards, modules + 1, 0, 0, 0], filled(cards)]);
        all.extend([[cards, modules, modules + 1, 0, 0], [cards, modules, 0, modules + 1, 0]]);
        all.push([cards, modules, 0, 0, modules * PARTS + 1]);
    }
    // The products of these limits and the sums of these cards are beyond 64 bits.
    let far = [1 << 44, 1 << 63, u64::MAX];
    all.extend(far.iter().flat_map(|&n| (0..5).map(move |i| std::array::from_fn(|j| if i == j { n } else { 0 }))));
    all
}

fn structured(out: &mut List) {
    let bits = |patterns: &[u32]| -> Vec<f32> { patterns.iter().map(|&b| f32::from_bits(b)).collect() };
    // Halves of a 65,536th and what stands beside them; 12 and 20 with their neighbours; of both signs.
    for near in [0x3700_0000u32, 0x37C0_0000, 0x3820_0000, 0x3860_0000, 0x413F_FFFF, 0x4140_0000, 0x41A0_0000] {
        for pattern in [near - 1, near, near + 1] {
            put_card(out, [0; 5], &bits(&[pattern]));
            put_card(out, [0; 5], &bits(&[pattern | 0x8000_0000]));
        }
    }
    // Every exponent up to that of 20, with the digits at which a half begins and ends.
    for field in 0..=131u32 {
        let digits = bits(&[0, 1, 0x3F_FFFF, 0x40_0000, 0x40_0001, 0x7F_FFFF].map(|m| field << 23 | m));
        put_card(out, [0; 5], if field < 131 { &digits } else { &digits[..2] });
    }
    for v in special32() {
        put_card(out, [0; 5], &[v]);
        put_card(out, [3, 9, 1, 2, 700], &[1.0, v]);
    }
    put_card(out, [0; 5], &[]);
    for t in edges() {
        put_card(out, t, &[1.0]);
        put_card(out, t, &[-12.0, f32::NAN]);
        put_card(out, t, &[]);
        put_mean(out, t);
        for other in [[0; 5], [1, 0, 0, 0, 0], [1, 2, 3, 0, 0], filled(32_768)] {
            put_totals(out, t, other);
            put_totals(out, other, t);
        }
    }
    put_totals(out, filled(32_767), filled(32_768));
    put_totals(out, filled(32_768), filled(32_768));
    // Euclid's longest run below the limits; powers of two; a divisor of everything; primes.
    let batch = |modules, sum| [CARDS, modules, 0, 0, sum];
    for (modules, sum) in [
        (53_316_291_173, 86_267_571_272),
        (1 << 36 >> 1, 1 << 56),
        (6, 3),
        (12, 0),
        (1, PARTS),
        (3 * 5 * 7 * 11, 7 * 11 * 13),
        (65_521, 65_537),
        (2_147_483_647, 4_294_967_291),
    ] {
        put_mean(out, batch(modules, sum));
    }
}

/// Totals that are within the limits, or at times a little beyond one of them.
fn any_totals(rng: &mut Rng) -> Totals {
    let cards = match rng.below(3) {
        0 => rng.below(9) as u64,
        1 => rng.below(65_536) as u64,
        _ => CARDS - rng.below(3) as u64,
    };
    let modules = rng.below((cards * MODULES + 1) as usize) as u64 >> rng.below(36);
    let part = |rng: &mut Rng, most: u64| rng.below(most as usize + 1) as u64 >> rng.below(8);
    let mut t = [cards, modules, part(rng, modules), part(rng, modules), part(rng, modules * PARTS)];
    if rng.chance(6) {
        t[rng.below(5)] = rng.bits() >> rng.below(64);
    }
    t
}

fn score(rng: &mut Rng) -> f32 {
    match rng.below(12) {
        0 => rng.single(11.99, 12.01),
        1 => rng.single(-1e-3, 1e-3),
        2 => rng.between(-9, 9) as f32 / 131_072.0,
        3 if rng.chance(30) => rng.float32(),
        _ => rng.single(-20.0, 20.0),
    }
}

fn one(out: &mut List, rng: &mut Rng) {
    let t = any_totals(rng);
    match rng.below(4) {
        0 | 1 => {
            let luma: Vec<f32> = (0..rng.below(24)).map(|_| score(rng)).collect();
            put_card(out, t, &luma);
        }
        2 => put_totals(out, t, any_totals(rng)),
        _ => put_mean(out, t),
    }
}
