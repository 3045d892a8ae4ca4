//! Cards of every shape: clean, noisy, glared, with outliers, repeats and rings, and damaged ones.
use super::Card;
use crate::calls::illum::{Model, identity};
use crate::rng::Rng;
use lcr_core::color::{Lab, Linear, lab_to_linear};
use std::collections::HashMap;

/// Sixteen points of a circle, a step of 22.5 degrees apart.
const CIRCLE: [(f32, f32); 16] = [
    (1.0, 0.0),
    (0.9239, 0.3827),
    (0.7071, 0.7071),
    (0.3827, 0.9239),
    (0.0, 1.0),
    (-0.3827, 0.9239),
    (-0.7071, 0.7071),
    (-0.9239, 0.3827),
    (-1.0, 0.0),
    (-0.9239, -0.3827),
    (-0.7071, -0.7071),
    (-0.3827, -0.9239),
    (0.0, -1.0),
    (0.3827, -0.9239),
    (0.7071, -0.7071),
    (0.9239, -0.3827),
];

/// Two levels and `k` hues around grey: levels, hue points, dark colours, light colours.
pub fn palette(k: usize, l0: f32, l1: f32, chroma: f32, spread: f32) -> Vec<f32> {
    let points: Vec<(f32, f32)> = (0..k)
        .map(|h| CIRCLE[h * (16 / k)])
        .map(|(a, b)| if k == 1 { (0.0, 0.0) } else { (a * chroma, b * chroma) })
        .collect();
    let mut flat = vec![l0, l1];
    flat.extend(points.iter().flat_map(|&(a, b)| [a, b]));
    for (level, l) in [l0, l1].into_iter().enumerate() {
        for (h, (a, b)) in points.iter().enumerate() {
            let off = spread * ((h + level) % 3) as f32 - spread;
            flat.extend([l + off, a + off, b - off]);
        }
    }
    flat
}

/// The linear value of a palette's colour.
pub fn colour(palette: &[f32], k: usize, light: bool, hue: usize) -> Linear {
    let at = 2 + 2 * k + 3 * (light as usize * k + hue);
    lab_to_linear(Lab::new(palette[at], palette[at + 1], palette[at + 2]))
}

/// What the light and the sensor do to a colour at a place.
pub struct Channel {
    side: f64,
    gain: [f64; 3],
    slope: [f64; 2],
    flare: f64,
    glare: (f64, f64, f64),
    noise: f64,
}

impl Channel {
    pub fn new(rng: &mut Rng, side: usize) -> Channel {
        let side = side as f64;
        let strength = rng.pick(&[0.0, 0.0, 0.1, 0.6]);
        Channel {
            side,
            gain: std::array::from_fn(|_| rng.real(0.6, 1.3)),
            slope: std::array::from_fn(|_| rng.real(-0.4, 0.4)),
            flare: rng.pick(&[0.0, 0.0, 0.05]),
            glare: (rng.real(0.0, side), rng.real(0.0, side), strength),
            noise: rng.pick(&[0.0, 0.001, 0.01, 0.05]),
        }
    }

    /// The same with a glare of this strength.
    pub fn glared(mut self, strength: f64) -> Channel {
        self.glare.2 = strength;
        self
    }

    /// The model that undoes gain, slope and flare: what a fit could find at best where nothing glares.
    pub fn undone(&self) -> Model {
        let mut model = identity(self.side as usize).expect("the side of a card");
        for (c, gain) in self.gain.into_iter().enumerate() {
            model.gain[c][..3].copy_from_slice(&[gain, gain * self.slope[0] / 2.0, gain * self.slope[1] / 2.0]);
            model.flare[c][0] = self.flare;
        }
        model
    }

    pub fn observe(&self, rng: &mut Rng, x: f64, y: f64, c: Linear) -> [f32; 3] {
        let shade = 1.0 + self.slope[0] * (x / self.side - 0.5) + self.slope[1] * (y / self.side - 0.5);
        let (dx, dy) = ((x - self.glare.0) / 4.0, (y - self.glare.1) / 4.0);
        let glare = self.glare.2 / (1.0 + dx * dx + dy * dy);
        let c = [c.r, c.g, c.b];
        std::array::from_fn(|i| {
            (c[i] as f64 * self.gain[i] * shade + self.flare + glare + self.noise * rng.normal()) as f32
        })
    }
}

/// `n` references as flat floats: palette colours, white and black, some of them outliers.
pub fn references(rng: &mut Rng, n: usize, side: usize, k: usize, palette: &[f32], channel: &Channel) -> Vec<f32> {
    let outliers = rng.pick(&[0, 0, 12, 5]);
    let mut flat = Vec::new();
    for i in 0..n {
        let nominal = match i % 9 {
            7 => Linear::new(1.0, 1.0, 1.0),
            8 => Linear::new(0.0, 0.0, 0.0),
            _ => colour(palette, k, i % 2 == 1, rng.below(k)),
        };
        let out = if rng.chance(5) { 3.0 } else { 0.0 };
        let (x, y) = (rng.real(-out, side as f64 + out), rng.real(-out, side as f64 + out));
        let mut seen = channel.observe(rng, x, y, nominal);
        if outliers > 0 && rng.chance(outliers) {
            seen = seen.map(|v| v + 0.8);
        }
        flat.extend([x as f32, y as f32]);
        flat.extend(seen);
        flat.extend([nominal.r, nominal.g, nominal.b]);
    }
    flat
}

/// A card of a random shape that keeps document 01's limits, with at most `most` modules.
pub fn card(rng: &mut Rng, most: usize) -> Card {
    let k = rng.pick(&[1, 1, 2, 2, 4, 4, 8, 16]);
    let side = rng.pick(&[1, 5, 7, 8, 9, 12, 16, 21, 64]).min(64);
    let chroma = rng.single(25.0, 70.0);
    let (l0, l1) = if rng.chance(20) { (70.0, 30.0) } else { (rng.single(15.0, 40.0), rng.single(60.0, 90.0)) };
    let spread = rng.pick(&[0.0, 0.0, 1.0]);
    let palette = palette(k, l0, l1, chroma, spread);
    let channel = Channel::new(rng, side);
    let n = rng.pick(&[0, 3, 7, 8, 9, 11, 12, 16, 23, 24, 40, 53, 54, 60]);
    let mut card = Card {
        side: side as u16,
        version: rng.pick(&[1, 1, 9, 10, 32, 255]),
        hues: k as u8,
        size: rng.pick(&[1, 1, 2, 3, 16]),
        mask: rng.below(256) as u8,
        references: references(rng, n, side, k, &palette, &channel),
        palette,
        ..Card::default()
    };
    add_modules(rng, &mut card, &channel, most);
    card
}

fn add_modules(rng: &mut Rng, card: &mut Card, channel: &Channel, most: usize) {
    let (k, size) = (card.hues as usize, card.size as usize);
    let side = card.side as i64;
    let mut hue_of = HashMap::new();
    let mut cells: Vec<(u16, u16)> = Vec::new();
    let raster = rng.chance(2);
    let grid = rng.below(most + 1);
    for i in 0..grid as i64 {
        let (x, y) =
            if raster { (i % side, i / side % side) } else { (rng.between(0, side - 1), rng.between(0, side - 1)) };
        let cell = ((x as usize / size) as u16, (y as usize / size) as u16);
        let hue = *hue_of.entry(cell).or_insert_with(|| {
            cells.push(cell);
            rng.below(k)
        });
        add_module(rng, card, channel, (x, y), hue);
    }
    card.grid = grid as u16;
    if rng.chance(2) {
        for i in 0..rng.below(most / 4 + 1) as i64 {
            let place = if raster {
                (i % (side + 12) - 6, -6 + i / (side + 12))
            } else {
                (rng.between(-6, side + 5), rng.between(-6, side + 5))
            };
            let hue = rng.below(k);
            add_module(rng, card, channel, place, hue);
        }
    }
    if k > 1 || rng.chance(4) {
        for (cx, cy) in cells.into_iter().filter(|_| !rng.chance(10)).collect::<Vec<_>>() {
            let half = size as f64 / 2.0;
            let light = rng.chance(2);
            let c = colour(&card.palette, k, light, hue_of[&(cx, cy)]);
            let seen = channel.observe(rng, cx as f64 * size as f64 + half, cy as f64 * size as f64 + half, c);
            card.cxs.push(cx);
            card.cys.push(cy);
            card.cell_raw.extend(seen);
        }
    }
}

fn add_module(rng: &mut Rng, card: &mut Card, channel: &Channel, (x, y): (i64, i64), hue: usize) {
    let c = colour(&card.palette, card.hues as usize, rng.chance(2), hue);
    let seen = channel.observe(rng, x as f64 + 0.5, y as f64 + 0.5, c);
    card.xs.push(x as i32);
    card.ys.push(y as i32);
    card.raw.extend(seen);
}

/// A card file that is as long as one may be: references, grid and ring modules and cells in any shares.
pub fn large(rng: &mut Rng) -> Vec<u8> {
    let k = rng.pick(&[1, 2, 4, 8, 16]);
    let (side, size) = (rng.pick(&[8, 21, 63, 64]), rng.pick(&[1, 1, 2, 16]));
    let palette = palette(k, 30.0, 75.0, 45.0, 0.0);
    let channel = Channel::new(rng, side);
    let mut left = (16_384 - 56 - 32 * k) / 16;
    let mut share = |rng: &mut Rng| {
        let any = rng.below(left + 1);
        let taken = rng.pick(&[0, left / 4, left / 2, any, left]);
        left -= taken;
        taken
    };
    let n = share(rng) / 2;
    let [cells, ring, grid] = [share(rng), share(rng), left];
    let mut card = Card {
        side: side as u16,
        version: rng.pick(&[1, 10]),
        hues: k as u8,
        size,
        mask: rng.below(8) as u8,
        grid: grid as u16,
        references: references(rng, n, side, k, &palette, &channel),
        palette,
        ..Card::default()
    };
    for i in 0..grid + ring {
        let (lo, hi) = if i < grid { (0, side as i64 - 1) } else { (-6, side as i64 + 5) };
        let (place, hue) = ((rng.between(lo, hi), rng.between(lo, hi)), rng.below(k));
        add_module(rng, &mut card, &channel, place, hue);
    }
    for _ in 0..cells {
        let colour = colour(&card.palette, k, rng.chance(2), rng.below(k));
        let [cx, cy] = std::array::from_fn(|_| {
            let near = rng.below(side) as u16;
            if rng.chance(8) { rng.below(1024) as u16 } else { near }
        });
        card.cxs.push(cx);
        card.cys.push(cy);
        card.cell_raw.extend(channel.observe(rng, cx as f64, cy as f64, colour));
    }
    card.file()
}

/// One thing on a card set to something that a refusal or an edge may hang on.
pub fn spoil(rng: &mut Rng, card: &mut Card) {
    let value = match rng.below(3) {
        0 => rng.float32(),
        1 => rng.pick(&[f32::NAN, f32::INFINITY, 1_048_576.0, 1_048_577.0, -1_048_576.0, 3e38, 0.0, -16.0, 37.5]),
        _ => rng.single(-2e6, 2e6),
    };
    let floats = [&mut card.palette, &mut card.references, &mut card.raw, &mut card.cell_raw];
    let which = rng.below(8);
    if let Some(list) = floats.into_iter().nth(which) {
        if !list.is_empty() {
            let at = rng.below(list.len());
            list[at] = value;
        }
        return;
    }
    let number = rng.pick(&[0, 1, 2, 3, 5, 8, 16, 17, 20, 63, 64, 65, 255]);
    match rng.below(7) {
        0 => card.side = number as u16,
        1 => card.version = number,
        2 => card.size = number,
        3 => card.grid = rng.below(card.xs.len() + 2) as u16,
        4 if !card.xs.is_empty() => {
            let at = rng.below(card.xs.len());
            card.xs[at] = rng.between(-8, 72) as i32;
        }
        5 if !card.cxs.is_empty() => {
            let at = rng.below(card.cxs.len());
            card.cys[at] = rng.pick(&[0, 1023, 1024, 65535]);
        }
        _ => {
            card.hues = number;
            card.palette.resize(2 + 8 * number as usize, 1.0);
        }
    }
}

/// A damaged file: bytes changed, cut off, put in or repeated.
pub fn damage(rng: &mut Rng, file: &mut Vec<u8>) {
    let at = rng.below(file.len().max(1));
    match rng.below(6) {
        0 => file.truncate(at),
        1 => file.insert(at, rng.bits() as u8),
        2 if file.len() >= 40 => {
            let word = 4 * rng.below(10);
            file[word..word + 4].copy_from_slice(&(rng.bits() as u32 >> rng.pick(&[0, 8, 16, 24, 28])).to_le_bytes());
        }
        3 => file.resize(rng.pick(&[0, 39, 40, 16_376, 16_384, 16_385, 20_000]), 0),
        _ if !file.is_empty() => file[at] ^= 1 << rng.below(8),
        _ => {}
    }
}

/// Any card file: most of them good, some spoiled, some damaged.
pub fn any(rng: &mut Rng) -> Vec<u8> {
    let most = rng.pick(&[2, 20, 60, 150, 260]);
    let mut card = card(rng, most);
    for _ in 0..rng.pick(&[0, 0, 0, 1, 2]) {
        spoil(rng, &mut card);
    }
    let mut file = card.file();
    if rng.chance(8) {
        damage(rng, &mut file);
    }
    file
}
