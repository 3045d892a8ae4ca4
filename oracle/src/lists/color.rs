//! The sRGB table, XYZ and Lab both ways, the colours' own methods, the palette's places.
use super::Kind;
use crate::calls::color::*;
use crate::rng::{Rng, special32};
use crate::words::{List, Record};

pub const KIND: Kind = Kind {
    name: "color",
    seed: 3,
    random: 200,
    header: "
        srgb_to_linear v = f     one byte
        srgb8_to_linear r g b = r g b, srgb8_to_lab r g b = l a b     three bytes to three f32
        rec709_luma r g b = f, to_hex r g b = n, from_hex n = r g b
        linear_to_xyz, xyz_to_linear, xyz_to_lab, lab_to_xyz, linear_to_lab, lab_to_linear: three f32 = three f32
        luminance r g b = y, chroma l a b = c, ab_distance l a b l a b = d     f32
        clamped r g b = r g b, in_gamut r g b = bool     f32
        index light hue hues = no place, palette_len hues = no count, palette_is_empty hues = no bool     refused 3
    ",
    structured,
    one,
};

type Triple = [f32; 3];

fn linear(t: Triple) -> Linear {
    Linear::new(t[0], t[1], t[2])
}

fn lab(t: Triple) -> Lab {
    Lab::new(t[0], t[1], t[2])
}

fn of_linear(c: Linear) -> Triple {
    [c.r, c.g, c.b]
}

fn of_lab(c: Lab) -> Triple {
    [c.l, c.a, c.b]
}

fn put(out: &mut List, name: &str, t: Triple, f: impl Fn(Triple) -> Triple) {
    Record::new(name).all(t).is().all(f(t)).end(out);
}

/// The conversions from linear light towards Lab.
fn forward(out: &mut List, t: Triple) {
    put(out, "linear_to_xyz", t, |t| linear_to_xyz(linear(t)));
    put(out, "xyz_to_lab", t, |t| of_lab(xyz_to_lab(t)));
    put(out, "linear_to_lab", t, |t| of_lab(linear_to_lab(linear(t))));
}

/// The conversions back; `t` is a Lab.
fn back(out: &mut List, t: Triple) {
    put(out, "lab_to_xyz", t, |t| lab_to_xyz(lab(t)));
    put(out, "lab_to_linear", t, |t| of_linear(lab_to_linear(lab(t))));
}

fn methods(out: &mut List, t: Triple, u: Triple) {
    put(out, "xyz_to_linear", t, |t| of_linear(xyz_to_linear(t)));
    Record::new("luminance").all(t).is().w(linear(t).luminance()).end(out);
    Record::new("chroma").all(t).is().w(lab(t).chroma()).end(out);
    Record::new("ab_distance").all(t).all(u).is().w(lab(t).ab_distance(lab(u))).end(out);
    put(out, "clamped", t, |t| of_linear(linear(t).clamped()));
    Record::new("in_gamut").all(t).is().w(linear(t).in_gamut()).end(out);
}

fn bytes(out: &mut List, r: u8, g: u8, b: u8) {
    let c = Srgb8::new(r, g, b);
    Record::new("srgb8_to_linear").w(r).w(g).w(b).is().all(of_linear(srgb8_to_linear(c))).end(out);
    Record::new("srgb8_to_lab").w(r).w(g).w(b).is().all(of_lab(srgb8_to_lab(c))).end(out);
    Record::new("rec709_luma").w(r).w(g).w(b).is().w(c.rec709_luma()).end(out);
    Record::new("to_hex").w(r).w(g).w(b).is().w(c.to_hex()).end(out);
}

fn hex(out: &mut List, n: u32) {
    let c = Srgb8::from_hex(n);
    Record::new("from_hex").w(n).is().w(c.r).w(c.g).w(c.b).end(out);
}

fn places(out: &mut List, light: bool, h: usize, k: usize) {
    Record::new("index").w(light).w(h).w(k).answer(index(light, h, k).map(|i| [i])).end(out);
}

fn structured(out: &mut List) {
    for v in 0..=255u8 {
        Record::new("srgb_to_linear").w(v).is().w(srgb_to_linear(v)).end(out);
    }
    for r in [0, 1, 10, 11, 128, 255] {
        for (g, b) in [(0, 0), (255, 255), (10, 128), (200, 11)] {
            bytes(out, r, g, b);
        }
    }
    for n in [0, 0xFF_FFFF, 0x01_0203, 0xFFFF_FFFF, 0xAB00_0000, 0x8000_0001] {
        hex(out, n);
    }
    grid_of_colours(out);
    at_the_borders(out);
    let corners = special32();
    for (i, &v) in corners.iter().enumerate() {
        let (u, w) = (corners[(7 * i + 5) % corners.len()], corners[(11 * i + 3) % corners.len()]);
        forward(out, [v, 0.25, 0.5]);
        forward(out, [v, u, w]);
        back(out, [v, 1.0, -1.0]);
        back(out, [50.0, v, u]);
        methods(out, [v, u, w], [0.5, w, v]);
        methods(out, [0.5, v, 0.5], [0.5, 0.25, 0.5]);
    }
    for k in [0, 1, 2, 3, 4, 8, 16, 32, usize::MAX] {
        for (light, h) in [(false, 0), (true, 1), (true, 17), (false, usize::MAX)] {
            places(out, light, h, k);
        }
        Record::new("palette_len").w(k).answer(len(k).map(|n| [n])).end(out);
        Record::new("palette_is_empty").w(k).answer(is_empty(k).map(|v| [v])).end(out);
    }
}

fn grid_of_colours(out: &mut List) {
    for r in [0.0, 0.003, 0.2, 1.0] {
        for g in [0.0, 0.05, 1.0] {
            for b in [0.0, 0.6, 1.0] {
                forward(out, [r, g, b]);
            }
        }
    }
    for l in [0.0, 8.0, 50.0, 100.0, -20.0] {
        for a in [-90.0, 0.0, 40.0] {
            for b in [-70.0, 0.0, 60.0] {
                back(out, [l, a, b]);
            }
        }
    }
    forward(out, [-0.0, -0.0, -0.0]);
    forward(out, [1048576.0, -1048576.0, 1048576.0]);
    back(out, [1048576.0, -1048576.0, 1048576.0]);
}

/// Where the root begins (216/24389 of the white point), where the inverse's cube begins (6/29), the gamut.
fn at_the_borders(out: &mut List) {
    let start = (216f32 / 24389.0).to_bits();
    for bits in start - 2..=start + 2 {
        let t = f32::from_bits(bits);
        forward(out, [t, t, t]);
        put(out, "xyz_to_lab", [t * 0.950_47, t, t * 1.088_83], |t| of_lab(xyz_to_lab(t)));
    }
    // L = 116 * 6/29 - 16 = 8.
    for bits in 8f32.to_bits() - 3..=8f32.to_bits() + 3 {
        back(out, [f32::from_bits(bits), 0.0, 0.0]);
    }
    for edge in [-1e-4f32, 1.0 + 1e-4] {
        for bits in edge.to_bits() - 1..=edge.to_bits() + 1 {
            methods(out, [0.5, f32::from_bits(bits), 0.0], [0.5; 3]);
        }
    }
}

fn one(out: &mut List, rng: &mut Rng) {
    let mut wide = |lo: f64, hi: f64| -> Triple { std::array::from_fn(|_| rng.single(lo, hi)) };
    let (unit, lab) = (wide(-0.1, 1.2), wide(-110.0, 110.0));
    let wild: Triple = std::array::from_fn(|_| rng.float32());
    let other: Triple = std::array::from_fn(|_| rng.float32());
    match rng.below(10) {
        0..3 => forward(out, unit),
        3 => forward(out, wild),
        4 | 5 => back(out, lab),
        6 => back(out, wild),
        7 => methods(out, wild, other),
        8 => methods(out, unit, lab),
        _ => {
            let n = rng.bits() as u32;
            bytes(out, n as u8, (n >> 8) as u8, (n >> 16) as u8);
            hex(out, n);
            places(out, rng.chance(2), rng.bits() as usize, rng.pick(&[1, 2, 4, 8, 16]));
        }
    }
}
