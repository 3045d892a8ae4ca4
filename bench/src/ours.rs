//! Our side, through the static library: a case for each name in rust.rs, on the same inputs.
use super::Case;

#[cfg(not(ours))]
pub fn cases() -> Vec<Case> {
    Vec::new()
}

#[cfg(ours)]
pub use linked::cases;

#[cfg(ours)]
mod linked {
    use super::Case;
    use crate::library::*;
    use crate::rust::{Seen, seen};
    use oracle::rng::Rng;
    use std::hint::black_box;

    fn case(name: &'static str, units: usize, call: impl FnMut() + 'static) -> Case {
        Case { name, units, call: Box::new(call) }
    }

    /// A card's lists as the library takes them, and room for what it writes.
    struct Lists {
        card: Seen,
        xs: Vec<i32>,
        ys: Vec<i32>,
        cxs: Vec<u16>,
        cys: Vec<u16>,
        craw: Vec<f32>,
        luma: Vec<f32>,
        colours: Vec<f32>,
        chroma: Vec<f32>,
        kept: Vec<u8>,
        scratch: Vec<f32>,
    }

    impl Lists {
        /// All modules as grid modules, with chroma on each its own cell.
        fn new(card: Seen) -> Lists {
            let (m, bits) = (card.places.len(), card.k.ilog2() as usize);
            let cells = if card.k > 1 { m } else { 0 };
            let references = card.flat_references.len() / 8;
            Lists {
                xs: card.places.iter().map(|p| p.0).collect(),
                ys: card.places.iter().map(|p| p.1).collect(),
                cxs: card.places[..cells].iter().map(|p| p.0 as u16).collect(),
                cys: card.places[..cells].iter().map(|p| p.1 as u16).collect(),
                craw: card.raw[..3 * cells].to_vec(),
                luma: vec![0.0; m],
                colours: vec![0.0; 3 * m],
                chroma: vec![0.0; bits * cells],
                kept: vec![0; references],
                scratch: vec![0.0; (4 * references).max((card.side + 12).pow(2))],
                card,
            }
        }

        fn fit(&mut self, version: u8) -> Model {
            let (flat, k, s) = (&self.card.flat_references, &mut self.kept, &mut self.scratch);
            let (kept, marks, side) = (k.as_mut_ptr(), k.len(), self.card.side);
            let r = unsafe {
                purdolve_fit_flat(flat.as_ptr(), flat.len(), side, version, kept, marks, s.as_mut_ptr(), s.len())
            };
            assert_eq!(r.number, 0);
            r.model
        }

        fn measure(&mut self, model: Model) -> Stats {
            let (flat, p, s) = (&self.card.flat_references, &self.card.flat_palette, &mut self.scratch);
            let r = unsafe {
                purdolve_measure_flat(
                    flat.as_ptr(),
                    flat.len(),
                    self.card.side,
                    model,
                    p.as_ptr(),
                    p.len(),
                    self.card.k,
                    s.as_mut_ptr(),
                    s.len(),
                )
            };
            assert_eq!(r.number, 0);
            r.noise
        }

        fn score(&mut self, model: Model, noise: Stats) {
            let (raw, p) = (&self.card.raw, &self.card.flat_palette);
            let r = unsafe {
                purdolve_score(
                    self.card.side,
                    self.card.k,
                    1,
                    self.xs.as_ptr(),
                    self.xs.len(),
                    self.ys.as_ptr(),
                    self.ys.len(),
                    self.xs.len(),
                    raw.as_ptr(),
                    raw.len(),
                    self.cxs.as_ptr(),
                    self.cxs.len(),
                    self.cys.as_ptr(),
                    self.cys.len(),
                    self.craw.as_ptr(),
                    self.craw.len(),
                    p.as_ptr(),
                    p.len(),
                    model,
                    noise,
                    self.luma.as_mut_ptr(),
                    self.luma.len(),
                    self.colours.as_mut_ptr(),
                    self.colours.len(),
                    self.chroma.as_mut_ptr(),
                    self.chroma.len(),
                )
            };
            assert_eq!(r.number, 0);
        }

        /// Refines the scores by these colours, or by those that scoring left.
        fn refine(&mut self, noise: Stats, colours: Option<&[f32]>) {
            let (p, c) = (&self.card.flat_palette, colours.unwrap_or(&self.colours));
            let number = unsafe {
                purdolve_add_local_luma(
                    self.luma.as_mut_ptr(),
                    self.luma.len(),
                    self.card.side,
                    self.card.k,
                    self.xs.as_ptr(),
                    self.xs.len(),
                    self.ys.as_ptr(),
                    self.ys.len(),
                    self.xs.len(),
                    c.as_ptr(),
                    c.len(),
                    p.as_ptr(),
                    p.len(),
                    noise,
                    self.scratch.as_mut_ptr(),
                    self.scratch.len(),
                )
            };
            assert_eq!(number, 0);
        }
    }

    fn solving(name: &'static str, n: usize) -> Case {
        let rng = &mut Rng::new(n as u64);
        let a: Vec<f64> = (0..n * n).map(|_| rng.normal()).collect();
        let b: Vec<f64> = (0..n).map(|_| rng.normal()).collect();
        let (mut a2, mut b2, mut x) = (a.clone(), b.clone(), vec![0.0; n]);
        case(name, 1, move || {
            a2.copy_from_slice(&a);
            b2.copy_from_slice(&b);
            let r = unsafe { purdolve_solve(a2.as_mut_ptr(), n * n, b2.as_mut_ptr(), n, x.as_mut_ptr(), n, n) };
            assert!(r.solved);
            black_box(&x);
        })
    }

    fn medians(name: &'static str, n: usize) -> Case {
        let rng = &mut Rng::new(n as u64);
        let values: Vec<f32> = (0..n).map(|_| rng.normal() as f32).collect();
        let mut copy = values.clone();
        case(name, 1, move || {
            copy.copy_from_slice(&values);
            black_box(unsafe { purdolve_median(copy.as_mut_ptr(), n) });
        })
    }

    /// A flat slice of colours, three numbers each.
    fn colours(flat: &[f32]) -> Vec<Linear> {
        flat.chunks(3).map(|c| Linear { r: c[0], g: c[1], b: c[2] }).collect()
    }

    fn labs() -> Case {
        let colours = colours(&seen(32, 4, 0).raw);
        case("linear_to_lab", colours.len(), move || {
            for &c in &colours {
                black_box(unsafe { purdolve_linear_to_lab(c) });
            }
        })
    }

    fn corrections(name: &'static str, version: u8) -> Case {
        let mut lists = Lists::new(seen(32, 4, 64));
        let (model, colours) = (lists.fit(version), colours(&lists.card.raw));
        case(name, colours.len(), move || {
            for (&c, &(x, y)) in colours.iter().zip(&lists.card.places) {
                black_box(model.correct(x as f32 + 0.5, y as f32 + 0.5, c));
            }
        })
    }

    fn fits(name: &'static str, n: usize) -> Case {
        let mut lists = Lists::new(seen(32, 4, n));
        case(name, 1, move || {
            black_box(black_box(&mut lists).fit(1));
        })
    }

    fn measurements() -> Case {
        let mut lists = Lists::new(seen(32, 4, 256));
        let model = lists.fit(1);
        case("measure 256", 1, move || {
            black_box(black_box(&mut lists).measure(model));
        })
    }

    fn measurements_in_turn() -> Case {
        let mut lists = Lists::new(seen(32, 4, 256));
        let (model, orders) = (lists.fit(1), lists.card.orders());
        let mut turn = 0;
        case("measure 256, in 64 orders", 1, move || {
            turn += 1;
            lists.card.flat_references.clone_from(&orders[turn % 64]);
            black_box(black_box(&mut lists).measure(model));
        })
    }

    fn scores(name: &'static str, k: usize) -> Case {
        let mut lists = Lists::new(seen(32, k, 64));
        let model = lists.fit(1);
        let noise = lists.measure(model);
        case(name, lists.xs.len(), move || {
            lists.score(model, noise);
            black_box(&lists.luma);
        })
    }

    fn refinement() -> Case {
        let mut lists = Lists::new(seen(32, 2, 0));
        let p = &lists.card.flat_palette;
        let noise = Stats {
            l0: p[0],
            l1: p[1],
            sigma_l: 6.0,
            sigma_ab: 6.0,
            sigma_ab_dark: 0.0,
            sigma_ab_light: 0.0,
            samples: 0,
        };
        let (luma, colours) = (vec![1.0f32; lists.xs.len()], lists.card.raw.clone());
        case("refine, a module", luma.len(), move || {
            lists.luma.copy_from_slice(&luma);
            lists.refine(noise, Some(&colours));
            black_box(&lists.luma);
        })
    }

    fn whole_card() -> Case {
        let mut lists = Lists::new(seen(32, 2, 64));
        case("whole card", 1, move || {
            let model = lists.fit(1);
            let noise = lists.measure(model);
            lists.score(model, noise);
            lists.refine(noise, None);
            black_box(&lists.luma);
        })
    }

    pub fn cases() -> Vec<Case> {
        vec![
            solving("solve 4", 4),
            solving("solve 9", 9),
            solving("solve 18", 18),
            medians("median 100", 100),
            medians("median 1000", 1000),
            labs(),
            corrections("correct, 4 terms", 1),
            corrections("correct, 9 terms", 10),
            fits("fit 64", 64),
            fits("fit 256", 256),
            fits("fit 1024", 1024),
            measurements(),
            measurements_in_turn(),
            scores("score a module, 1 hue", 1),
            scores("score a module, 2 hues", 2),
            scores("score a module, 4 hues", 4),
            refinement(),
            whole_card(),
        ]
    }
}
