//! Document 01's card file and listing: the reference reader, and a maker of cards of every shape.
use crate::calls::demod::{Scoring, score};
use crate::calls::illum::{Model, fit, fit_kept};
use crate::calls::measure::{Measuring, measure};
use crate::calls::modulate::{bits_a_cell, read, unmask_luma};
use crate::calls::near::{Query, near};
use crate::calls::page::{self, Laying};
use crate::calls::refine::{Refining, refine};
use crate::calls::stats::ChannelStats;
use std::fmt::Write;

pub mod make;
pub mod wreck;

/// What a card file holds; colours and references are flat floats.
#[derive(Clone, Debug, Default)]
pub struct Card {
    pub side: u16,
    pub version: u8,
    pub hues: u8,
    pub size: u8,
    pub mask: u8,
    pub grid: u16,
    pub palette: Vec<f32>,
    pub references: Vec<f32>,
    pub xs: Vec<i32>,
    pub ys: Vec<i32>,
    pub raw: Vec<f32>,
    pub cxs: Vec<u16>,
    pub cys: Vec<u16>,
    pub cell_raw: Vec<f32>,
}

fn floats(bytes: &[u8]) -> Vec<f32> {
    bytes.chunks(4).map(|b| f32::from_le_bytes(b.try_into().unwrap())).collect()
}

fn short(bytes: &[u8], at: usize) -> u16 {
    u16::from_le_bytes([bytes[at], bytes[at + 1]])
}

/// The five sections in their order: the first starts at 40, each next where the last ended, the fifth ends
/// the file. None is refusal 1.
fn sections(file: &[u8]) -> Option<[&[u8]; 5]> {
    if file.len() > 16_384 || file.len() < 40 {
        return None;
    }
    let word = |i: usize| u32::from_le_bytes(file[4 * i..4 * i + 4].try_into().unwrap()) as u64;
    let mut ends = [40u64; 6];
    for i in 0..5 {
        if word(2 * i) != ends[i] {
            return None;
        }
        ends[i + 1] = ends[i] + word(2 * i + 1);
    }
    if ends[5] != file.len() as u64 {
        return None;
    }
    Some(std::array::from_fn(|i| &file[ends[i] as usize..ends[i + 1] as usize]))
}

impl Card {
    /// The card of a file; None is refusal 1.
    pub fn parse(file: &[u8]) -> Option<Card> {
        let [settings, palette, references, modules, cells] = sections(file)?;
        let fits = settings.len() == 8
            && palette.len() == 8 + 32 * settings[3] as usize
            && references.len() % 32 == 0
            && modules.len() % 16 == 0
            && cells.len() % 16 == 0;
        if !fits || short(settings, 0) > 64 {
            return None;
        }
        let colours = |entries: &[u8]| entries.chunks(16).flat_map(|e| floats(&e[4..])).collect();
        let places = |at: usize| modules.chunks(16).map(|e| short(e, at) as i16 as i32).collect();
        let coordinates = |at: usize| cells.chunks(16).map(|e| short(e, at)).collect();
        Some(Card {
            side: short(settings, 0),
            version: settings[2],
            hues: settings[3],
            size: settings[4],
            mask: settings[5],
            grid: short(settings, 6),
            palette: floats(palette),
            references: floats(references),
            xs: places(0),
            ys: places(2),
            raw: colours(modules),
            cxs: coordinates(0),
            cys: coordinates(2),
            cell_raw: colours(cells),
        })
    }

    /// The file of a card.
    pub fn file(&self) -> Vec<u8> {
        let le = |v: &[f32]| v.iter().flat_map(|v| v.to_le_bytes()).collect::<Vec<u8>>();
        let [s, g] = [self.side, self.grid].map(u16::to_le_bytes);
        let settings = vec![s[0], s[1], self.version, self.hues, self.size, self.mask, g[0], g[1]];
        let entry =
            |x: u16, y: u16, colour: &[f32]| [x.to_le_bytes().to_vec(), y.to_le_bytes().to_vec(), le(colour)].concat();
        let modules: Vec<u8> = (0..self.xs.len())
            .flat_map(|i| entry(self.xs[i] as u16, self.ys[i] as u16, &self.raw[3 * i..3 * i + 3]))
            .collect();
        let cells: Vec<u8> = (0..self.cxs.len())
            .flat_map(|i| entry(self.cxs[i], self.cys[i], &self.cell_raw[3 * i..3 * i + 3]))
            .collect();
        let sections = [settings, le(&self.palette), le(&self.references), modules, cells];
        let mut file = Vec::new();
        let mut at = 40u32;
        for section in &sections {
            file.extend(at.to_le_bytes());
            file.extend((section.len() as u32).to_le_bytes());
            at += section.len() as u32;
        }
        file.extend(sections.concat());
        file
    }

    /// Fit, measure, score and, where asked, refine, or the number of the first call refused: what scoring took, and
    /// the luma and chroma scores.
    fn scored(&self, refining: bool) -> Result<(Scoring, Vec<f32>, Vec<f32>, [usize; 2]), u32> {
        let (side, k, n, m) = (self.side as usize, self.hues as usize, self.references.len() / 8, self.xs.len());
        let mut scratch = vec![0.0; (4 * n).max((side + 12) * (side + 12))];
        let model = fit(&self.references, n, side, self.version, &mut scratch)?;
        let measuring = Measuring {
            flat: self.references.clone(),
            n,
            side,
            model: model.clone(),
            palette: self.palette.clone(),
            k,
        };
        let (stats, _) = measure(&measuring, &mut scratch)?;
        let scoring = self.scoring(model, stats);
        let (mut luma, mut colours) = (vec![0.0; m], vec![0.0; 3 * m]);
        let mut chroma = vec![0.0; bits_a_cell(k) * scoring.entries()];
        let held = score(&scoring, &mut luma, &mut colours, &mut chroma)?;
        let refined = Refining {
            side,
            k,
            xs: self.xs.clone(),
            ys: self.ys.clone(),
            grid: scoring.grid,
            colours,
            palette: self.palette.clone(),
            stats,
        };
        if refining {
            refine(&refined, &mut luma, &mut scratch)?;
        }
        Ok((scoring, luma, chroma, held))
    }

    /// Scoring and then refining gives what the Rust's `demodulate` gives with its last call.
    pub fn whole(&self) -> Result<bool, u32> {
        let (scoring, luma, chroma, _) = self.scored(true)?;
        let rust = scoring.demodulated(true);
        let text = |scores: &[f32]| scores.iter().map(|&s| digits(s)).collect::<String>();
        Ok(text(&luma) == text(&rust.luma) && text(&chroma) == text(&rust.chroma))
    }

    /// A module (`M`), the kept references nearest to its centre (`N`), and those that were not kept (`R`), each with its
    /// place in the list and its position.
    pub fn nearest(&self, x: i32, y: i32) -> Result<String, u32> {
        let (n, side) = (self.references.len() / 8, self.side as usize);
        let (_, kept) = fit_kept(&self.references, n, side, self.version, n, &mut vec![0.0; 4 * n])?;
        let xy: Vec<f32> = self.references.chunks(8).flat_map(|r| [r[0], r[1]]).collect();
        let marks: Vec<u8> = kept.iter().map(|&kept| kept as u8).collect();
        let mut places = vec![0; n];
        let count = near(&xy, &marks, side, x, y, Query::Nearest, &mut places)?;
        let mut text = format!("M {x} {y}\n");
        for &i in &places[..count] {
            writeln!(text, "N {i} {} {}", xy[2 * i as usize], xy[2 * i as usize + 1]).unwrap();
        }
        for i in (0..n).filter(|&i| !kept[i]) {
            writeln!(text, "R {i} {} {}", xy[2 * i], xy[2 * i + 1]).unwrap();
        }
        Ok(text)
    }

    /// The listing, or the number of the first call refused; without refining, that of the scores that scoring left.
    pub fn listing(&self, refining: bool) -> Result<String, u32> {
        let (scoring, luma, chroma, _) = self.scored(refining)?;
        let model = &scoring.model;
        let mut text = format!("fit {} {} {}\n", model.terms, model.kept, model.rejected);
        let mut unmasked = luma.clone();
        unmask_luma(&mut unmasked, scoring.side, &self.xs, &self.ys, scoring.grid, self.mask)?;
        for i in 0..luma.len() {
            let _ = writeln!(text, "L {} {} {} {}", self.xs[i], self.ys[i], digits(luma[i]), read(unmasked[i]));
        }
        for (i, &score) in chroma.iter().enumerate() {
            let _ = writeln!(text, "C {i} {} {}", digits(score), read(score));
        }
        Ok(text)
    }

    /// The page for the panel door, or the number of the first call refused.
    pub fn page(&self) -> Result<String, u32> {
        let (scoring, mut luma, _, [held, _]) = self.scored(true)?;
        let (side, grid, model) = (scoring.side, scoring.grid, &scoring.model);
        unmask_luma(&mut luma, side, &self.xs, &self.ys, grid, self.mask)?;
        let mut out = vec![0; 51 * (side + 1)];
        let (xs, ys) = (self.xs.clone(), self.ys.clone());
        let (terms, kept, rejected) = (model.terms, model.kept, model.rejected);
        page::page(&Laying { side, terms, kept, rejected, held, xs, ys, grid, luma }, &mut out)?;
        Ok(String::from_utf8_lossy(&out).into_owned())
    }

    /// The card as scoring takes it.
    fn scoring(&self, model: Model, stats: ChannelStats) -> Scoring {
        Scoring {
            side: self.side as usize,
            k: self.hues as usize,
            size: self.size as usize,
            xs: self.xs.clone(),
            ys: self.ys.clone(),
            grid: self.grid as usize,
            raw: self.raw.clone(),
            cxs: self.cxs.clone(),
            cys: self.cys.clone(),
            cell_raw: self.cell_raw.clone(),
            palette: self.palette.clone(),
            model,
            stats,
        }
    }
}

fn digits(score: f32) -> String {
    format!("{:08X}", if score.is_nan() { 0x7FC0_0000 } else { score.to_bits() })
}

fn listed(file: &[u8], refining: bool) -> String {
    let listing = Card::parse(file).ok_or(1).and_then(|card| card.listing(refining));
    listing.unwrap_or_else(|number| format!("refused {number}\n"))
}

/// `readcard`: the listing of a file, or one line `refused N`.
pub fn readcard(file: &[u8]) -> String {
    listed(file, true)
}

/// The same with the scores that scoring left, so that one sees what refinement changed.
pub fn unrefined(file: &[u8]) -> String {
    listed(file, false)
}

/// The page of a file for the panel door, or one line `refused N`.
pub fn page(file: &[u8]) -> String {
    let page = Card::parse(file).ok_or(1).and_then(|card| card.page());
    page.unwrap_or_else(|number| format!("refused {number}\n"))
}
