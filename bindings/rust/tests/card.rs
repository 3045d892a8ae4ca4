//! A card of 4 hues, drawn, seen under uneven light, and read.
use purdolve::Refusal;
use purdolve::color::{Linear, Srgb8, srgb8_to_lab, srgb8_to_linear};
use purdolve::demod::{RawColours, add_local_luma, demodulate, measure, read_bits, score, unmask_luma};
use purdolve::illum::{IlluminationModel, Reference};
use purdolve::layout::Layout;
use purdolve::modulate::{draw, read_list};
use purdolve::palette::Palette;
use purdolve::readcard::read_card;

const INKS: [u32; 8] = [0x663E05, 0x065222, 0x0C4784, 0x7B274D, 0xE2AC71, 0x81C58C, 0x95B5FE, 0xF89ABD];
const SIDE: u16 = 16;
const MASK: u8 = 5;

/// The palette of the inks: each colour's Lab, each level's mean L, each hue's mean a and b.
fn palette() -> Palette {
    let lab = INKS.map(|ink| srgb8_to_lab(Srgb8::from_hex(ink)));
    let level = |from: usize| lab[from..from + 4].iter().map(|c| c.l / 4.0).sum();
    let hue = |h: usize| [(lab[h].a + lab[h + 4].a) / 2.0, (lab[h].b + lab[h + 4].b) / 2.0];
    Palette { hues: 4, lab: lab.to_vec(), level_l: [level(0), level(4)], hue_ab: (0..4).map(hue).collect() }
}

fn ink(level: u8, hue: usize) -> Linear {
    srgb8_to_linear(Srgb8::from_hex(INKS[usize::from(level) * 4 + hue]))
}

/// What the camera sees of a colour at (x, y).
fn seen(x: f32, y: f32, c: Linear) -> Linear {
    let light = 0.4 + 0.02 * x + 0.01 * y;
    Linear::new(1.1 * light * c.r + 0.02, light * c.g + 0.02, 0.8 * light * c.b + 0.02)
}

/// The grid row by row, cells of one module, and a few ring modules.
fn layout() -> Layout {
    let places: Vec<(u16, u16)> = (0..SIDE * SIDE).map(|i| (i % SIDE, i / SIDE)).collect();
    let ring = (0..5).map(|i| (-2, 3 * i)).collect();
    Layout { side: SIDE, chroma_cell: 1, payload: places.clone(), ring, chroma_cells: places }
}

/// Every ink in turn, above and below the grid.
fn references() -> Vec<Reference> {
    let at = |i: usize| ((i % 32) as f32 * 0.5 + 0.25, if i < 32 { -1.5 } else { f32::from(SIDE) + 1.5 });
    let known = |i: usize| {
        let ((x, y), nominal) = (at(i), ink((i / 4 % 2) as u8, (i + i / 8) % 4));
        Reference { x, y, observed: seen(x, y, nominal), nominal }
    };
    (0..64).map(known).collect()
}

#[test]
fn a_card_is_read_as_it_was_drawn() -> Result<(), Refusal> {
    let (palette, layout) = (palette(), layout());
    let places: Vec<(i32, i32)> =
        layout.payload.iter().map(|&(x, y)| (i32::from(x), i32::from(y))).chain(layout.ring.iter().copied()).collect();
    let modules = places.len();
    let bits: Vec<u8> = (0..3 * modules as u32).map(|i| ((i * i + 1).wrapping_mul(2654435761) >> 31) as u8).collect();
    let drawn = draw(&bits, &layout, palette.hues, MASK)?;
    // With cells of one module, module i and symbol i are one place.
    let raw: Vec<Linear> = places
        .iter()
        .enumerate()
        .map(|(i, &(x, y))| seen(x as f32 + 0.5, y as f32 + 0.5, ink(drawn.levels[i], drawn.hues[i])))
        .collect();
    let raw = RawColours { modules: &raw, cells: &raw[..layout.chroma_cells.len()] };

    let model = IlluminationModel::fit(&references(), SIDE, 1)?;
    assert_eq!((model.terms(), model.kept + model.rejected), (4, 64));
    let stats = measure(&references(), &model, &palette)?;
    assert_eq!((stats.samples, stats.margin(&palette)), (64, Ok(true)));
    let mut scores = demodulate(raw, &layout, &palette, &model, &stats)?;

    // Scoring and then refining is the same.
    let mut apart = score(raw, &layout, &palette, &model, &stats)?;
    let at: Vec<(i32, i32, Linear)> = places.iter().zip(&apart.colours).map(|(&(x, y), &c)| (x, y, c)).collect();
    add_local_luma(&mut apart.luma, &at, SIDE, &palette, &stats)?;
    assert_eq!((&apart.luma, &apart.chroma), (&scores.luma, &scores.chroma));

    unmask_luma(&mut scores.luma, &layout, MASK)?;
    let mut read = read_list(&scores.luma);
    read.extend(read_list(&scores.chroma));
    assert_eq!(read, bits);

    // All in one call is the same.
    assert_eq!(read_bits(raw, &layout, &palette, &model, &stats, MASK)?, bits);
    let short = RawColours { modules: &raw.modules[1..], ..raw };
    assert_eq!(read_bits(short, &layout, &palette, &model, &stats, MASK), Err(Refusal::Length));
    Ok(())
}

/// The scope's own card file: a black and a white module under one hue.
#[test]
fn a_card_file_is_listed() {
    let mut file = Vec::new();
    let mut offset = 40u32;
    for length in [8u32, 40, 0, 32, 0] {
        file.extend([offset, length].map(u32::to_le_bytes).concat());
        offset += length;
    }
    file.extend([21, 0, 1, 1, 1, 0, 2, 0]);
    let palette = [0.0, 100.0, 0.0, 0.0, 0.0, 0.0, 0.0, 100.0, 0.0, 0.0];
    file.extend(palette.map(f32::to_le_bytes).concat());
    for (x, light) in [(0u8, 0.0f32), (1, 1.0)] {
        file.extend([x, 0, 0, 0]);
        file.extend([light; 3].map(f32::to_le_bytes).concat());
    }
    assert_eq!(read_card(&file).unwrap(), "fit 4 0 0\nL 0 0 41A00000 1\nL 1 0 C1A00000 1\n");
    file[40] = 0;
    assert_eq!(read_card(&file), Err(Refusal::Side));
}
