//! Colours, the palette, and what stands between bits and colours.
use super::Record;
use crate::lent::Lent;
use crate::library::*;

pub fn replay(t: &mut Record) -> bool {
    conversions(t) || small(t) || hues(t) || lists(t)
}

fn rgb(c: Linear) -> [f32; 3] {
    [c.r, c.g, c.b]
}

fn lab(c: Lab) -> [f32; 3] {
    [c.l, c.a, c.b]
}

fn xyz(c: Xyz) -> [f32; 3] {
    [c.x, c.y, c.z]
}

fn conversions(t: &mut Record) -> bool {
    let i = &mut t.inputs;
    let ours = unsafe {
        match t.name {
            "srgb8_to_linear" => rgb(purdolve_srgb8_to_linear(i.srgb8())),
            "srgb8_to_lab" => lab(purdolve_srgb8_to_lab(i.srgb8())),
            "linear_to_xyz" => xyz(purdolve_linear_to_xyz(i.linear())),
            "xyz_to_linear" => rgb(purdolve_xyz_to_linear(i.xyz())),
            "xyz_to_lab" => lab(purdolve_xyz_to_lab(i.xyz())),
            "lab_to_xyz" => xyz(purdolve_lab_to_xyz(i.lab())),
            "linear_to_lab" => lab(purdolve_linear_to_lab(i.linear())),
            "lab_to_linear" => rgb(purdolve_lab_to_linear(i.lab())),
            "clamped" => rgb(purdolve_clamped(i.linear())),
            _ => return false,
        }
    };
    t.three(ours);
    true
}

fn small(t: &mut Record) -> bool {
    let i = &mut t.inputs;
    match t.name {
        "from_hex" => {
            let c = unsafe { purdolve_from_hex(i.word() as u32) };
            let want = t.answer.srgb8();
            t.add(0, [c.r, c.g, c.b] == [want.r, want.g, want.b]);
            return true;
        }
        "to_hex" => {
            let r = unsafe { purdolve_to_hex(i.srgb8()) };
            t.word(r as u64);
            return true;
        }
        "in_gamut" => {
            let r = unsafe { purdolve_in_gamut(i.linear()) };
            t.word(r as u64);
            return true;
        }
        _ => {}
    }
    let ours = unsafe {
        match t.name {
            "srgb_to_linear" => purdolve_srgb_to_linear(i.byte()),
            "rec709_luma" => purdolve_rec709_luma(i.srgb8()),
            "luminance" => purdolve_luminance(i.linear()),
            "chroma" => purdolve_chroma(i.lab()),
            "ab_distance" => purdolve_ab_distance(i.lab(), i.lab()),
            _ => return false,
        }
    };
    t.single(ours);
    true
}

fn hues(t: &mut Record) -> bool {
    let i = &mut t.inputs;
    let ours = unsafe {
        match t.name {
            "index" => purdolve_palette_index(i.flag(), i.count(), i.count()),
            "palette_len" => purdolve_palette_len(i.count()),
            "chroma_symbol_to_hue" => purdolve_chroma_symbol_to_hue(i.count(), i.count()),
            "hue_to_chroma_symbol" => purdolve_hue_to_chroma_symbol(i.count(), i.count()),
            "chroma_rotation" => purdolve_chroma_rotation(i.short(), i.short(), i.count()),
            "chroma_mask_apply" => purdolve_chroma_mask_apply(i.count(), i.short(), i.short(), i.count()),
            "chroma_mask_remove" => purdolve_chroma_mask_remove(i.count(), i.short(), i.short(), i.count()),
            _ => return false,
        }
    };
    t.number(ours);
    true
}

fn lists(t: &mut Record) -> bool {
    let i = &mut t.inputs;
    match t.name {
        "palette_is_empty" => {
            let r = unsafe { purdolve_palette_is_empty(i.count()) };
            t.flag(r)
        }
        "gray" => {
            let r = unsafe { purdolve_gray(i.count()) };
            t.word(r as u64)
        }
        "gray_inverse" => {
            let r = unsafe { purdolve_gray_inverse(i.count()) };
            t.word(r as u64)
        }
        "read" => {
            let r = unsafe { purdolve_read(i.single()) };
            t.word(r as u64)
        }
        "luma_mask_row" => luma_mask_row(t),
        "chroma_bit_llrs" => chroma_bit_llrs(t),
        "unmask_luma" => unmask_luma(t),
        "read_list" => read_list(t),
        "page" => page(t),
        "draw" => draw(t),
        _ => return false,
    }
    true
}

fn luma_mask_row(t: &mut Record) {
    let (id, x, y, count) = (t.inputs.byte(), t.inputs.short(), t.inputs.short(), t.inputs.count());
    let bit = |i: usize| (unsafe { purdolve_luma_mask(id, x + i as u16, y) } as u64) << i;
    t.word((0..count).map(bit).sum());
}

fn chroma_bit_llrs(t: &mut Record) {
    let ll = Lent::new(t.inputs.singles());
    let (masked, cx, cy, hues) = (t.inputs.flag(), t.inputs.short(), t.inputs.short(), t.inputs.count());
    let mut out = Lent::new(t.inputs.singles());
    let r = unsafe { purdolve_chroma_bit_llrs(ll.ptr(), ll.len(), masked, cx, cy, hues, out.ptr_mut(), out.len()) };
    let mut same = r as u64 == t.answer.word() && ll.untouched();
    if r != 0 {
        same &= out.untouched();
    }
    let used = if r == 0 { hues.ilog2() as usize } else { 0 };
    same &= out.is(&t.answer.singles(), used);
    t.add(r, same);
}

fn unmask_luma(t: &mut Record) {
    let mut luma = Lent::new(t.inputs.singles());
    let side = t.inputs.count();
    let (xs, ys) = (Lent::new(t.inputs.places()), Lent::new(t.inputs.places()));
    let (grid, mask) = (t.inputs.count(), t.inputs.byte());
    let r = unsafe {
        purdolve_unmask_luma(luma.ptr_mut(), luma.len(), side, xs.ptr(), xs.len(), ys.ptr(), ys.len(), grid, mask)
    };
    let mut same = r as u64 == t.answer.word() && xs.untouched() && ys.untouched();
    if r != 0 {
        same &= luma.untouched();
    }
    same &= luma.is(&t.answer.singles(), if r == 0 { grid } else { 0 });
    t.add(r, same);
}

fn read_list(t: &mut Record) {
    let scores = Lent::new(t.inputs.singles());
    let mut bits = Lent::new(t.inputs.bytes());
    let r = unsafe { purdolve_read_list(scores.ptr(), scores.len(), bits.ptr_mut(), bits.len()) };
    let mut same = r as u64 == t.answer.word() && scores.untouched();
    if r != 0 {
        same &= bits.untouched();
    }
    same &= bits.is(&t.answer.bytes(), scores.len());
    t.add(r, same);
}

fn page(t: &mut Record) {
    let i = &mut t.inputs;
    let (side, terms, kept, rejected) = (i.count(), i.count(), i.count() as u32, i.count() as u32);
    let held = i.count();
    let (xs, ys) = (Lent::new(i.places()), Lent::new(i.places()));
    let grid = i.count();
    let luma = Lent::new(i.singles());
    let (lent, fill) = (i.count(), i.byte());
    let mut out = Lent::new(vec![fill; lent]);
    let r = unsafe {
        purdolve_page(
            side,
            terms,
            kept,
            rejected,
            held,
            xs.ptr(),
            xs.len(),
            ys.ptr(),
            ys.len(),
            grid,
            luma.ptr(),
            luma.len(),
            out.ptr_mut(),
            out.len(),
        )
    };
    let mut same = r as u64 == t.answer.word() && xs.untouched() && ys.untouched() && luma.untouched();
    if r != 0 {
        same &= out.untouched();
    }
    same &= out.is(&t.answer.bytes(), if r == 0 { 51 * (side + 1) } else { 0 });
    t.add(r, same);
}

fn draw(t: &mut Record) {
    let i = &mut t.inputs;
    let bits = Lent::new(i.bytes());
    let (side, hues, size) = (i.count(), i.count(), i.count());
    let (xs, ys, grid) = (Lent::new(i.places()), Lent::new(i.places()), i.count());
    let (cxs, cys, mask) = (Lent::new(i.shorts()), Lent::new(i.shorts()), i.byte());
    let mut levels = Lent::new(i.bytes());
    let mut drawn = Lent::new(i.slice(|w| w.count()));
    let r = unsafe {
        purdolve_draw(
            bits.ptr(),
            bits.len(),
            side,
            hues,
            size,
            xs.ptr(),
            xs.len(),
            ys.ptr(),
            ys.len(),
            grid,
            cxs.ptr(),
            cxs.len(),
            cys.ptr(),
            cys.len(),
            mask,
            levels.ptr_mut(),
            levels.len(),
            drawn.ptr_mut(),
            drawn.len(),
        )
    };
    let mut same = r as u64 == t.answer.word() && bits.untouched() && xs.untouched() && ys.untouched();
    same &= cxs.untouched() && cys.untouched();
    if r != 0 {
        same &= levels.untouched() && drawn.untouched();
    }
    same &= levels.is(&t.answer.bytes(), xs.len()) && drawn.is(&t.answer.slice(|w| w.count()), drawn.len());
    t.add(r, same);
}
