//! Where a card's modules and cells are.
use alloc::vec::Vec;

/// The places that the stage reads. A reader fills these from its own layout: `side`, `payload` and `chroma_cells` are the
/// fields of these names, `ring` is `border::payload_cells`, `chroma_cell` the profile's.
#[derive(Clone, Debug, Default)]
pub struct Layout {
    /// Modules along an edge of the grid.
    pub side: u16,
    /// Modules along an edge of a chroma cell.
    pub chroma_cell: usize,
    /// The grid modules.
    pub payload: Vec<(u16, u16)>,
    /// The ring modules, which follow the grid modules in every list.
    pub ring: Vec<(i32, i32)>,
    /// The chroma cells.
    pub chroma_cells: Vec<(u16, u16)>,
}

/// A layout as the stage takes it.
pub(crate) struct Places {
    pub side: usize,
    pub size: usize,
    pub xs: Vec<i32>,
    pub ys: Vec<i32>,
    pub grid: usize,
    pub cxs: Vec<u16>,
    pub cys: Vec<u16>,
}

impl Layout {
    pub(crate) fn places(&self) -> Places {
        let grid = self.payload.iter().map(|&(x, y)| (i32::from(x), i32::from(y)));
        let (xs, ys) = grid.chain(self.ring.iter().copied()).unzip();
        let (cxs, cys) = self.chroma_cells.iter().copied().unzip();
        Places { side: self.side.into(), size: self.chroma_cell, xs, ys, grid: self.payload.len(), cxs, cys }
    }

    /// How many symbols a card of this layout has, with chroma on: one a cell and, at cell size 1, one a ring module.
    pub(crate) fn symbols(&self) -> usize {
        self.chroma_cells.len() + if self.chroma_cell == 1 { self.ring.len() } else { 0 }
    }
}

/// How many bits a symbol has; 0 also for a number that is no hue count.
pub(crate) fn symbol_bits(hues: usize) -> usize {
    match hues {
        2 => 1,
        4 => 2,
        8 => 3,
        16 => 4,
        _ => 0,
    }
}

/// The classes that hues are told apart by: one a hue, and one in all with chroma off, and for a number that is no hue
/// count.
pub(crate) fn hue_classes(hues: usize) -> usize {
    1 << symbol_bits(hues)
}
