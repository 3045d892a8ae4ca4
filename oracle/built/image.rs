//! Replaces image.rs: raw colours from a table, in the order in which `demodulate` asks for them.
use lcr_core::color::Linear;
use std::cell::Cell;

pub struct ImageView<'a> {
    modules: &'a [Linear],
    cells: &'a [Linear],
    next_module: Cell<usize>,
    next_cell: Cell<usize>,
}

impl<'a> ImageView<'a> {
    /// Raw colours of the listed modules (grid, then ring) and of the listed cells.
    pub fn of(modules: &'a [Linear], cells: &'a [Linear]) -> ImageView<'a> {
        ImageView { modules, cells, next_module: Cell::new(0), next_cell: Cell::new(0) }
    }

    pub fn module(&self) -> Linear {
        self.modules[self.next_module.replace(self.next_module.get() + 1)]
    }

    pub fn cell(&self) -> Linear {
        self.cells[self.next_cell.replace(self.next_cell.get() + 1)]
    }
}
