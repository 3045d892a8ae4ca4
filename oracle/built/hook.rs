//! What the built copy asks instead of the Rust's profiles and geometry, set by the caller for its thread.
use std::cell::{Cell, RefCell};

/// Hues, bits a chroma cell and cell size of a card.
#[derive(Clone, Copy)]
pub struct Shape {
    pub hues: usize,
    pub bits: usize,
    pub cell: u16,
}

thread_local! {
    static SHAPE: Cell<Option<Shape>> = const { Cell::new(None) };
    static RING: RefCell<Vec<(i32, i32)>> = const { RefCell::new(Vec::new()) };
    static REFINING: Cell<bool> = const { Cell::new(true) };
    static FINITE: Cell<bool> = const { Cell::new(true) };
    static KEPT: RefCell<Vec<bool>> = const { RefCell::new(Vec::new()) };
}

/// The shape that `Profile` answers with, where one is set.
pub fn shape() -> Option<Shape> {
    SHAPE.get()
}

pub fn set_shape(shape: Option<Shape>) {
    SHAPE.set(shape);
}

/// The places of the ring modules, in list order.
pub fn ring_places() -> Vec<(i32, i32)> {
    RING.with_borrow(|ring| ring.clone())
}

pub fn set_ring_places(places: Vec<(i32, i32)>) {
    RING.set(places);
}

/// Whether `demodulate` makes its last call, `add_local_luma`.
pub fn refining() -> bool {
    REFINING.get()
}

pub fn set_refining(on: bool) {
    REFINING.set(on);
}

/// `fit` tells after each pass whether its numbers and residuals are all finite.
pub fn after_pass(finite: bool) {
    FINITE.set(FINITE.get() && finite);
}

/// Whether every pass since the last question was finite.
pub fn passes_were_finite() -> bool {
    FINITE.replace(true)
}

/// `fit` tells at its end which references it keeps.
pub fn set_kept(active: &[bool]) {
    KEPT.set(active.to_vec());
}

/// Which references the fits since the last question kept last; none where no fit came to its end.
pub fn kept() -> Vec<bool> {
    KEPT.take()
}
