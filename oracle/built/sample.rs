//! Replaces sample.rs: the next raw colour of the table.
use crate::image::ImageView;
use crate::transform::Transform;
use lcr_core::color::Linear;

pub fn sample_module(img: &ImageView, _t: &Transform, _x: i32, _y: i32) -> Linear {
    img.module()
}

pub fn sample_chroma_cell(img: &ImageView, _t: &Transform, _cx: u16, _cy: u16, _size: u16) -> Linear {
    img.cell()
}
