//! The colour stage of a settings-card reader: from the raw colours of a card's modules to scores and bits.
//!
//! The stage itself is a static library, proved (docs/MAKERS.md says what is promised and on what premises). This crate has
//! its calls under the names, and in the shapes, of the Rust stage that it was ported from: a reader changes its `use` lines
//! and meets the refusals as a [`Result`]. Memory that the library is lent is made here and handed back.
//!
//! The environment variable PURDOLVE_LIB names the library when this crate is built.
//!
//! # What a reader changes
//!
//! | the Rust | here |
//! |---|---|
//! | `IlluminationModel::fit(refs, side, version)` | the same, a `Result` |
//! | `illum.correct(x, y, raw)` | the same, a `Result` |
//! | `measure(refs, &illum, &palette)` | the same, a `Result`; the side is the model's |
//! | `ChannelStats` and its methods | the same, each a `Result`; `snr_db` and `chroma_snr_db` stay in the reader |
//! | `demodulate(img, t, layout, palette, illum, stats, with_chroma)` | `demodulate(raw, layout, palette, illum, stats)`: the reader samples, and chroma is on where the palette has more than one hue |
//! | `add_local_luma(luma, at, side, palette, stats, chroma)` | the same without `chroma` |
//! | `unmask_luma(llrs, layout, mask)` | the same, a `Result` |
//! | - | `read_bits(raw, layout, palette, illum, stats, mask)`: all of these calls in one, and the bits read |
//! | - | `IlluminationModel::fit_kept(refs, side, version)`: the fit with the references that it kept; [`near::near`]: which of them stand near a module |
//! | - | `page(luma, layout, illum, held)`: the read card as a page of text |
//! | - | `correct_marked`, `measure_held`, `read_bits_held` and the field `held` of `Demodulation`: which gains were held at 0.05 |
//! | `lcr_core::palette::Palette`, `lcr_core::layout::Layout` | [`palette::Palette`], [`layout::Layout`]: the fields that the stage reads |
//! | `solve`, `least_squares`, `chroma_bit_llrs`, rotations, symbols | the same, each a `Result` |
//! | colours, `median`, `mad_sigma`, `gray`, `luma_mask` | the same |
//! | - | [`totals::Totals`]: totals over a season's cards |
//! | - | `ChannelStats::colour_counts`: how a palette divides the colours |
//! | what is a `const fn` | a function; a constant of type `Srgb8` is made by `Srgb8::new` |
//!
//! # A card of two modules
//!
//! ```
//! use purdolve::color::{Lab, Linear};
//! use purdolve::demod::{RawColours, demodulate, measure, read_bits, unmask_luma};
//! use purdolve::illum::IlluminationModel;
//! use purdolve::layout::Layout;
//! use purdolve::modulate::read_list;
//! use purdolve::palette::Palette;
//!
//! let palette = Palette {
//!     hues: 1,
//!     lab: vec![Lab::new(0.0, 0.0, 0.0), Lab::new(100.0, 0.0, 0.0)],
//!     level_l: [0.0, 100.0],
//!     hue_ab: vec![[0.0, 0.0]],
//! };
//! let layout = Layout { side: 21, chroma_cell: 1, payload: vec![(0, 0), (1, 0)], ..Layout::default() };
//! let raw = [Linear::new(0.0, 0.0, 0.0), Linear::new(1.0, 1.0, 1.0)];
//!
//! let model = IlluminationModel::fit(&[], layout.side, 1)?;
//! let stats = measure(&[], &model, &palette)?;
//! assert!(stats.margin(&palette)?);
//! let raw = RawColours { modules: &raw, cells: &[] };
//! assert_eq!(read_bits(raw, &layout, &palette, &model, &stats, 0)?, [1, 1]);
//!
//! // The same call by call, for an error corrector that takes the scores.
//! let mut scores = demodulate(raw, &layout, &palette, &model, &stats)?;
//! assert_eq!(scores.luma, [20.0, -20.0]);
//! unmask_luma(&mut scores.luma, &layout, 0)?;
//! assert_eq!(read_list(&scores.luma), [1, 1]);
//! # Ok::<(), purdolve::Refusal>(())
//! ```
#![no_std]
#![deny(missing_docs, unsafe_code)]
extern crate alloc;

pub mod color;
pub mod demod;
#[allow(unsafe_code, missing_docs)]
mod ffi;
pub mod float;
pub mod illum;
pub mod layout;
pub mod mask;
pub mod math;
pub mod modulate;
pub mod near;
pub mod page;
pub mod palette;
pub mod readcard;
mod refusal;
pub mod symbol;
pub mod totals;

pub use refusal::Refusal;
