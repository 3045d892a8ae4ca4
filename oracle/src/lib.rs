//! Document 01's calls on top of the Rust colour stage, the lists of inputs and answers made with them, and a
//! reader of card files.
pub mod calls;
pub mod card;
pub mod compare;
pub mod exact;
pub mod lists;
pub mod refusals;
pub mod rng;
pub mod words;
