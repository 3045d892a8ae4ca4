//! Which of the kept references stand near a module. The Rust has no such call.
use crate::{Refusal, ffi};
use alloc::vec;
use alloc::vec::Vec;

/// What is asked of the kept references.
#[derive(Copy, Clone, PartialEq, Debug)]
pub enum Query {
    /// The three nearest to the module's centre, all where there are fewer.
    Nearest,
    /// All within a radius of the module's centre, in modules; those at the radius too.
    Within(f32),
    /// All that a column cuts off: its centre lies at or between the reference's x and the x of the module's centre.
    CutOff(i32),
}

/// The places in `positions`, x and y in modules, of the kept references that the query asks for, the nearest to the module's
/// centre first and of equal distances the earlier one. `kept` says for each reference whether it was kept, as
/// [`fit_kept`](crate::illum::IlluminationModel::fit_kept) gives it. Refused: 2, 5 (fewer marks than positions), 6, 7, 15.
///
/// ```
/// use purdolve::near::{Query, near};
/// let positions = [[10.5, 10.5], [12.5, 10.5], [10.5, 13.5], [8.5, 10.5]];
/// let kept = [true, false, true, true];
/// assert_eq!(near(&positions, &kept, 21, (10, 10), Query::Nearest)?, [0, 3, 2]);
/// assert_eq!(near(&positions, &kept, 21, (10, 10), Query::Within(2.0))?, [0, 3]);
/// assert_eq!(near(&positions, &kept, 21, (10, 10), Query::CutOff(9))?, [3]);
/// # Ok::<(), purdolve::Refusal>(())
/// ```
pub fn near(
    positions: &[[f32; 2]],
    kept: &[bool],
    side: u16,
    module: (i32, i32),
    query: Query,
) -> Result<Vec<usize>, Refusal> {
    let xy = positions.as_flattened();
    let kept: Vec<u8> = kept.iter().map(|&kept| kept.into()).collect();
    let mut out = vec![0; positions.len()];
    let (side, (x, y)) = (side.into(), module);
    let answer = match query {
        Query::Nearest => ffi::nearest(xy, &kept, side, x, y, &mut out),
        Query::Within(radius) => ffi::within(xy, &kept, side, x, y, radius, &mut out),
        Query::CutOff(column) => ffi::cut_off(xy, &kept, side, x, y, column, &mut out),
    };
    Refusal::check(answer.number).map(|()| out[..answer.value].iter().map(|&place| place as usize).collect())
}
