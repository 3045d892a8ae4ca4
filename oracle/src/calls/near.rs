//! Which of the kept references stand near a module. The Rust has no such call: this is the request's own words.
use crate::refusals::*;

#[derive(Clone, Copy, Debug)]
pub enum Query {
    Nearest,
    Within(f32),
    CutOff(i32),
}

/// Lists places of references at the front of `out`, and answers how many.
pub fn near(xy: &[f32], kept: &[u8], side: usize, x: i32, y: i32, query: Query, out: &mut [u32]) -> Result<usize, u32> {
    let n = xy.len() / 2;
    let column = if let Query::CutOff(c) = query { vec![c] } else { vec![] };
    first(&[
        (2, bad_side(side)),
        (5, xy.len() % 2 != 0 || short(kept.len(), n, 1) || short(out.len(), n, 1)),
        (6, many_references(n)),
        (7, xy.iter().any(|&v| misplaced_reference(v, side)) || misplaced_modules(side, 0, &[x], &[y])),
        (7, misplaced_modules(side, 0, &column, &column)),
        (15, matches!(query, Query::Within(r) if r < 0.0 || !r.is_finite())),
    ])?;
    // "their centres half a module on"
    let centre = |v: i32| v as f64 + 0.5;
    let at = |i: usize| [xy[2 * i] as f64, xy[2 * i + 1] as f64];
    let distance = |i: usize| {
        let [dx, dy] = [at(i)[0] - centre(x), at(i)[1] - centre(y)];
        dx * dx + dy * dy
    };
    let asked = |i: usize| match query {
        Query::Nearest => true,
        Query::Within(r) => distance(i) <= r as f64 * r as f64,
        Query::CutOff(c) => {
            let (a, b) = (at(i)[0].min(centre(x)), at(i)[0].max(centre(x)));
            a <= centre(c) && centre(c) <= b
        }
    };
    let mut places: Vec<usize> = (0..n).filter(|&i| kept[i] != 0 && asked(i)).collect();
    // Stable: "equal distances in reference order".
    places.sort_by(|&i, &j| distance(i).partial_cmp(&distance(j)).expect("numbers"));
    if matches!(query, Query::Nearest) {
        places.truncate(3);
    }
    for (to, &i) in out.iter_mut().zip(&places) {
        *to = i as u32;
    }
    Ok(places.len())
}
