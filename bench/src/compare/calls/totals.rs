//! Totals over a season's cards.
use super::Record;
use crate::lent::Lent;
use crate::library::*;

pub fn replay(t: &mut Record) -> bool {
    match t.name {
        "add_card" => {
            let before = totals(t);
            let scores = t.inputs.singles();
            add_card(t, before, scores)
        }
        "add_totals" => {
            let r = unsafe { purdolve_add_totals(totals(t), totals(t)) };
            added(t, r, true)
        }
        "mean" => {
            let r = unsafe { purdolve_mean(totals(t)) };
            let mut same = r.number as u64 == t.answer.word();
            let accepted = r.number == 0 && same;
            for v in [r.numerator, r.denominator] {
                same &= v == if accepted { t.answer.word() } else { 0 };
            }
            t.add(r.number, same)
        }
        _ => return false,
    }
    true
}

fn totals(t: &mut Record) -> Totals {
    Totals { fields: std::array::from_fn(|_| t.inputs.word()) }
}

fn add_card(t: &mut Record, before: Totals, scores: Vec<f32>) {
    let luma = Lent::new(scores);
    let r = unsafe { purdolve_add_card(before, luma.ptr(), luma.len()) };
    added(t, r, luma.untouched())
}

/// The number and the totals, which are zeros beside a refusal.
fn added(t: &mut Record, r: TotalsAnswer, untouched: bool) {
    let mut same = untouched && r.number as u64 == t.answer.word();
    let accepted = r.number == 0 && same;
    for v in r.totals.fields {
        same &= v == if accepted { t.answer.word() } else { 0 };
    }
    t.add(r.number, same)
}
