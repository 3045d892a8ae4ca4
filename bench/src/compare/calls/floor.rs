//! Linear systems and order statistics.
use super::Record;
use crate::lent::{Element, Lent};
use crate::library::*;
use crate::words::NO_SOLUTION;

pub fn replay(t: &mut Record) -> bool {
    match t.name {
        "solve" => solve(t),
        "least_squares" => least_squares(t),
        "add_row" => add_row(t),
        "finish" => finish(t),
        "median" => median(t),
        "mad_sigma" => mad_sigma(t),
        _ => return false,
    }
    true
}

/// Whether the answer is the list's first word: 0 solved, FFFF no solution, else a refusal.
fn outcome(t: &mut Record, r: SolveAnswer) -> bool {
    match t.answer.word() {
        0 => r.number == 0 && r.solved,
        NO_SOLUTION => r.number == 0 && !r.solved,
        n => r.number as u64 == n && !r.solved,
    }
}

fn solve(t: &mut Record) {
    let n = t.inputs.count();
    let mut a = Lent::new(t.inputs.doubles());
    let mut b = Lent::new(t.inputs.doubles());
    let mut x = Lent::new(t.inputs.doubles());
    let r = unsafe { purdolve_solve(a.ptr_mut(), a.len(), b.ptr_mut(), b.len(), x.ptr_mut(), x.len(), n) };
    let mut same = outcome(t, r);
    if r.number != 0 {
        same &= a.untouched() && b.untouched() && x.untouched();
    }
    same &= a.is(&t.answer.doubles(), n.saturating_mul(n)) && b.is(&t.answer.doubles(), n);
    same &= x.is(&t.answer.doubles(), if r.solved { n } else { 0 });
    t.add(r.number, same);
}

fn least_squares(t: &mut Record) {
    let terms = t.inputs.count();
    let rows = Lent::new(t.inputs.doubles());
    let targets = Lent::new(t.inputs.doubles());
    let mut x = Lent::new(t.inputs.doubles());
    let r = unsafe {
        purdolve_least_squares(rows.ptr(), rows.len(), targets.ptr(), targets.len(), terms, x.ptr_mut(), x.len())
    };
    let mut same = outcome(t, r) && rows.untouched() && targets.untouched();
    same &= x.is(&t.answer.doubles(), if r.solved { terms } else { 0 });
    t.add(r.number, same);
}

/// The whole matrix of which the list has the first part.
fn matrix(part: &[f64]) -> Vec<f64> {
    (0..324).map(|i| part.get(i).copied().unwrap_or(0.0)).collect()
}

fn add_row(t: &mut Record) {
    let terms = t.inputs.count();
    let mut m = Lent::new(matrix(&t.inputs.doubles()));
    let mut rhs = Lent::new(t.inputs.doubles());
    let row = Lent::new(t.inputs.doubles());
    let target = t.inputs.double();
    let r = unsafe { purdolve_add_row(m.ptr_mut(), rhs.ptr_mut(), rhs.len(), row.ptr(), row.len(), target, terms) };
    let mut same = r as u64 == t.answer.word() && row.untouched();
    if r != 0 {
        same &= m.untouched() && rhs.untouched();
    }
    same &= m.is(&matrix(&t.answer.doubles()), terms.saturating_mul(terms)) && rhs.is(&t.answer.doubles(), terms);
    t.add(r, same);
}

fn finish(t: &mut Record) {
    let terms = t.inputs.count();
    let mut m = Lent::new(matrix(&t.inputs.doubles()));
    let mut rhs = Lent::new(t.inputs.doubles());
    let mut x = Lent::new(t.inputs.doubles());
    let r = unsafe { purdolve_finish(m.ptr_mut(), rhs.ptr_mut(), rhs.len(), x.ptr_mut(), x.len(), terms) };
    let mut same = outcome(t, r);
    if r.number != 0 {
        same &= m.untouched() && rhs.untouched() && x.untouched();
    }
    same &= m.is(&matrix(&t.answer.doubles()), terms.saturating_mul(terms)) && rhs.is(&t.answer.doubles(), terms);
    same &= x.is(&t.answer.doubles(), if r.solved { terms } else { 0 });
    t.add(r.number, same);
}

fn median(t: &mut Record) {
    let mut values = Lent::new(t.inputs.singles());
    let r = unsafe { purdolve_median(values.ptr_mut(), values.len()) };
    let same = r.same(t.answer.single()) && values.is(&t.answer.singles(), values.len());
    t.add(0, same);
}

fn mad_sigma(t: &mut Record) {
    let values = Lent::new(t.inputs.singles());
    let mut scratch = Lent::new(t.inputs.singles());
    let r = unsafe { purdolve_mad_sigma(values.ptr(), values.len(), scratch.ptr_mut(), scratch.len()) };
    let mut same = r.number as u64 == t.answer.word() && values.untouched();
    if r.number == 0 {
        same &= r.value.same(t.answer.single());
    } else {
        same &= r.value.bits() == 0 && scratch.untouched();
    }
    same &= scratch.is(&t.answer.singles(), 2 * values.len());
    t.add(r.number, same);
}
