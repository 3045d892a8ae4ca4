//! One record replayed: the call that it names, on guarded memory, and its answer compared.
use crate::Tallies;
use crate::lent::Element;
use crate::library::*;
use crate::words::Words;

mod colour;
mod floor;
mod stage;
mod totals;

/// One record under way.
pub struct Record<'a> {
    tallies: &'a mut Tallies,
    name: &'a str,
    line: &'a str,
    inputs: Words,
    answer: Words,
}

impl Record<'_> {
    /// One call's outcome. All words must have been used by the end of the record.
    fn add(&mut self, number: u32, same: bool) {
        self.tallies.add(self.name, number, same, self.line);
    }

    /// A float.
    fn single(&mut self, ours: f32) {
        let same = ours.same(self.answer.single());
        self.add(0, same);
    }

    /// Three floats.
    fn three(&mut self, ours: [f32; 3]) {
        let same = ours.into_iter().all(|v| v.same(self.answer.single()));
        self.add(0, same);
    }

    /// A whole number.
    fn word(&mut self, ours: u64) {
        let same = ours == self.answer.word();
        self.add(0, same);
    }

    /// A whole number or a refusal, which has no value.
    fn number(&mut self, ours: NumberAnswer) {
        let same = ours.number == self.answer.word() as u32;
        let value = if ours.number == 0 && same { self.answer.count() } else { 0 };
        self.add(ours.number, same && ours.value == value);
    }

    fn flag(&mut self, ours: FlagAnswer) {
        let same = ours.number == self.answer.word() as u32;
        let yes = if ours.number == 0 && same { self.answer.flag() } else { false };
        self.add(ours.number, same && ours.yes == yes);
    }
}

pub fn replay(tallies: &mut Tallies, line: &str) {
    if line.starts_with('#') {
        return;
    }
    let (name, inputs, answer) = Words::split(line);
    if matches!(name, "basis" | "deshade") {
        return; // cores, which are not exported
    }
    let record = &mut Record { tallies, name, line, inputs, answer };
    let known = floats(record)
        || floor::replay(record)
        || colour::replay(record)
        || stage::replay(record)
        || totals::replay(record);
    assert!(known, "no such call: {name}");
    assert!(record.inputs.left() == 0, "words left over: {line}");
}

fn floats(t: &mut Record) -> bool {
    let i = &mut t.inputs;
    match t.name {
        "sqrt" => {
            let r = unsafe { purdolve_sqrt(i.single()) };
            t.single(r)
        }
        "cbrt" => {
            let r = unsafe { purdolve_cbrt(i.single()) };
            t.single(r)
        }
        "abs" => {
            let r = unsafe { purdolve_abs(i.single()) };
            t.single(r)
        }
        "narrow" => {
            let r = unsafe { purdolve_narrow(i.double()) };
            t.single(r)
        }
        "max" => {
            let r = unsafe { purdolve_max(i.single(), i.single()) };
            t.single(r)
        }
        "min" => {
            let r = unsafe { purdolve_min(i.single(), i.single()) };
            t.single(r)
        }
        "clamp" => {
            let r = unsafe { purdolve_clamp(i.single(), i.single(), i.single()) };
            t.single(r)
        }
        "widen" => {
            let r = unsafe { purdolve_widen(i.single()) };
            let same = r.same(t.answer.double());
            t.add(0, same)
        }
        "abs_f64" => {
            let r = unsafe { purdolve_abs_f64(i.double()) };
            let same = r.same(t.answer.double());
            t.add(0, same)
        }
        _ => return false,
    }
    true
}

/// Both roots on every pattern, against the oracle's: the square root by the hardware, the cube root by whole numbers.
pub fn roots() {
    let (mut squares, mut cubes) = (0u64, 0u64);
    for bits in 0..=u32::MAX {
        let x = f32::from_bits(bits);
        squares += !unsafe { purdolve_sqrt(x) }.same(x.sqrt()) as u64;
        cubes += !unsafe { purdolve_cbrt(x) }.same(oracle::exact::cbrt(x)) as u64;
    }
    println!("sqrt: 4294967296 patterns, {squares} differ; cbrt: 4294967296 patterns, {cubes} differ");
}
