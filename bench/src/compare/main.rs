//! Calls the static library on the oracle's lists, structured and random, and compares every answer and every byte of
//! lent memory; then the roots on every pattern. `compare COUNT SEED [LIST]`: COUNT random records of each list, or of one.
use oracle::lists::KINDS;
use oracle::rng::Rng;
use oracle::words::List;
use std::collections::BTreeMap;

mod calls;
mod drawing;
mod lent;
#[path = "../library.rs"]
mod library;
mod words;

/// What was compared of one function.
#[derive(Default)]
pub struct Tally {
    pub calls: u64,
    pub differ: u64,
    /// How often each refusal was given.
    pub refused: BTreeMap<u32, u64>,
    /// The first record that differs.
    pub first: String,
}

#[derive(Default)]
pub struct Tallies(BTreeMap<String, Tally>);

impl Tallies {
    /// One call's outcome: document 01's number, and whether all was equal.
    pub fn add(&mut self, name: &str, number: u32, same: bool, line: &str) {
        if !self.0.contains_key(name) {
            self.0.insert(name.to_string(), Tally::default());
        }
        let tally = self.0.get_mut(name).expect("made above");
        tally.calls += 1;
        if number != 0 {
            *tally.refused.entry(number).or_default() += 1;
        }
        if !same {
            tally.differ += 1;
            if tally.first.is_empty() {
                tally.first = line.chars().take(2000).collect();
            }
        }
    }

    fn print(&self) {
        let (mut calls, mut differ) = (0, 0);
        for (name, t) in &self.0 {
            let refused: Vec<String> = t.refused.iter().map(|(n, c)| format!("{n}: {c}")).collect();
            println!("{name:24} {:12} calls {:6} differ   refused {}", t.calls, t.differ, refused.join(", "));
            if t.differ != 0 {
                println!("    first: {}", t.first);
            }
            calls += t.calls;
            differ += t.differ;
        }
        println!("{calls} calls, {differ} differ");
    }
}

/// Replays what a list's maker writes.
fn replay(tallies: &mut Tallies, body: &[u8]) {
    for line in std::str::from_utf8(body).expect("ASCII").lines() {
        calls::replay(tallies, line);
    }
}

fn main() {
    let words: Vec<String> = std::env::args().skip(1).collect();
    let number = |i: usize, other: u64| words.get(i).map_or(other, |w| w.parse().expect("a number"));
    let (count, seed) = (number(0, 1000), number(1, 1));
    let tallies = &mut Tallies::default();
    // `private` has functions that are not exported, `records` calls that have a list of their own
    let asked = |name: &str| words.get(2).is_none_or(|w| w == name || w == "roots");
    for kind in KINDS.iter().filter(|k| !matches!(k.name, "private" | "records") && asked(k.name)) {
        let mut body = Vec::new();
        (kind.structured)(&mut List::new(&mut body));
        replay(tallies, &body);
        let rng = &mut Rng::new(seed);
        // A call of `counts` takes milliseconds.
        let records = if kind.name == "counts" { count / 100 } else { count };
        for _ in 0..records {
            body.clear();
            (kind.one)(&mut List::new(&mut body), rng);
            replay(tallies, &body);
        }
    }
    if asked("drawing") {
        drawing::elements(tallies, count, seed);
    }
    tallies.print();
    if words.get(2).is_some_and(|w| w == "roots") {
        calls::roots();
    }
}
