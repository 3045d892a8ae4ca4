//! The lists of inputs and answers, one per crate.
use crate::rng::Rng;
use crate::words::List;

mod color;
mod counts;
mod demod;
mod float;
mod illum;
mod math;
mod measure;
mod modulate;
mod near;
mod page;
mod private;
mod records;
mod refine;
mod stats;
mod totals;
mod whole;

/// How one list is made.
pub struct Kind {
    pub name: &'static str,
    pub seed: u64,
    /// Random records in the stored list.
    pub random: usize,
    /// What each kind of record means; the list's header.
    pub header: &'static str,
    /// The structured records.
    pub structured: fn(&mut List),
    /// One random record.
    pub one: fn(&mut List, &mut Rng),
}

pub const KINDS: &[Kind] = &[
    float::KIND,
    math::KIND,
    color::KIND,
    modulate::KIND,
    page::KIND,
    illum::KIND,
    stats::KIND,
    measure::KIND,
    records::KIND,
    near::KIND,
    demod::KIND,
    refine::KIND,
    whole::KIND,
    totals::KIND,
    counts::KIND,
    private::KIND,
];

impl Kind {
    /// The records of the stored list, and how many they are.
    fn body(&self) -> (Vec<u8>, usize) {
        let mut body = Vec::new();
        let mut list = List::new(&mut body);
        (self.structured)(&mut list);
        self.randoms(&mut list, self.random, self.seed);
        let records = list.records;
        (body, records)
    }

    /// The stored list.
    pub fn stored(&self, to: &mut dyn std::io::Write) {
        let (body, records) = self.body();
        let mut out = List::new(to);
        out.put(&format!("# Inputs and answers for the crate `{}`: {records} records.", self.name));
        out.put(&format!("# Made by oracle/ (`oracle list {}`), seed {}.", self.name, self.seed));
        out.put(&format!("# compiler: {}", option_env!("ORACLE_RUSTC").unwrap_or("unknown")));
        out.put(
            "# NAME WORDS = WORDS, upper-case hexadecimal. A float is its bits, a slice its length and its elements.",
        );
        out.put("# A NaN that comes out is 7FC00000 or 7FF8000000000000 and stands for every NaN.");
        out.put("# `no` is document 01's number: 0 accepted, else the refusal, and then no values follow it.");
        out.put("# |s| is a slice; |s|' is the same slice after the call, whole.");
        for line in self.header.trim_end().lines() {
            out.put(&format!("# {}", line.trim_start()));
        }
        to.write_all(&body).expect("standard output");
    }

    /// `count` random records, without a header.
    pub fn randoms(&self, out: &mut List, count: usize, seed: u64) {
        let mut rng = Rng::new(seed);
        for _ in 0..count {
            (self.one)(out, &mut rng);
        }
    }
}
