//! Times the Rust colour stage and, where it is linked, ours: the same inputs, alternating samples, medians.
use std::hint::black_box;

#[cfg(ours)]
mod library;
mod ours;
mod rust;

/// Samples of each side, and the least time that one sample takes.
const SAMPLES: usize = 201;
const SAMPLE_NANOSECONDS: f64 = 3e5;

/// One thing that is timed on both sides.
pub struct Case {
    pub name: &'static str,
    /// How many units (modules, values) one call works on.
    pub units: usize,
    pub call: Box<dyn FnMut()>,
}

#[repr(C)]
struct Timespec {
    seconds: i64,
    nanoseconds: i64,
}

unsafe extern "C" {
    fn clock_gettime(clock: i32, time: *mut Timespec) -> i32;
}

/// Nanoseconds of processor time that this thread has used: what else runs on the machine does not count.
fn now() -> f64 {
    const CLOCK_THREAD_CPUTIME_ID: i32 = 3;
    let mut t = Timespec { seconds: 0, nanoseconds: 0 };
    assert_eq!(unsafe { clock_gettime(CLOCK_THREAD_CPUTIME_ID, &mut t) }, 0);
    t.seconds as f64 * 1e9 + t.nanoseconds as f64
}

/// Nanoseconds of `times` calls.
fn timed(case: &mut Case, times: usize) -> f64 {
    let start = now();
    for _ in 0..times {
        (case.call)();
        black_box(());
    }
    now() - start
}

/// How many calls fill one sample.
fn calls_a_sample(case: &mut Case) -> usize {
    let mut times = 1;
    while timed(case, times) < SAMPLE_NANOSECONDS {
        times *= 2;
    }
    times
}

fn median(mut values: Vec<f64>) -> f64 {
    values.sort_by(f64::total_cmp);
    values[values.len() / 2]
}

/// One call of a case, so that a counter of instructions can be set on it: `bench count NAME rust` or `ours`.
fn count(name: &str, side: &str) {
    let cases = if side == "ours" { ours::cases() } else { rust::cases() };
    let mut case = cases.into_iter().find(|c| c.name == name).expect("the name of a case");
    once(&mut case);
}

#[inline(never)]
fn once(case: &mut Case) {
    (case.call)();
    black_box(());
}

fn main() {
    let words: Vec<String> = std::env::args().skip(1).collect();
    match &words[..] {
        [word, name, side] if word == "count" => return count(name, side),
        _ => {}
    }
    println!("{:26} {:>14} {:>14} {:>8}", "", "Rust ns", "ours ns", "ratio");
    let mut ours = ours::cases();
    let asked = |c: &Case| words.is_empty() || words.iter().any(|w| c.name.starts_with(w.as_str()));
    for mut theirs in rust::cases().into_iter().filter(asked) {
        let times = calls_a_sample(&mut theirs);
        let unit = |nanoseconds: Vec<f64>, case: &Case| median(nanoseconds) / (times * case.units) as f64;
        let mut other = ours.iter_mut().find(|c| c.name == theirs.name);
        let (mut a, mut b) = (Vec::new(), Vec::new());
        for _ in 0..SAMPLES {
            a.push(timed(&mut theirs, times));
            if let Some(case) = &mut other {
                b.push(timed(case, times));
            }
        }
        let rust = unit(a, &theirs);
        match other {
            Some(case) => {
                let ours = unit(b, case);
                println!("{:26} {rust:14.1} {ours:14.1} {:8.2}", theirs.name, ours / rust);
            }
            None => println!("{:26} {rust:14.1}", theirs.name),
        }
    }
}
