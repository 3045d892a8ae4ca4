//! Our reader beside the oracle's, byte for byte, on generated cards and on damaged copies of good ones. Ours is linked
//! as a static library, and the program `readcard` is run too; oracle/compare-cards builds this and says how.
use oracle::card::wreck::{KINDS, wrecked};
use oracle::card::{make, readcard};
use oracle::rng::Rng;
use std::io::Write;
use std::process::{Command, Stdio};

/// Room for every listing, as crates/listing has it.
const ROOM: usize = 101_047;

unsafe extern "C" {
    /// Writes the listing of a card file, or `refused N`, and answers its length.
    fn purdolve_read_card(file: *const u8, file_len: usize, out: *mut u8, out_len: usize) -> usize;
}

/// What a group of cards came to: how many were listed (at 0) and refused by each number, and how many differ.
#[derive(Clone, Copy, Default)]
struct Count {
    answers: [usize; 32],
    differ: usize,
}

impl Count {
    fn add(&mut self, wanted: &str, same: bool, what: &str, file: &[u8]) {
        let number = wanted.strip_prefix("refused ").map_or(0, |n| n.trim_end().parse().expect("a number"));
        self.answers[number] += 1;
        if !same {
            self.differ += 1;
            let path = std::env::temp_dir().join(format!("differs-{}.card", what.replace([' ', ','], "-")));
            std::fs::write(&path, file).ok();
            println!("DIFFERS: {what}, kept as {}", path.display());
        }
    }

    fn sum(&self, other: &Count) -> Count {
        let answers = std::array::from_fn(|i| self.answers[i] + other.answers[i]);
        Count { answers, differ: self.differ + other.differ }
    }

    fn print(&self, name: &str) {
        let met = |i: &usize| self.answers[*i] > 0;
        let refused: Vec<String> = (1..self.answers.len()).filter(met).map(|i| format!("{i} x {}", self.answers[i])).collect();
        let all: usize = self.answers.iter().sum();
        println!(
            "{name}: {all} compared, {} differ; {} listed, refused {}",
            self.differ,
            self.answers[0],
            refused.join(", ")
        );
    }
}

/// Ours in a room of its own, whose bytes past the text must stay as they were; None where it wrote there.
fn ours(file: &[u8], room: &mut [u8]) -> Option<usize> {
    let fill = file.len() as u8 ^ 0xA5;
    room.fill(fill);
    let lent = room.len() - 64;
    // SAFETY: both are slices with their lengths, and the second is lent to nobody else.
    let n = unsafe { purdolve_read_card(file.as_ptr(), file.len(), room.as_mut_ptr(), lent) };
    (n <= lent && room[n..].iter().all(|&b| b == fill)).then_some(n)
}

/// Ours and the oracle's on one card, in full room and in any shorter one.
fn same(rng: &mut Rng, file: &[u8], wanted: &[u8], room: &mut [u8]) -> bool {
    let short = rng.below(wanted.len() + 1);
    let whole = ours(file, room).is_some_and(|n| &room[..n] == wanted);
    let cut = rng.chance(8).then(|| ours(file, &mut room[..short + 64]).is_some_and(|n| room[..n] == wanted[..short]));
    whole && cut != Some(false)
}

/// What the program writes for a card, where it ends well.
fn program(path: &str, file: &[u8]) -> Option<Vec<u8>> {
    let mut child = Command::new(path).stdin(Stdio::piped()).stdout(Stdio::piped()).spawn().expect("the program");
    // a file that is too long is not read to its end
    child.stdin.take().unwrap().write_all(file).ok();
    let output = child.wait_with_output().expect("the program");
    output.status.success().then_some(output.stdout)
}

fn main() {
    let words: Vec<String> = std::env::args().skip(1).collect();
    let [count, copies, seed, path] = &words[..] else { panic!("COUNT COPIES SEED PROGRAM") };
    let number = |word: &str| word.parse::<usize>().unwrap_or_else(|_| panic!("no number: {word}"));
    let mut rng = Rng::new(number(seed) as u64);
    let mut room = vec![0; ROOM + 64];
    let (mut library, mut programs) = (Count::default(), Count::default());
    for i in 0..number(count) {
        let file = if i % 8 == 7 { make::large(&mut rng) } else { make::any(&mut rng) };
        let wanted = readcard(&file);
        library.add(&wanted, same(&mut rng, &file, wanted.as_bytes(), &mut room), "generated, library", &file);
        programs.add(&wanted, program(path, &file).as_deref() == Some(wanted.as_bytes()), "generated, program", &file);
    }
    library.print("generated cards, library");
    programs.print("generated cards, program");
    let mut kinds = [Count::default(); KINDS.len()];
    let mut good = Vec::new();
    for i in 0..number(copies) {
        if i % 64 == 0 {
            let most = rng.pick(&[2, 20, 60, 150]);
            good = make::card(&mut rng, most).file();
        }
        let (kind, file) = wrecked(&mut rng, &good);
        let wanted = readcard(&file);
        kinds[kind].add(&wanted, same(&mut rng, &file, wanted.as_bytes(), &mut room), KINDS[kind].0, &file);
    }
    for (kind, count) in KINDS.iter().zip(&kinds) {
        count.print(&format!("damaged copies, {}", kind.0));
    }
    let all = kinds.iter().fold(Count::default(), |a, b| a.sum(b));
    all.print("damaged copies");
    if library.differ + programs.differ + all.differ > 0 {
        std::process::exit(1);
    }
}
