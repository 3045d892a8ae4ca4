//! The oracle as a program; `oracle help` says what it does.
use oracle::card::{Card, make, page, readcard, unrefined};
use oracle::compare::compare;
use oracle::exact;
use oracle::lists::KINDS;
use oracle::rng::Rng;
use oracle::words::List;
use std::io::{BufWriter, Read, Write};

const HELP: &str = "\
oracle names                   the names of the lists
oracle list NAME               the stored list NAME to standard output
oracle many NAME COUNT [SEED]  COUNT random records of the kinds of NAME, without a header
oracle readcard                a card file on standard input to its listing, or `refused N`
oracle unrefined               the same without refinement: what it would be read as
oracle page                    the page of a card file for the panel door, or `refused N`
oracle nearest X Y             the kept references of a card file nearest to a module, and those not kept
oracle cards FOLDER COUNT SEED card files FOLDER/0.card .., with their listings beside them (.txt)
oracle listings COUNT SEED     the listings of as many cards to standard output, one after the other
oracle whole COUNT SEED        on as many cards, scoring and then refining is the Rust's `demodulate` with its last call
oracle compare FILE FILE       two lists (or listings) made by two builds, record by record
oracle powi                    powi(2) and powi(4) on every f32: how often they are not the products
oracle cbrt                    f32::cbrt on every positive f32: how often it is not the nearest";

fn main() {
    let words: Vec<String> = std::env::args().skip(1).collect();
    let words: Vec<&str> = words.iter().map(String::as_str).collect();
    let mut to = BufWriter::new(std::io::stdout().lock());
    let kind = |name: &str| KINDS.iter().find(|k| k.name == name).unwrap_or_else(|| panic!("no list {name}"));
    let number = |word: &str| word.parse::<usize>().unwrap_or_else(|_| panic!("no number: {word}"));
    match words[..] {
        ["names"] => KINDS.iter().for_each(|k| List::new(&mut to).put(k.name)),
        ["list", name] => kind(name).stored(&mut to),
        ["many", name, count] => kind(name).randoms(&mut List::new(&mut to), number(count), 0),
        ["many", name, count, seed] => kind(name).randoms(&mut List::new(&mut to), number(count), number(seed) as u64),
        ["readcard" | "unrefined" | "page"] => {
            let mut file = Vec::new();
            std::io::stdin().take(16_385).read_to_end(&mut file).expect("standard input");
            let text = match words[0] {
                "readcard" => readcard(&file),
                "unrefined" => unrefined(&file),
                _ => page(&file),
            };
            to.write_all(text.as_bytes()).expect("standard output");
        }
        ["nearest", x, y] => {
            let mut file = Vec::new();
            std::io::stdin().read_to_end(&mut file).expect("standard input");
            let place = |word: &str| word.parse().unwrap_or_else(|_| panic!("no place: {word}"));
            let found = Card::parse(&file).ok_or(1).and_then(|card| card.nearest(place(x), place(y)));
            to.write_all(found.unwrap_or_else(|n| format!("refused {n}\n")).as_bytes()).expect("standard output");
        }
        ["cards", folder, count, seed] => {
            let mut rng = Rng::new(number(seed) as u64);
            for i in 0..number(count) {
                let file = make::any(&mut rng);
                std::fs::write(format!("{folder}/{i}.card"), &file).expect("the folder");
                std::fs::write(format!("{folder}/{i}.txt"), readcard(&file)).expect("the folder");
            }
        }
        ["listings", count, seed] => {
            let mut rng = Rng::new(number(seed) as u64);
            for _ in 0..number(count) {
                to.write_all(readcard(&make::any(&mut rng)).as_bytes()).expect("standard output");
            }
        }
        ["whole", count, seed] => {
            let mut rng = Rng::new(number(seed) as u64);
            let cards = (0..number(count)).filter_map(|_| Card::parse(&make::any(&mut rng)));
            let (compared, differ) =
                cards.filter_map(|c| c.whole().ok()).fold((0, 0), |(n, d), same| (n + 1, d + !same as u32));
            List::new(&mut to).put(&format!("demodulate: {compared} compared, {differ} differ"));
        }
        ["compare", a, b] => {
            let read = |path: &str| std::fs::read_to_string(path).unwrap_or_else(|e| panic!("{path}: {e}"));
            to.write_all(compare(&read(a), &read(b)).as_bytes()).expect("standard output");
        }
        ["powi"] => List::new(&mut to).put(&every(|x| {
            let square = x * x;
            same(x.powi(2), square) && same(x.powi(4), square * square)
        })),
        ["cbrt"] => List::new(&mut to).put(&every(|x| x.is_sign_negative() || same(x.cbrt(), exact::cbrt(x)))),
        _ => List::new(&mut to).put(HELP),
    }
    to.flush().ok();
}

fn same(a: f32, b: f32) -> bool {
    a.to_bits() == b.to_bits() || a.is_nan() && b.is_nan()
}

/// How many of all f32 fail, and the first of them.
fn every(holds: impl Fn(f32) -> bool) -> String {
    let mut failing = (0..=u32::MAX).filter(|&bits| !holds(f32::from_bits(bits)));
    match failing.next() {
        None => "none of all 4294967296 patterns differ".to_string(),
        Some(first) => format!("{} patterns differ, the first {first:08X}", 1 + failing.count()),
    }
}
