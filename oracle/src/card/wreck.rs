//! Damaged copies of a good card file: one thing done to its bytes, whatever they then say.
use crate::rng::{Rng, special32};

/// What can be done to a file, by name.
pub const KINDS: [(&str, fn(&mut Rng, &mut Vec<u8>)); 16] = [
    ("cut off", |rng, file| file.truncate(rng.below(file.len() + 1))),
    ("bytes put in", |rng, file| {
        let at = rng.below(file.len() + 1);
        let more = rng.pick(&[1, 1, 3, 8, 16, 32]);
        file.splice(at..at, (0..more).map(|_| rng.bits() as u8).collect::<Vec<_>>());
    }),
    ("another length", |rng, file| {
        let length = rng.pick(&[0, 1, 8, 39, 40, 41, 47, 48, 63, 64, 16_376, 16_377, 16_383, 16_384, 16_385, 70_000]);
        file.resize(length, rng.bits() as u8);
    }),
    ("a word of the directory", |rng, file| {
        let length = file.len() as u32;
        let near = rng.pick(&[0, 40, length, 1 << 16, 1 << 31, 0u32.wrapping_sub(40), 0u32.wrapping_sub(length)]);
        let word =
            if rng.chance(4) { rng.bits() as u32 } else { near.wrapping_add(rng.below(5) as u32).wrapping_sub(2) };
        put(file, 4 * rng.below(10), &word.to_le_bytes());
    }),
    ("two pairs exchanged", |rng, file| {
        let (a, b) = (8 * rng.below(5), 8 * rng.below(5));
        let pair = file[a..a + 8].to_vec();
        file.copy_within(b..b + 8, a);
        put(file, b, &pair);
    }),
    ("sections that overlap or part", |rng, file| {
        let at = 8 * rng.between(1, 4) as usize;
        let by = rng.pick(&[1, 4, 8, 16, 32]);
        let offset = word(file, at);
        let moved = if rng.chance(2) { offset.wrapping_sub(by) } else { offset.wrapping_add(by) };
        put(file, at, &moved.to_le_bytes());
    }),
    ("a border between sections moved", |rng, file| {
        let at = 8 * rng.below(4);
        let by = rng.pick(&[1, 2, 8, 12, 16, 32]).min(word(file, at + 4));
        border(file, at, by);
    }),
    ("lengths that wrap around", |rng, file| {
        // the offsets are those that sums of 32 bits would give
        border(file, 8 * rng.below(4), rng.pick(&[1 << 31, 1 << 30, 40, 1 << 16]));
    }),
    ("a side of", |rng, file| {
        let side = rng.pick(&[0u16, 1, 63, 64, 65, 66, 255, 256, 320, 1024, 65535]);
        put(file, 40, &side.to_le_bytes());
    }),
    ("a setting", |rng, file| {
        let any = rng.bits() as u8;
        let value = rng.pick(&[0, 1, 2, 3, 4, 5, 8, 15, 16, 17, 32, 255, any]);
        put(file, 42 + rng.below(6), &[value]);
    }),
    ("another number of hues, palette and all", |rng, file| {
        let hues = rng.pick(&[0u8, 1, 2, 3, 4, 5, 8, 16, 17, 32, 255]);
        let (from, old) = (48, word(file, 12));
        let new = 8 + 32 * hues as u32;
        let rest = file.split_off(from + old as usize);
        file.resize(from + new as usize, rng.pick(&[0, 0x3F]));
        file.extend(rest);
        put(file, 43, &[hues]);
        put(file, 12, &new.to_le_bytes());
        for pair in [16, 24, 32] {
            let at = word(file, pair).wrapping_add(new).wrapping_sub(old);
            put(file, pair, &at.to_le_bytes());
        }
    }),
    ("a float", |rng, file| {
        if let Some(at) = float_at(rng, file) {
            let float = float(rng);
            put(file, at, &float.to_le_bytes());
        }
    }),
    ("no numbers in a whole section", |rng, file| {
        let pair = rng.pick(&[8, 16, 24, 32]);
        let (mut at, end) = (word(file, pair) as usize, (word(file, pair) + word(file, pair + 4)) as usize);
        let nan = rng.pick(&[0x7FC0_0000u32, 0xFFC0_0000, 0x7F80_0001, 0xFFFF_FFFF]).to_le_bytes();
        let record = if pair >= 24 { 16 } else { 4 };
        while at < end {
            (record - 12.min(record)..record).step_by(4).for_each(|k| put(file, at + k, &nan));
            at += record;
        }
    }),
    ("a place", |rng, file| {
        let pair = rng.pick(&[24, 32]);
        let records = word(file, pair + 4) as usize / 16;
        if records > 0 {
            let at = word(file, pair) as usize + 16 * rng.below(records) + 2 * rng.below(2);
            let side = u16::from_le_bytes([file[40], file[41]]);
            let close = [65530, 65529, 65535, 0, side.wrapping_sub(1), side, side + 5, side + 6];
            let far = [1023, 1024, 32767, 32768, 65535, rng.bits() as u16, 1, 2];
            let place = if rng.chance(2) { rng.pick(&close) } else { rng.pick(&far) };
            put(file, at, &place.to_le_bytes());
        }
    }),
    ("a record over another", |rng, file| {
        let pair = rng.pick(&[16, 24, 24, 32]);
        let record = if pair == 16 { 32 } else { 16 };
        let (from, records) = (word(file, pair) as usize, word(file, pair + 4) as usize / record);
        if records > 0 {
            let (a, b) = (from + record * rng.below(records), from + record * rng.below(records));
            file.copy_within(a..a + record, b);
        }
    }),
    ("any bytes", |rng, file| {
        let from = rng.below(file.len());
        let count = rng.pick(&[1, 1, 2, 4, 16, 400, 20_000]).min(file.len() - from);
        for byte in &mut file[from..from + count] {
            *byte = if rng.chance(3) { *byte ^ 1 << rng.below(8) } else { rng.bits() as u8 };
        }
    }),
];

fn word(file: &[u8], at: usize) -> u32 {
    u32::from_le_bytes(file[at..at + 4].try_into().unwrap())
}

fn put(file: &mut [u8], at: usize, bytes: &[u8]) {
    file[at..at + bytes.len()].copy_from_slice(bytes);
}

/// The section of a pair ends `by` bytes earlier and the next begins there.
fn border(file: &mut [u8], pair: usize, by: u32) {
    for (at, by) in [(pair + 4, 0u32.wrapping_sub(by)), (pair + 8, 0u32.wrapping_sub(by)), (pair + 12, by)] {
        let moved = word(file, at).wrapping_add(by);
        put(file, at, &moved.to_le_bytes());
    }
}

/// Where some float of the file stands.
fn float_at(rng: &mut Rng, file: &[u8]) -> Option<usize> {
    let pair = rng.pick(&[8, 16, 16, 24, 24, 32]);
    let (from, length) = (word(file, pair) as usize, word(file, pair + 4) as usize);
    let inside = |rng: &mut Rng| match pair {
        24 | 32 => 16 * rng.below(length / 16) + 4 + 4 * rng.below(3),
        _ => 4 * rng.below(length / 4),
    };
    if length == 0 { None } else { Some(from + inside(rng)) }
}

/// A float that a refusal or an edge may hang on, or any.
fn float(rng: &mut Rng) -> f32 {
    let edges = [1_048_576.0f32, -16.0, 16.0, 80.0, 0.0, 1e19, 3e38, 0.05, 1.0];
    match rng.below(4) {
        0 => rng.pick(&special32()),
        1 => f32::from_bits(rng.pick(&edges).to_bits().wrapping_add(rng.below(3) as u32).wrapping_sub(1)),
        2 => rng.any32(),
        _ => rng.single(-2.0, 2.0),
    }
}

/// A copy with one thing done to it, or two.
pub fn wrecked(rng: &mut Rng, good: &[u8]) -> (usize, Vec<u8>) {
    let mut file = good.to_vec();
    let kind = rng.below(KINDS.len());
    KINDS[kind].1(rng, &mut file);
    if rng.chance(8) {
        let at = rng.below(file.len().max(1));
        file.get_mut(at).into_iter().for_each(|byte| *byte ^= 1 << rng.below(8));
    }
    (kind, file)
}
