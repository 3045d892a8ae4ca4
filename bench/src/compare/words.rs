//! One record of a list, read word by word: what goes in, and what must come out.
use crate::library::{Lab, Linear, Model, Srgb8, Stats, Xyz};

/// The answer "no solution".
pub const NO_SOLUTION: u64 = 0xFFFF;

pub struct Words {
    words: Vec<u64>,
    at: usize,
}

impl Words {
    /// The function's name, its input and its answer, of one line `NAME WORD .. = WORD ..`.
    pub fn split(line: &str) -> (&str, Words, Words) {
        let (inputs, answer) = line.split_once(" =").expect("a record");
        let (name, inputs) = inputs.split_once(' ').expect("a record");
        (name, Words::of(inputs), Words::of(answer))
    }

    fn of(text: &str) -> Words {
        let word = |w| u64::from_str_radix(w, 16).expect("a word");
        Words { words: text.split_ascii_whitespace().map(word).collect(), at: 0 }
    }

    pub fn word(&mut self) -> u64 {
        self.at += 1;
        self.words[self.at - 1]
    }

    pub fn left(&self) -> usize {
        self.words.len() - self.at
    }

    pub fn count(&mut self) -> usize {
        self.word() as usize
    }

    pub fn byte(&mut self) -> u8 {
        self.word() as u8
    }

    pub fn short(&mut self) -> u16 {
        self.word() as u16
    }

    pub fn flag(&mut self) -> bool {
        self.word() != 0
    }

    pub fn single(&mut self) -> f32 {
        f32::from_bits(self.word() as u32)
    }

    pub fn double(&mut self) -> f64 {
        f64::from_bits(self.word())
    }

    pub fn linear(&mut self) -> Linear {
        Linear { r: self.single(), g: self.single(), b: self.single() }
    }

    pub fn lab(&mut self) -> Lab {
        Lab { l: self.single(), a: self.single(), b: self.single() }
    }

    pub fn xyz(&mut self) -> Xyz {
        Xyz { x: self.single(), y: self.single(), z: self.single() }
    }

    pub fn srgb8(&mut self) -> Srgb8 {
        Srgb8 { r: self.byte(), g: self.byte(), b: self.byte() }
    }

    /// A slice: its length, then its elements.
    pub fn slice<T>(&mut self, mut element: impl FnMut(&mut Words) -> T) -> Vec<T> {
        let n = self.count();
        (0..n).map(|_| element(self)).collect()
    }

    pub fn singles(&mut self) -> Vec<f32> {
        self.slice(Words::single)
    }

    pub fn doubles(&mut self) -> Vec<f64> {
        self.slice(Words::double)
    }

    pub fn places(&mut self) -> Vec<i32> {
        self.slice(|w| w.word() as u32 as i32)
    }

    pub fn shorts(&mut self) -> Vec<u16> {
        self.slice(Words::short)
    }

    pub fn bytes(&mut self) -> Vec<u8> {
        self.slice(Words::byte)
    }

    pub fn stats(&mut self) -> Stats {
        Stats {
            l0: self.single(),
            l1: self.single(),
            sigma_l: self.single(),
            sigma_ab: self.single(),
            sigma_ab_dark: self.single(),
            sigma_ab_light: self.single(),
            samples: self.word() as u32,
        }
    }

    pub fn model(&mut self) -> Model {
        let (terms, side, residual_rms) = (self.count(), self.single(), self.single());
        let (rejected, kept, width) = (self.word() as u32, self.word() as u32, self.count());
        let affine = std::array::from_fn(|_| std::array::from_fn(|_| self.double()));
        let mut surfaces =
            || std::array::from_fn(|_| std::array::from_fn(|k| if k < width { self.double() } else { 0.0 }));
        Model { affine, gain: surfaces(), flare: surfaces(), terms, side, residual_rms, rejected, kept }
    }
}
