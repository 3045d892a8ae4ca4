//! The one plain format of all lists: a name, then words of upper-case hexadecimal digits, `=` between what
//! goes in and what must come out. Floats are bit patterns, every NaN that comes out is the same one.

/// One record under way.
pub struct Record {
    line: String,
    answering: bool,
}

/// A thing that is written as one word.
pub trait Word: Copy {
    fn word(self, answering: bool) -> String;
}

impl Word for f32 {
    fn word(self, answering: bool) -> String {
        let bits = if answering && self.is_nan() { 0x7FC0_0000 } else { self.to_bits() };
        format!("{bits:08X}")
    }
}

impl Word for f64 {
    fn word(self, answering: bool) -> String {
        let bits = if answering && self.is_nan() { 0x7FF8_0000_0000_0000 } else { self.to_bits() };
        format!("{bits:016X}")
    }
}

impl Word for i32 {
    fn word(self, _: bool) -> String {
        format!("{self:08X}")
    }
}

impl Word for bool {
    fn word(self, _: bool) -> String {
        format!("{:X}", self as u8)
    }
}

macro_rules! plain_words {
    ($($t:ty)*) => {$(impl Word for $t {
        fn word(self, _: bool) -> String {
            format!("{self:X}")
        }
    })*};
}
plain_words!(u8 u16 u32 u64 usize);

impl Record {
    pub fn new(name: &str) -> Record {
        Record { line: name.to_string(), answering: false }
    }

    /// One word.
    pub fn w(mut self, word: impl Word) -> Record {
        self.line.push(' ');
        self.line.push_str(&word.word(self.answering));
        self
    }

    /// Words whose number the function fixes.
    pub fn all<T: Word>(self, words: impl IntoIterator<Item = T>) -> Record {
        words.into_iter().fold(self, Record::w)
    }

    /// A slice: its length, then its elements.
    pub fn slice<T: Word>(self, words: &[T]) -> Record {
        self.w(words.len()).all(words.iter().copied())
    }

    /// What follows must come out.
    pub fn is(mut self) -> Record {
        self.line.push_str(" =");
        self.answering = true;
        self
    }

    /// An answer with document 01's number first; a refused call (or no solution) has no values.
    pub fn answer<T: Word>(self, answer: Result<impl IntoIterator<Item = T>, u32>) -> Record {
        match answer {
            Ok(values) => self.is().w(0u8).all(values),
            Err(number) => self.is().w(number),
        }
    }

    pub fn end(self, out: &mut List) {
        assert!(self.answering);
        out.records += 1;
        out.put(&self.line);
    }
}

/// A list under way, written to any place.
pub struct List<'a> {
    pub records: usize,
    to: &'a mut dyn std::io::Write,
}

impl<'a> List<'a> {
    pub fn new(to: &'a mut dyn std::io::Write) -> List<'a> {
        List { records: 0, to }
    }

    /// One line.
    pub fn put(&mut self, line: &str) {
        // A reader that has seen enough closes the pipe.
        if writeln!(self.to, "{line}").is_err() {
            std::process::exit(0);
        }
    }
}
