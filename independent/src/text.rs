//! Reading and writing of lines: words with one space between, byte 10 at the end.

const MOST_DIGITS: usize = 9;

/// Where text goes: a buffer that grows, or one that is lent.
pub trait Sink {
    fn put(&mut self, bytes: &[u8]);

    fn number(&mut self, value: i64) {
        let mut digits = [0; 20];
        let mut first = digits.len();
        let mut rest = value.unsigned_abs();
        loop {
            first -= 1;
            digits[first] = b'0' + (rest % 10) as u8;
            rest /= 10;
            if rest == 0 {
                break;
            }
        }
        if value < 0 {
            first -= 1;
            digits[first] = b'-';
        }
        self.put(&digits[first..]);
    }

    /// The numbers, each after a space.
    fn numbers(&mut self, values: &[i64]) {
        for value in values {
            self.put(b" ");
            self.number(*value);
        }
    }

    /// A whole line of a word and numbers.
    fn line(&mut self, word: &str, values: &[i64]) {
        self.put(word.as_bytes());
        self.numbers(values);
        self.put(b"\n");
    }
}

impl Sink for Vec<u8> {
    fn put(&mut self, bytes: &[u8]) {
        self.extend_from_slice(bytes);
    }
}

/// A lent buffer and how much of it is written; it must have room for all that is put.
pub struct Lent<'a> {
    buffer: &'a mut [u8],
    pub used: usize,
}

impl<'a> Lent<'a> {
    pub fn new(buffer: &'a mut [u8]) -> Self {
        Lent { buffer, used: 0 }
    }
}

impl Sink for Lent<'_> {
    fn put(&mut self, bytes: &[u8]) {
        let end = self.used + bytes.len();
        self.buffer[self.used..end].copy_from_slice(bytes);
        self.used = end;
    }
}

/// A reader of lines. Each call answers nothing where the bytes are not laid out as it says; the
/// caller then gives up, so how far the reader went does not matter.
pub struct Reader<'a> {
    bytes: &'a [u8],
    at: usize,
}

impl<'a> Reader<'a> {
    pub fn new(bytes: &'a [u8]) -> Self {
        Reader { bytes, at: 0 }
    }

    pub fn is_at_end(&self) -> bool {
        self.at == self.bytes.len()
    }

    fn peek(&self) -> Option<u8> {
        self.bytes.get(self.at).copied()
    }

    /// Takes `bytes` where they come next.
    pub fn takes(&mut self, bytes: &[u8]) -> bool {
        let next = self.bytes[self.at..].starts_with(bytes);
        if next {
            self.at += bytes.len();
        }
        next
    }

    /// A number: 0 alone, or a digit 1 to 9 and up to eight more digits.
    fn digits(&mut self) -> Option<i64> {
        let start = self.at;
        let mut value = 0;
        while let Some(digit @ b'0'..=b'9') = self.peek() {
            if self.at - start == MOST_DIGITS {
                return None;
            }
            value = 10 * value + i64::from(digit - b'0');
            self.at += 1;
        }
        let has_leading_zero = self.at - start > 1 && self.bytes[start] == b'0';
        (self.at > start && !has_leading_zero).then_some(value)
    }

    /// A number and the byte after it.
    pub fn number(&mut self, end: u8) -> Option<i64> {
        let value = self.digits()?;
        self.takes(&[end]).then_some(value)
    }

    /// A number of a list, with a space after it, or the line's end after the last.
    pub fn listed_number(&mut self) -> Option<(i64, bool)> {
        let value = self.digits()?;
        if self.takes(b" ") {
            Some((value, false))
        } else {
            self.takes(b"\n").then_some((value, true))
        }
    }

    /// A load: a number, or a minus sign before a number above 0; and the byte after it.
    pub fn load(&mut self, end: u8) -> Option<i64> {
        if !self.takes(b"-") {
            return self.number(end);
        }
        self.number(end)
            .filter(|value| *value > 0)
            .map(|value| -value)
    }

    /// A period and a space; a lone minus sign is the unknown one.
    pub fn period(&mut self) -> Option<Option<i64>> {
        if self.takes(b"- ") {
            return Some(None);
        }
        self.number(b' ').map(Some)
    }

    /// One of the marks and a space.
    pub fn mark<T: Copy>(&mut self, marks: &[(&str, T)]) -> Option<T> {
        let rest = &self.bytes[self.at..];
        let length = rest.iter().take(4).position(|byte| *byte == b' ')?;
        let (_, value) = marks
            .iter()
            .find(|(mark, _)| mark.as_bytes() == &rest[..length])?;
        self.at += length + 1;
        Some(*value)
    }
}
