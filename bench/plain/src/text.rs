//! Names, and how replies are written.
use std::borrow::Borrow;
use std::hash::{Hash, Hasher};
use std::sync::Arc;

/// The bytes of a name; short ones stand in place.
#[derive(Clone)]
pub enum Name {
    Short(u8, [u8; 22]),
    Long(Arc<[u8]>),
}

impl Name {
    pub fn new(bytes: &[u8]) -> Name {
        if bytes.len() <= 22 {
            let mut short = [0; 22];
            short[..bytes.len()].copy_from_slice(bytes);
            Name::Short(bytes.len() as u8, short)
        } else {
            Name::Long(bytes.into())
        }
    }

    pub fn bytes(&self) -> &[u8] {
        match self {
            Name::Short(length, bytes) => &bytes[..*length as usize],
            Name::Long(bytes) => bytes,
        }
    }
}

impl PartialEq for Name {
    fn eq(&self, other: &Name) -> bool {
        self.bytes() == other.bytes()
    }
}

impl Eq for Name {}

impl Hash for Name {
    fn hash<H: Hasher>(&self, state: &mut H) {
        self.bytes().hash(state);
    }
}

impl Borrow<[u8]> for Name {
    fn borrow(&self) -> &[u8] {
        self.bytes()
    }
}

/// A hash of words by multiplication, without a seed.
#[derive(Default)]
pub struct Fast(u64);

impl Fast {
    fn add(&mut self, word: u64) {
        self.0 = (self.0.rotate_left(5) ^ word).wrapping_mul(0x517c_c1b7_2722_0a95);
    }
}

impl Hasher for Fast {
    fn finish(&self) -> u64 {
        self.0.rotate_left(26)
    }

    fn write(&mut self, bytes: &[u8]) {
        let (words, rest) = bytes.as_chunks::<8>();
        for word in words {
            self.add(u64::from_le_bytes(*word));
        }
        let mut last = 0;
        for byte in rest {
            last = last << 8 | u64::from(*byte);
        }
        self.add(last);
    }

    fn write_u64(&mut self, word: u64) {
        self.add(word);
    }

    fn write_usize(&mut self, word: usize) {
        self.add(word as u64);
    }
}

const DIGITS: [[u8; 2]; 100] = {
    let mut digits = [[b'0'; 2]; 100];
    let mut number = 0;
    while number < 100 {
        digits[number] = [b'0' + number as u8 / 10, b'0' + number as u8 % 10];
        number += 1;
    }
    digits
};

/// The digits of a number, two at a time.
pub fn put_number(out: &mut Vec<u8>, mut number: u64) {
    let mut digits = [0; 20];
    let mut at = 20;
    while number >= 100 {
        at -= 2;
        digits[at..at + 2].copy_from_slice(&DIGITS[(number % 100) as usize]);
        number /= 100;
    }
    if number >= 10 {
        at -= 2;
        digits[at..at + 2].copy_from_slice(&DIGITS[number as usize]);
    } else {
        at -= 1;
        digits[at] = b'0' + number as u8;
    }
    out.extend_from_slice(&digits[at..]);
}

pub fn put_signed(out: &mut Vec<u8>, number: i128) {
    if number < 0 {
        out.push(b'-');
    }
    put_number(out, number.unsigned_abs() as u64);
}

/// A text of JSON, as `serde_json` writes it.
pub fn put_text(out: &mut Vec<u8>, text: &[u8]) {
    out.push(b'"');
    if text
        .iter()
        .all(|byte| *byte >= b' ' && *byte != b'"' && *byte != b'\\')
    {
        out.extend_from_slice(text);
    } else {
        text.iter().for_each(|byte| put_byte(out, *byte));
    }
    out.push(b'"');
}

fn put_byte(out: &mut Vec<u8>, byte: u8) {
    let short = match byte {
        b'"' | b'\\' => byte,
        8 => b'b',
        9 => b't',
        10 => b'n',
        12 => b'f',
        13 => b'r',
        0..=31 => {
            out.extend_from_slice(format!("\\u{byte:04x}").as_bytes());
            return;
        }
        _ => {
            out.push(byte);
            return;
        }
    };
    out.extend_from_slice(&[b'\\', short]);
}
