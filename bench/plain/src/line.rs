//! The fields of a line, which is one object of JSON.
use std::borrow::Cow;

pub enum Field<'a> {
    Text(Cow<'a, str>),
    Whole(u64),
    Negative(i64),
    Truth(bool),
    Other,
}

// The place of each field that a line can have.
pub const DO: usize = 0;
pub const NAME: usize = 1;
pub const DIR: usize = 2;
pub const KIND: usize = 3;
pub const SIZE: usize = 4;
pub const TIME: usize = 5;
pub const NODE: usize = 6;
pub const CLOBBER: usize = 7;
pub const ATTR: usize = 8;
pub const TYPE: usize = 9;
pub const VALUE: usize = 10;
pub const QUERY: usize = 11;
pub const PORT: usize = 12;
pub const BACKLOG: usize = 13;
pub const MOVED: usize = 14;
pub const SLOT: usize = 15;
const COUNT: usize = 16;

pub type Fields<'a> = [Option<Field<'a>>; COUNT];

fn key_of(key: &str) -> Option<usize> {
    Some(match key {
        "do" => DO,
        "name" => NAME,
        "dir" => DIR,
        "kind" => KIND,
        "size" => SIZE,
        "time" => TIME,
        "node" => NODE,
        "clobber" => CLOBBER,
        "attr" => ATTR,
        "type" => TYPE,
        "value" => VALUE,
        "query" => QUERY,
        "port" => PORT,
        "backlog" => BACKLOG,
        "moved" => MOVED,
        "slot" => SLOT,
        _ => return None,
    })
}

struct Reader<'a> {
    text: &'a str,
    at: usize,
}

/// The fields of a line: refused with 32 where it is no JSON, and with 33 where it is no object.
pub fn read(text: &str) -> Result<Fields<'_>, u32> {
    let mut reader = Reader { text, at: 0 };
    let mut fields = [const { None }; COUNT];
    let is_object = reader.next() == Some(b'{');
    let read = if is_object {
        reader.members(&mut fields)
    } else {
        reader.value(1).map(drop)
    };
    if read.is_none() || reader.next().is_some() {
        return Err(32);
    }
    if is_object {
        Ok(fields)
    } else {
        Err(33)
    }
}

impl<'a> Reader<'a> {
    fn byte(&self) -> Option<u8> {
        self.text.as_bytes().get(self.at).copied()
    }

    // The next byte that is no white space.
    fn next(&mut self) -> Option<u8> {
        while let Some(b' ' | b'\t' | b'\n' | b'\r') = self.byte() {
            self.at += 1;
        }
        self.byte()
    }

    fn members(&mut self, fields: &mut Fields<'a>) -> Option<()> {
        self.at += 1;
        if self.next()? == b'}' {
            self.at += 1;
            return Some(());
        }
        loop {
            if self.next()? != b'"' {
                return None;
            }
            let key = key_of(&self.string()?);
            if self.next()? != b':' {
                return None;
            }
            self.at += 1;
            let value = self.value(2)?;
            if let Some(key) = key {
                fields[key] = Some(value);
            }
            match self.next()? {
                b',' => self.at += 1,
                b'}' => {
                    self.at += 1;
                    return Some(());
                }
                _ => return None,
            }
        }
    }

    fn value(&mut self, depth: usize) -> Option<Field<'a>> {
        match self.next()? {
            b'"' => Some(Field::Text(self.string()?)),
            b'-' | b'0'..=b'9' => self.number(),
            b't' => self.word("true", Field::Truth(true)),
            b'f' => self.word("false", Field::Truth(false)),
            b'n' => self.word("null", Field::Other),
            open @ (b'{' | b'[') if depth <= 127 => {
                self.at += 1;
                self.nested(open, depth)?;
                Some(Field::Other)
            }
            _ => None,
        }
    }

    fn nested(&mut self, open: u8, depth: usize) -> Option<()> {
        let close = open + 2;
        if self.next()? == close {
            self.at += 1;
            return Some(());
        }
        loop {
            if open == b'{' {
                if self.next()? != b'"' {
                    return None;
                }
                self.string()?;
                if self.next()? != b':' {
                    return None;
                }
                self.at += 1;
            }
            self.value(depth + 1)?;
            let after = self.next()?;
            self.at += 1;
            if after == close {
                return Some(());
            }
            if after != b',' {
                return None;
            }
        }
    }

    fn word(&mut self, word: &str, field: Field<'a>) -> Option<Field<'a>> {
        if !self.text.as_bytes()[self.at..].starts_with(word.as_bytes()) {
            return None;
        }
        self.at += word.len();
        Some(field)
    }

    fn number(&mut self) -> Option<Field<'a>> {
        let from = self.at;
        let bytes = &self.text.as_bytes()[from..];
        let is_negative = bytes[0] == b'-';
        let digits = &bytes[usize::from(is_negative)..];
        let (mut number, mut length, mut fits) = (0_u64, 0, true);
        while let Some(digit @ b'0'..=b'9') = digits.get(length) {
            let next = number
                .checked_mul(10)
                .and_then(|it| it.checked_add(u64::from(digit - b'0')));
            fits &= next.is_some();
            number = next.unwrap_or(0);
            length += 1;
        }
        if length == 0 || digits[0] == b'0' && length > 1 {
            return None;
        }
        self.at += usize::from(is_negative) + length;
        let is_whole = !matches!(digits.get(length), Some(b'.' | b'e' | b'E'));
        if is_whole && fits {
            return Some(match (is_negative, number) {
                (false, _) => Field::Whole(number),
                (true, 0) => Field::Other,
                (true, _) => match 0_i64.checked_sub_unsigned(number) {
                    Some(number) => Field::Negative(number),
                    None => Field::Other,
                },
            });
        }
        self.rest_of_number(from)
    }

    #[cold]
    fn rest_of_number(&mut self, from: usize) -> Option<Field<'a>> {
        if self.byte() == Some(b'.') {
            self.at += 1;
            self.digits()?;
        }
        if let Some(b'e' | b'E') = self.byte() {
            self.at += 1;
            if let Some(b'+' | b'-') = self.byte() {
                self.at += 1;
            }
            self.digits()?;
        }
        let number: f64 = self.text[from..self.at].parse().ok()?;
        number.is_finite().then_some(Field::Other)
    }

    fn digits(&mut self) -> Option<()> {
        let from = self.at;
        while let Some(b'0'..=b'9') = self.byte() {
            self.at += 1;
        }
        (self.at > from).then_some(())
    }

    fn string(&mut self) -> Option<Cow<'a, str>> {
        self.at += 1;
        let from = self.at;
        let rest = &self.text.as_bytes()[from..];
        let length = rest
            .iter()
            .position(|it| *it == b'"' || *it == b'\\' || *it < b' ')?;
        self.at += length;
        let plain = &self.text[from..self.at];
        match rest[length] {
            b'"' => {
                self.at += 1;
                Some(Cow::Borrowed(plain))
            }
            b'\\' => self.escaped(plain.to_string()).map(Cow::Owned),
            _ => None,
        }
    }

    #[cold]
    fn escaped(&mut self, mut text: String) -> Option<String> {
        loop {
            let byte = self.byte()?;
            match byte {
                b'"' => {
                    self.at += 1;
                    return Some(text);
                }
                b'\\' => {
                    self.at += 1;
                    let escape = self.byte()?;
                    self.at += 1;
                    text.push(match escape {
                        b'"' | b'\\' | b'/' => escape as char,
                        b'b' => '\u{8}',
                        b'f' => '\u{c}',
                        b'n' => '\n',
                        b'r' => '\r',
                        b't' => '\t',
                        b'u' => self.scalar()?,
                        _ => return None,
                    });
                }
                0..=31 => return None,
                _ => {
                    let one = self.text[self.at..].chars().next()?;
                    text.push(one);
                    self.at += one.len_utf8();
                }
            }
        }
    }

    fn scalar(&mut self) -> Option<char> {
        let first = self.four_digits()?;
        if !(0xd800..0xdc00).contains(&first) {
            return char::from_u32(first);
        }
        if !self.text.as_bytes()[self.at..].starts_with(b"\\u") {
            return None;
        }
        self.at += 2;
        let second = self.four_digits()?;
        if !(0xdc00..0xe000).contains(&second) {
            return None;
        }
        char::from_u32(0x10000 + ((first - 0xd800) << 10) + (second - 0xdc00))
    }

    fn four_digits(&mut self) -> Option<u32> {
        let mut number = 0;
        for _ in 0..4 {
            number = number << 4 | (self.byte()? as char).to_digit(16)?;
            self.at += 1;
        }
        Some(number)
    }
}
