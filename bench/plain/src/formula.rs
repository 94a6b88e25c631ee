//! Formulas: how they are read, and whether an entry meets one.
use crate::volume::{AttrNames, Record, Value};

pub enum Query {
    Compare(Attr, Test),
    Not(Box<Query>),
    And(Vec<Query>),
    Or(Vec<Query>),
}

#[derive(Clone, Copy)]
pub enum Attr {
    Name,
    Size,
    Time,
    Named(u32),
}

pub enum Test {
    Fits(Pattern),
    Differs(Pattern),
    Order(Order, Vec<u8>, Option<i128>),
}

#[derive(Clone, Copy)]
pub enum Order {
    Less,
    LessOrEqual,
    Greater,
    GreaterOrEqual,
}

pub struct Pattern {
    elements: Vec<Element>,
    // The texts between the stars, where all other characters are plain.
    parts: Option<Vec<Vec<u8>>>,
    number: Option<i128>,
}

enum Element {
    Star,
    Any,
    One(char),
    Set(bool, Vec<(char, char)>),
}

impl Query {
    pub fn holds(&self, record: &Record) -> bool {
        match self {
            Query::Compare(attr, test) => match attr {
                Attr::Name => test.holds_of_text(record.name.bytes()),
                Attr::Size => test.holds_of_number(i128::from(record.size)),
                Attr::Time => test.holds_of_number(i128::from(record.time)),
                Attr::Named(attr) => match record.attr(*attr) {
                    None => false,
                    Some(Value::Text(text)) => test.holds_of_text(text),
                    Some(Value::Number(_, number)) => test.holds_of_number(*number),
                },
            },
            Query::Not(query) => !query.holds(record),
            Query::And(parts) => parts.iter().all(|part| part.holds(record)),
            Query::Or(parts) => parts.iter().any(|part| part.holds(record)),
        }
    }

    pub fn each_attr(&self, visit: &mut impl FnMut(Attr)) {
        match self {
            Query::Compare(attr, _) => visit(*attr),
            Query::Not(query) => query.each_attr(visit),
            Query::And(parts) | Query::Or(parts) => {
                parts.iter().for_each(|part| part.each_attr(visit));
            }
        }
    }

    fn depth(&self) -> usize {
        match self {
            Query::Compare(..) => 1,
            Query::Not(query) => 1 + query.depth(),
            Query::And(parts) | Query::Or(parts) => {
                1 + parts.iter().map(Query::depth).max().unwrap_or(0)
            }
        }
    }
}

impl Order {
    fn holds<T: Ord + ?Sized>(self, left: &T, right: &T) -> bool {
        match self {
            Order::Less => left < right,
            Order::LessOrEqual => left <= right,
            Order::Greater => left > right,
            Order::GreaterOrEqual => left >= right,
        }
    }

    fn text(self) -> &'static str {
        match self {
            Order::Less => "<",
            Order::LessOrEqual => "<=",
            Order::Greater => ">",
            Order::GreaterOrEqual => ">=",
        }
    }
}

impl Test {
    fn holds_of_text(&self, text: &[u8]) -> bool {
        match self {
            Test::Fits(pattern) => pattern.fits(text),
            Test::Differs(pattern) => !pattern.fits(text),
            Test::Order(order, literal, _) => order.holds(text, &literal[..]),
        }
    }

    fn holds_of_number(&self, number: i128) -> bool {
        match self {
            Test::Fits(pattern) => pattern.number == Some(number),
            Test::Differs(pattern) => pattern.number.is_some_and(|it| it != number),
            Test::Order(order, _, literal) => literal.is_some_and(|it| order.holds(&number, &it)),
        }
    }
}

fn number_of(text: &[u8]) -> Option<i128> {
    let (is_negative, digits) = match text {
        [b'-', digits @ ..] => (true, digits),
        _ => (false, text),
    };
    if digits.is_empty() || digits.len() > 20 || !digits.iter().all(u8::is_ascii_digit) {
        return None;
    }
    let number = digits
        .iter()
        .fold(0, |sum, digit| sum * 10 + i128::from(digit - b'0'));
    Some(if is_negative { -number } else { number })
}

impl Pattern {
    /// Reads a pattern, or gives the place of its fault.
    fn read(raw: &str) -> Result<Pattern, usize> {
        let mut elements = Vec::new();
        let mut rest = raw.char_indices().peekable();
        while let Some((place, first)) = rest.next() {
            elements.push(match first {
                '*' => Element::Star,
                '?' => Element::Any,
                '\\' => Element::One(rest.next().ok_or(place)?.1),
                '[' => {
                    let is_not = rest.next_if(|it| it.1 == '^').is_some();
                    let mut items = Vec::new();
                    loop {
                        let low = match rest.next().ok_or(place)?.1 {
                            ']' => break,
                            '\\' => rest.next().ok_or(place)?.1,
                            low => low,
                        };
                        let mut ahead = rest.clone();
                        let is_range = ahead.next().is_some_and(|it| it.1 == '-')
                            && ahead.next().is_some_and(|it| it.1 != ']');
                        if !is_range {
                            items.push((low, low));
                            continue;
                        }
                        rest.next();
                        let high = match rest.next().ok_or(place)?.1 {
                            '\\' => rest.next().ok_or(place)?.1,
                            high => high,
                        };
                        if high < low {
                            return Err(place);
                        }
                        items.push((low, high));
                    }
                    if items.is_empty() {
                        return Err(place);
                    }
                    Element::Set(is_not, items)
                }
                plain => Element::One(plain),
            });
        }
        let mut parts = Some(vec![String::new()]);
        for element in &elements {
            match (element, &mut parts) {
                (Element::One(plain), Some(parts)) => parts.last_mut().unwrap().push(*plain),
                (Element::Star, Some(parts)) => parts.push(String::new()),
                _ => parts = None,
            }
        }
        let parts: Option<Vec<Vec<u8>>> =
            parts.map(|parts| parts.into_iter().map(String::into_bytes).collect());
        let number = match parts.as_deref() {
            Some([plain]) => number_of(plain),
            _ => None,
        };
        Ok(Pattern {
            elements,
            parts,
            number,
        })
    }

    fn fits(&self, text: &[u8]) -> bool {
        match self.parts.as_deref() {
            None => fits(&self.elements, text),
            Some([plain]) => plain == text,
            // Most names differ in the first byte already.
            Some([first, ..]) if !first.is_empty() && text.first() != first.first() => false,
            Some([first, middle @ .., last]) => {
                let Some(rest) = text.strip_prefix(&first[..]) else {
                    return false;
                };
                let Some(mut rest) = rest.strip_suffix(&last[..]) else {
                    return false;
                };
                for part in middle {
                    match place_in(rest, part) {
                        None => return false,
                        Some(place) => rest = &rest[place + part.len()..],
                    }
                }
                true
            }
            Some([]) => false,
        }
    }
}

// Where a part first stands in a text.
fn place_in(text: &[u8], part: &[u8]) -> Option<usize> {
    let Some(first) = part.first() else {
        return Some(0);
    };
    let last = text.len().checked_sub(part.len())?;
    (0..=last).find(|at| text[*at] == *first && text[*at..].starts_with(part))
}

// Whether the elements fit: after a star that fits nothing more, one more character is tried.
fn fits(elements: &[Element], text: &[u8]) -> bool {
    let (mut element, mut at) = (0, 0);
    let mut back = None;
    loop {
        let step = match elements.get(element) {
            Some(Element::Star) => {
                element += 1;
                if element == elements.len() {
                    return true;
                }
                back = Some((element, at));
                continue;
            }
            None if at == text.len() => return true,
            None => 0,
            Some(it) => it.step(&text[at..]),
        };
        if step > 0 {
            at += step;
            element += 1;
            continue;
        }
        let Some((again, from)) = back else {
            return false;
        };
        if from == text.len() {
            return false;
        }
        let next = from + width(text[from]);
        back = Some((again, next));
        (element, at) = (again, next);
    }
}

fn width(first: u8) -> usize {
    match first {
        0..=0x7f => 1,
        0x80..=0xdf => 2,
        0xe0..=0xef => 3,
        _ => 4,
    }
}

impl Element {
    // The bytes of the first character, if it fits this element; else 0.
    fn step(&self, text: &[u8]) -> usize {
        let Some(first) = text.first() else { return 0 };
        let width = width(*first);
        match self {
            Element::Star => 0,
            Element::Any => width,
            Element::One(one) if one.is_ascii() => {
                if *first == *one as u8 {
                    1
                } else {
                    0
                }
            }
            Element::One(_) | Element::Set(..) => {
                let first = std::str::from_utf8(&text[..width])
                    .unwrap_or("")
                    .chars()
                    .next();
                let Some(first) = first else { return 0 };
                let is_fit = match self {
                    Element::Set(is_not, items) => {
                        items.iter().any(|it| it.0 <= first && first <= it.1) != *is_not
                    }
                    Element::One(one) => *one == first,
                    _ => false,
                };
                if is_fit {
                    width
                } else {
                    0
                }
            }
        }
    }
}

#[derive(Clone, Copy, PartialEq)]
enum Token {
    Equal,
    NotEqual,
    Not,
    Ordered(u8),
    And,
    Or,
    Open,
    Close,
    // A word or a quoted text, with where its raw text begins and ends.
    Word(usize, usize),
    // A word or a quoted text that the formula ends in.
    Unended,
    Bad,
    End,
}

struct Reader<'a> {
    text: &'a str,
    names: &'a mut AttrNames,
    token: Token,
    // Where the token begins, and where the next one may begin.
    place: usize,
    next: usize,
    nested: usize,
    comparisons: usize,
    // The bytes of the canonical text so far.
    length: usize,
}

/// Reads a formula, or gives the place of its leftmost fault.
pub fn read(text: &str, names: &mut AttrNames) -> Result<Query, usize> {
    if text.len() > 4096 {
        return Err(4096);
    }
    let mut reader = Reader {
        text,
        names,
        token: Token::End,
        place: 0,
        next: 0,
        nested: 0,
        comparisons: 0,
        length: 0,
    };
    reader.step();
    let query = reader.or()?;
    if reader.token != Token::End {
        return Err(reader.place);
    }
    if query.depth() > 64 || reader.length > 4096 {
        return Err(text.len());
    }
    Ok(query)
}

impl Reader<'_> {
    fn step(&mut self) {
        let bytes = self.text.as_bytes();
        let mut at = self.next;
        while matches!(bytes.get(at), Some(b' ' | b'\t' | b'\n' | b'\r')) {
            at += 1;
        }
        self.place = at;
        let is_before = |byte| bytes.get(at + 1) == Some(&byte);
        let (token, length) = match bytes.get(at) {
            None => (Token::End, 0),
            Some(b'=') => (Token::Equal, if is_before(b'=') { 2 } else { 1 }),
            Some(b'!') if is_before(b'=') => (Token::NotEqual, 2),
            Some(b'!') => (Token::Not, 1),
            Some(b'<') if is_before(b'=') => (Token::Ordered(1), 2),
            Some(b'<') => (Token::Ordered(0), 1),
            Some(b'>') if is_before(b'=') => (Token::Ordered(3), 2),
            Some(b'>') => (Token::Ordered(2), 1),
            Some(b'&') if is_before(b'&') => (Token::And, 2),
            Some(b'|') if is_before(b'|') => (Token::Or, 2),
            Some(b'&' | b'|') => (Token::Bad, 1),
            Some(b'(') => (Token::Open, 1),
            Some(b')') => (Token::Close, 1),
            Some(mark @ (b'"' | b'\'')) => {
                let mut end = at + 1;
                loop {
                    match bytes.get(end) {
                        None => break (Token::Unended, bytes.len() - at),
                        Some(b'\\') => end += 2,
                        Some(byte) if byte == mark => {
                            break (Token::Word(at + 1, end), end + 1 - at)
                        }
                        Some(_) => end += 1,
                    }
                }
            }
            Some(_) => {
                let mut end = at;
                loop {
                    match bytes.get(end) {
                        Some(b'\\') if end + 1 == bytes.len() => {
                            break (Token::Unended, end + 1 - at)
                        }
                        Some(b'\\') => end += 1 + width(bytes[end + 1]),
                        Some(byte) if !ENDS_A_WORD.contains(byte) => end += 1,
                        _ => break (Token::Word(at, end), end - at),
                    }
                }
            }
        };
        self.token = token;
        self.next = at + length;
    }

    fn or(&mut self) -> Result<Query, usize> {
        let first = self.and()?;
        if self.token != Token::Or {
            return Ok(first);
        }
        let mut parts = vec![first];
        while self.token == Token::Or {
            self.step();
            parts.push(self.and()?);
        }
        self.length += 2 * parts.len();
        Ok(Query::Or(parts))
    }

    fn and(&mut self) -> Result<Query, usize> {
        let first = self.not()?;
        if self.token != Token::And {
            return Ok(first);
        }
        let mut parts = vec![first];
        while self.token == Token::And {
            self.step();
            parts.push(self.not()?);
        }
        self.length += 2 * parts.len();
        Ok(Query::And(parts))
    }

    fn nest(&mut self) -> Result<(), usize> {
        self.nested += 1;
        if self.nested > 64 {
            return Err(self.place);
        }
        self.step();
        Ok(())
    }

    // Where a fault stands if the token isn't the one that is due: a word is due, or none is.
    fn fault(&self, is_word_due: bool) -> usize {
        match self.token {
            Token::Unended if is_word_due => self.text.len(),
            _ => self.place,
        }
    }

    fn not(&mut self) -> Result<Query, usize> {
        match self.token {
            Token::Not => {
                self.nest()?;
                let query = self.not()?;
                self.nested -= 1;
                self.length += 1;
                Ok(Query::Not(Box::new(query)))
            }
            Token::Open => {
                self.nest()?;
                let query = self.or()?;
                if self.token != Token::Close {
                    return Err(self.place);
                }
                self.nested -= 1;
                self.step();
                Ok(query)
            }
            Token::Word(from, to) => self.comparison(from, to),
            _ => Err(self.fault(true)),
        }
    }

    fn comparison(&mut self, from: usize, to: usize) -> Result<Query, usize> {
        let attr = plain_text(&self.text[from..to]);
        self.comparisons += 1;
        if attr.is_empty() || attr.len() > 255 || attr.contains('\0') || self.comparisons > 256 {
            return Err(self.place);
        }
        self.step();
        let operator = self.token;
        if !matches!(operator, Token::Equal | Token::NotEqual | Token::Ordered(_)) {
            return Err(self.place);
        }
        self.step();
        let Token::Word(from, to) = self.token else {
            return Err(self.fault(true));
        };
        let raw = &self.text[from..to];
        let (test, length) = match operator {
            Token::Ordered(which) => {
                let order = [
                    Order::Less,
                    Order::LessOrEqual,
                    Order::Greater,
                    Order::GreaterOrEqual,
                ][which as usize];
                let literal = plain_text(raw);
                let marks = literal
                    .bytes()
                    .filter(|it| matches!(it, b'"' | b'\\'))
                    .count();
                let length = order.text().len() + literal.len() + marks;
                let number = number_of(literal.as_bytes());
                (Test::Order(order, literal.into_bytes(), number), length)
            }
            _ => {
                let pattern = Pattern::read(raw).map_err(|place| from + place)?;
                let length = 2 + pattern.elements.iter().map(Element::length).sum::<usize>();
                let is_equal = operator == Token::Equal;
                (
                    if is_equal {
                        Test::Fits(pattern)
                    } else {
                        Test::Differs(pattern)
                    },
                    length,
                )
            }
        };
        self.step();
        let is_bare = |it: u8| it.is_ascii_alphanumeric() || b"_:.-".contains(&it);
        let quoted = match attr.bytes().all(is_bare) {
            true => 0,
            false => 2 + attr.bytes().filter(|it| matches!(it, b'"' | b'\\')).count(),
        };
        self.length += 4 + attr.len() + quoted + length;
        let attr = match &attr[..] {
            "name" => Attr::Name,
            "size" => Attr::Size,
            "last_modified" => Attr::Time,
            _ => Attr::Named(self.names.number(attr.as_bytes())),
        };
        Ok(Query::Compare(attr, test))
    }
}

const ENDS_A_WORD: &[u8] = b" \t\n\r()!&|=<>\"'";

fn plain_text(raw: &str) -> String {
    let mut rest = raw.chars();
    let mut plain = String::new();
    while let Some(first) = rest.next() {
        plain.push(if first == '\\' {
            rest.next().unwrap_or(first)
        } else {
            first
        });
    }
    plain
}

impl Element {
    // The bytes of its canonical text.
    fn length(&self) -> usize {
        match self {
            Element::Star | Element::Any => 1,
            Element::One(one) => one.len_utf8() + usize::from("*?[\\\"".contains(*one)),
            Element::Set(is_not, items) => {
                let one = |it: char| it.len_utf8() + usize::from("][\\^-\"".contains(it));
                let item = |it: &(char, char)| match it.0 == it.1 {
                    true => one(it.0),
                    false => one(it.0) + 1 + one(it.1),
                };
                2 + usize::from(*is_not) + items.iter().map(item).sum::<usize>()
            }
        }
    }
}
