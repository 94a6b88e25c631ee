//! The volume with its 64 slots, and what each line does to them.
use crate::formula::{self, Attr, Query};
use crate::line::{self, Field, Fields};
use crate::query::{put_entries, Act, LiveQuery, Message};
use crate::text::{put_number, put_signed, put_text, Name};
use crate::volume::{Change, Refusal, Value, Volume, ROOT};

pub const SLOTS: usize = 64;

pub struct Desk {
    volume: Volume,
    slots: [Option<Box<LiveQuery>>; SLOTS],
    // Slots with a query that is live; those whose query concerns what a write alters; those that
    // an attribute of a number concerns; those of which the port may have room.
    live: u64,
    written: u64,
    by_attr: Vec<u64>,
    to_fill: u64,
    asked: u64,
}

fn each_bit(mut bits: u64) -> impl Iterator<Item = usize> {
    std::iter::from_fn(move || {
        let index = bits.trailing_zeros() as usize;
        bits &= bits.wrapping_sub(1);
        (index < SLOTS).then_some(index)
    })
}

fn refusal_name(code: Refusal) -> &'static str {
    match code {
        1 => "BadName",
        2 => "NoNode",
        3 => "NotFolder",
        4 => "NoEntry",
        5 => "Exists",
        6 => "WouldLoop",
        7 => "NotEmpty",
        8 => "KindClash",
        9 => "IsFolder",
        10 => "NoAttr",
        11 => "Reserved",
        12 => "TooLong",
        21 => "BadPort",
        22 => "BadBacklog",
        23 => "NoSlot",
        25 => "NotOpen",
        26 => "StillOpen",
        30 => "LongLine",
        31 => "NotUtf8",
        32 => "NotJson",
        _ => "BadLine",
    }
}

fn put_refusal(out: &mut Vec<u8>, code: Refusal) {
    out.extend_from_slice(b"{\"code\":");
    put_number(out, u64::from(code));
    out.extend_from_slice(b",\"error\":");
    put_text(out, refusal_name(code).as_bytes());
    out.extend_from_slice(b"}\n");
}

enum Fault {
    Code(Refusal),
    Formula(usize),
}

impl From<Refusal> for Fault {
    fn from(code: Refusal) -> Fault {
        Fault::Code(code)
    }
}

fn put_fault(out: &mut Vec<u8>, fault: Fault) {
    match fault {
        Fault::Code(code) => put_refusal(out, code),
        Fault::Formula(place) => {
            out.extend_from_slice(b"{\"code\":20,\"error\":\"BadQuery\",\"place\":");
            put_number(out, place as u64);
            out.extend_from_slice(b"}\n");
        }
    }
}

fn whole(fields: &Fields, key: usize) -> Result<u64, Refusal> {
    match fields[key] {
        Some(Field::Whole(number)) => Ok(number),
        _ => Err(33),
    }
}

fn whole_or(fields: &Fields, key: usize, default: u64) -> Result<u64, Refusal> {
    match fields[key] {
        None => Ok(default),
        _ => whole(fields, key),
    }
}

fn signed(field: &Option<Field>) -> Result<i64, Refusal> {
    match field {
        Some(Field::Whole(number)) => i64::try_from(*number).map_err(|_| 33),
        Some(Field::Negative(number)) => Ok(*number),
        _ => Err(33),
    }
}

fn time(fields: &Fields) -> Result<i64, Refusal> {
    match &fields[line::TIME] {
        None => Ok(0),
        field => signed(field),
    }
}

fn text<'a>(fields: &'a Fields, key: usize) -> Result<&'a str, Refusal> {
    match &fields[key] {
        Some(Field::Text(text)) => Ok(text),
        _ => Err(33),
    }
}

fn truth(fields: &Fields, key: usize) -> Result<bool, Refusal> {
    match fields[key] {
        None => Ok(false),
        Some(Field::Truth(truth)) => Ok(truth),
        _ => Err(33),
    }
}

fn entry_name(name: &str) -> Result<&[u8], Refusal> {
    let bytes = name.as_bytes();
    let is_long = bytes.is_empty() || bytes.len() > 255;
    if is_long || bytes.iter().any(|it| matches!(it, b'/' | 0)) || name == "." || name == ".." {
        return Err(1);
    }
    Ok(bytes)
}

fn attr_name(name: &str) -> Result<&[u8], Refusal> {
    if name.is_empty() || name.len() > 255 || name.contains('\0') {
        return Err(1);
    }
    Ok(name.as_bytes())
}

fn value_of(fields: &Fields) -> Result<Value, Refusal> {
    let field = &fields[line::VALUE];
    let whole = || whole(fields, line::VALUE);
    Ok(match text(fields, line::TYPE)? {
        "CSTR" => Value::Text(text(fields, line::VALUE)?.as_bytes().into()),
        "LONG" => {
            let number = i32::try_from(signed(field)?).map_err(|_| 33_u32)?;
            Value::Number("LONG", i128::from(number))
        }
        "LLNG" => Value::Number("LLNG", i128::from(signed(field)?)),
        "ULNG" => {
            let number = u32::try_from(whole()?).map_err(|_| 33_u32)?;
            Value::Number("ULNG", i128::from(number))
        }
        "ULLG" => Value::Number("ULLG", i128::from(whole()?)),
        _ => return Err(33),
    })
}

impl Desk {
    pub fn new() -> Desk {
        Desk {
            volume: Volume::new(),
            slots: [const { None }; SLOTS],
            live: 0,
            written: 0,
            by_attr: Vec::new(),
            to_fill: 0,
            asked: 0,
        }
    }

    pub fn refuse(out: &mut Vec<u8>, code: u32) {
        put_refusal(out, code);
    }

    /// Carries out one line, and writes the reply.
    pub fn answer(&mut self, bytes: &[u8], out: &mut Vec<u8>) {
        if let Some(slot) = plain_read(bytes) {
            self.read(slot, out);
            return;
        }
        let Ok(text) = std::str::from_utf8(bytes) else {
            put_refusal(out, 31);
            return;
        };
        let answered = match line::read(text) {
            Ok(fields) => self.carry_out(&fields, out),
            Err(code) => Err(Fault::Code(code)),
        };
        if let Err(fault) = answered {
            put_fault(out, fault);
        }
    }

    fn carry_out(&mut self, fields: &Fields, out: &mut Vec<u8>) -> Result<(), Fault> {
        let node = || whole(fields, line::NODE);
        let dir = || whole_or(fields, line::DIR, ROOT);
        match text(fields, line::DO)? {
            "create" => {
                let (name, dir, time) = (text(fields, line::NAME)?, dir()?, time(fields)?);
                let size = whole_or(fields, line::SIZE, 0)?;
                let is_folder = match &fields[line::KIND] {
                    None => false,
                    Some(Field::Text(kind)) if kind == "file" => false,
                    Some(Field::Text(kind)) if kind == "folder" => true,
                    _ => return Err(Fault::Code(33)),
                };
                let name = entry_name(name)?;
                self.change(
                    Change::Create {
                        dir,
                        name,
                        is_folder,
                        size,
                        time,
                    },
                    out,
                )
            }
            "remove" => self.change(Change::Remove { node: node()? }, out),
            "move" => {
                let (node, dir, name) = (node()?, dir()?, text(fields, line::NAME)?);
                let clobber = truth(fields, line::CLOBBER)?;
                let name = entry_name(name)?;
                self.change(
                    Change::Move {
                        node,
                        dir,
                        name,
                        clobber,
                    },
                    out,
                )
            }
            "write" => {
                let (node, size) = (node()?, whole(fields, line::SIZE)?);
                self.change(
                    Change::Write {
                        node,
                        size,
                        time: time(fields)?,
                    },
                    out,
                )
            }
            "set" => {
                let (node, attr) = (node()?, text(fields, line::ATTR)?);
                let value = value_of(fields)?;
                let attr = attr_name(attr)?;
                if matches!(&value, Value::Text(text) if text.len() > 4096) {
                    return Err(Fault::Code(12));
                }
                let attr = self.volume.attr_names.number(attr);
                self.change(Change::Set { node, attr, value }, out)
            }
            "unset" => {
                let (node, attr) = (node()?, attr_name(text(fields, line::ATTR)?)?);
                let attr = self.volume.attr_names.number(attr);
                self.change(Change::Unset { node, attr }, out)
            }
            "open" => {
                let (query, moved) = (text(fields, line::QUERY)?, truth(fields, line::MOVED)?);
                let port = whole(fields, line::PORT)?;
                let backlog = whole(fields, line::BACKLOG)?;
                let query = self.query(query)?;
                self.open(query, port, backlog, moved, out)
            }
            "read" => {
                self.read(whole(fields, line::SLOT)?, out);
                Ok(())
            }
            "hang_up" => {
                let slot = whole(fields, line::SLOT)?;
                let index = self.taken(slot)?;
                self.asked |= 1 << index;
                self.at(index).is_asked = true;
                put_slot(out, slot);
                Ok(())
            }
            "close" => {
                let slot = whole(fields, line::SLOT)?;
                let index = self.taken(slot)?;
                let changes = self.volume.changes;
                self.live &= !(1 << index);
                let query = self.at(index);
                query.notice(changes);
                let closed = query.close(changes);
                query.put();
                let closed = closed.ok_or(25_u32)?;
                out.extend_from_slice(b"{\"change\":");
                put_number(out, closed);
                out.extend_from_slice(b",\"slot\":");
                put_number(out, slot);
                out.extend_from_slice(b"}\n");
                Ok(())
            }
            "finish" => {
                let slot = whole(fields, line::SLOT)?;
                let index = self.taken(slot)?;
                if !self.at(index).is_done() {
                    return Err(Fault::Code(26));
                }
                self.free(index);
                put_slot(out, slot);
                Ok(())
            }
            "result" => {
                let index = self.taken(whole(fields, line::SLOT)?)?;
                self.at(index).put_result(out);
                Ok(())
            }
            "find" => {
                let (name, dir) = (text(fields, line::NAME)?, dir()?);
                let node = self.volume.find(dir, entry_name(name)?)?;
                out.extend_from_slice(b"{\"node\":");
                put_number(out, node);
                out.extend_from_slice(b"}\n");
                Ok(())
            }
            "entry" => self.entry(node()?, out),
            "fetch" => {
                let query = self.query(text(fields, line::QUERY)?)?;
                let found = self.volume.fetch(|record| query.holds(record));
                out.extend_from_slice(b"{\"at\":");
                put_number(out, self.volume.changes);
                out.extend_from_slice(b",\"result\":");
                put_entries(
                    out,
                    found.iter().map(|it| (it.dir, it.name.bytes(), it.node)),
                );
                out.extend_from_slice(b"}\n");
                Ok(())
            }
            _ => Err(Fault::Code(33)),
        }
    }

    fn query(&mut self, formula: &str) -> Result<Query, Fault> {
        formula::read(formula, &mut self.volume.attr_names).map_err(Fault::Formula)
    }

    fn at(&mut self, index: usize) -> &mut LiveQuery {
        self.slots[index].as_mut().expect("the slot is taken")
    }

    /// The index of a slot that is taken.
    fn taken(&self, slot: u64) -> Result<usize, Refusal> {
        let index = usize::try_from(slot.wrapping_sub(1)).unwrap_or(SLOTS);
        if index < SLOTS && self.slots[index].is_some() {
            Ok(index)
        } else {
            Err(25)
        }
    }

    pub fn is_taken(&self, slot: u64) -> bool {
        self.taken(slot).is_ok()
    }

    fn free(&mut self, index: usize) {
        let others = !(1 << index);
        self.slots[index] = None;
        self.live &= others;
        self.written &= others;
        self.asked &= others;
        self.to_fill &= others;
        self.by_attr.iter_mut().for_each(|it| *it &= others);
    }

    fn notice(&mut self, index: usize) {
        if self.asked >> index & 1 == 1 {
            self.live &= !(1 << index);
            let changes = self.volume.changes;
            self.at(index).notice(changes);
        }
    }

    pub fn read(&mut self, slot: u64, out: &mut Vec<u8>) {
        let Ok(index) = self.taken(slot) else {
            put_refusal(out, 25);
            return;
        };
        self.notice(index);
        self.to_fill |= 1 << index;
        let query = self.at(index);
        query.put();
        query.take(out);
    }

    fn open(
        &mut self,
        query: Query,
        port: u64,
        backlog: u64,
        moved: bool,
        out: &mut Vec<u8>,
    ) -> Result<(), Fault> {
        if !(1..=1024).contains(&port) {
            return Err(Fault::Code(21));
        }
        if backlog > 65_536 {
            return Err(Fault::Code(22));
        }
        let index = self.slots.iter().position(Option::is_none).ok_or(23_u32)?;
        let found = self.volume.fetch(|record| query.holds(record));
        out.extend_from_slice(b"{\"at\":");
        put_number(out, self.volume.changes);
        out.extend_from_slice(b",\"result\":");
        put_entries(
            out,
            found.iter().map(|it| (it.dir, it.name.bytes(), it.node)),
        );
        out.extend_from_slice(b",\"slot\":");
        put_number(out, index as u64 + 1);
        out.extend_from_slice(b"}\n");
        let bit = 1 << index;
        self.live |= bit;
        query.each_attr(&mut |attr| match attr {
            Attr::Name => {}
            Attr::Size | Attr::Time => self.written |= bit,
            Attr::Named(attr) => {
                let attr = attr as usize;
                if self.by_attr.len() <= attr {
                    self.by_attr.resize(attr + 1, 0);
                }
                self.by_attr[attr] |= bit;
            }
        });
        let (port, backlog) = (port as usize, backlog as usize);
        let query = LiveQuery::new(query, port, backlog, moved, self.volume.changes, found);
        self.slots[index] = Some(Box::new(query));
        Ok(())
    }

    fn entry(&self, node: u64, out: &mut Vec<u8>) -> Result<(), Fault> {
        let record = self.volume.record(node).ok_or(2_u32)?;
        if node == ROOT {
            return Err(Fault::Code(4));
        }
        out.extend_from_slice(b"{\"attrs\":[");
        for (place, (attr, value)) in record.attrs.iter().enumerate() {
            out.extend_from_slice(if place == 0 {
                b"{\"name\":"
            } else {
                b",{\"name\":"
            });
            put_text(out, self.volume.attr_names.name(*attr));
            out.extend_from_slice(b",\"type\":");
            match value {
                Value::Text(text) => {
                    out.extend_from_slice(b"\"CSTR\",\"value\":");
                    put_text(out, text);
                }
                Value::Number(kind, number) => {
                    put_text(out, kind.as_bytes());
                    out.extend_from_slice(b",\"value\":");
                    put_signed(out, *number);
                }
            }
            out.push(b'}');
        }
        out.extend_from_slice(b"],\"dir\":");
        put_number(out, record.dir);
        out.extend_from_slice(b",\"kind\":");
        put_text(
            out,
            if record.is_folder() {
                b"folder"
            } else {
                b"file"
            },
        );
        out.extend_from_slice(b",\"name\":");
        put_text(out, record.name.bytes());
        out.extend_from_slice(b",\"node\":");
        put_number(out, node);
        out.extend_from_slice(b",\"size\":");
        put_number(out, record.size);
        out.extend_from_slice(b",\"time\":");
        put_signed(out, i128::from(record.time));
        out.extend_from_slice(b"}\n");
        Ok(())
    }

    fn matching(&self, concerned: u64, node: u64) -> u64 {
        let Some(record) = self.volume.record(node) else {
            return 0;
        };
        let holds = |index: usize| match &self.slots[index] {
            None => false,
            Some(query) => query.query.holds(record),
        };
        each_bit(concerned)
            .filter(|it| holds(*it))
            .fold(0, |bits, it| bits | 1 << it)
    }

    // A change, with the notices before it and the ports filled after it.
    fn change(&mut self, change: Change, out: &mut Vec<u8>) -> Result<(), Fault> {
        each_bit(self.asked & self.live).for_each(|index| self.notice(index));
        let changed = self.make(change);
        each_bit(self.to_fill).for_each(|index| self.at(index).put());
        self.to_fill = 0;
        let node = changed?;
        out.extend_from_slice(b"{\"change\":");
        put_number(out, self.volume.changes);
        out.extend_from_slice(b",\"node\":");
        put_number(out, node);
        out.extend_from_slice(b"}\n");
        Ok(())
    }

    fn make(&mut self, change: Change) -> Result<u64, Refusal> {
        let (node, other) = self.volume.check(&change)?;
        let concerned = self.live
            & match change {
                Change::Write { .. } => self.written,
                Change::Set { attr, .. } | Change::Unset { attr, .. } => {
                    self.by_attr.get(attr as usize).copied().unwrap_or(0)
                }
                _ => u64::MAX,
            };
        if concerned == 0 {
            self.volume.make(change, other);
            return Ok(node);
        }
        let before = self.matching(concerned, node);
        let others = other.map_or(0, |other| self.matching(concerned, other));
        let place_of = |volume: &Volume, node| {
            volume
                .record(node)
                .map_or((0, Name::new(b"")), |it| (it.dir, it.name.clone()))
        };
        let is_move = matches!(change, Change::Move { .. });
        let old = if before != 0 {
            Some(place_of(&self.volume, node))
        } else {
            None
        };
        let gone = other
            .filter(|_| others != 0)
            .map(|it| (it, place_of(&self.volume, it)));
        self.volume.make(change, other);
        let after = self.matching(concerned, node);
        let replaced = if is_move { before & after } else { 0 };
        let told = (before ^ after) | replaced | others;
        if told == 0 {
            return Ok(node);
        }
        let new = place_of(&self.volume, node);
        let replaced = if old.as_ref() == Some(&new) {
            0
        } else {
            replaced
        };
        for index in each_bit((before ^ after) | replaced | others) {
            let is_in = |mask: u64| mask >> index & 1 == 1;
            let query = self.slots[index].as_mut().expect("the slot is taken");
            let is_told_as_move = is_in(replaced) && query.is_moved_told;
            let mut list: [Option<Message>; 3] = [None, None, None];
            let message = |node, place: &(u64, Name), act| Message {
                change: self.volume.changes,
                node,
                dir: place.0,
                name: place.1.clone(),
                act,
                is_last: false,
                from: None,
            };
            let mut count = 0;
            let mut add = |message| {
                list[count] = Some(message);
                count += 1;
            };
            let leaves = is_in(before) && (!is_in(after) || is_in(replaced)) && !is_told_as_move;
            let removed = old.as_ref().filter(|_| leaves);
            let gone = gone.as_ref().filter(|_| is_in(others));
            if let Some((other, place)) = gone.filter(|it| it.0 < node) {
                add(message(*other, place, Act::Removed));
            }
            if let Some(place) = removed {
                add(message(node, place, Act::Removed));
            }
            if let Some((other, place)) = gone.filter(|it| it.0 > node) {
                add(message(*other, place, Act::Removed));
            }
            if is_told_as_move {
                let from = old.clone().map(Box::new);
                add(Message {
                    from,
                    ..message(node, &new, Act::Moved)
                });
            } else if is_in(after) && (!is_in(before) || is_in(replaced)) {
                add(message(node, &new, Act::Created));
            }
            if query.has_room(count, self.volume.changes) {
                if let Some(last) = list[..count].last_mut().and_then(Option::as_mut) {
                    last.is_last = true;
                }
                list.into_iter().flatten().for_each(|it| query.push(it));
                self.to_fill |= 1 << index;
            } else {
                self.live &= !(1 << index);
            }
        }
        Ok(node)
    }
}

fn put_slot(out: &mut Vec<u8>, slot: u64) {
    out.extend_from_slice(b"{\"slot\":");
    put_number(out, slot);
    out.extend_from_slice(b"}\n");
}

/// The slot of a read in its usual form.
pub fn plain_read(line: &[u8]) -> Option<u64> {
    let rest = line
        .strip_prefix(b"{\"do\":\"read\",\"slot\":")?
        .strip_suffix(b"}")?;
    match rest {
        [one @ b'0'..=b'9'] => Some(u64::from(one - b'0')),
        [ten @ b'1'..=b'9', one @ b'0'..=b'9'] => {
            Some(u64::from(ten - b'0') * 10 + u64::from(one - b'0'))
        }
        _ => None,
    }
}
