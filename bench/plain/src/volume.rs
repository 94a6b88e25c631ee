//! The tree of entries, and its changes.
use crate::text::{Fast, Name};
use std::collections::HashMap;
use std::hash::BuildHasherDefault;
use std::sync::Arc;

type Map<K, V> = HashMap<K, V, BuildHasherDefault<Fast>>;

pub type Refusal = u32;

pub const ROOT: u64 = 1;

#[derive(Clone)]
pub enum Value {
    Text(Arc<[u8]>),
    Number(&'static str, i128),
}

/// Numbers for the names of attributes. One that was named once keeps its number.
#[derive(Default)]
pub struct AttrNames {
    numbers: Map<Arc<[u8]>, u32>,
    names: Vec<Arc<[u8]>>,
}

impl AttrNames {
    pub fn number(&mut self, name: &[u8]) -> u32 {
        if let Some(number) = self.numbers.get(name) {
            return *number;
        }
        let number = self.names.len() as u32;
        let name: Arc<[u8]> = name.into();
        self.names.push(name.clone());
        self.numbers.insert(name, number);
        number
    }

    pub fn name(&self, number: u32) -> &[u8] {
        &self.names[number as usize]
    }
}

pub struct Record {
    pub dir: u64,
    pub name: Name,
    pub size: u64,
    pub time: i64,
    pub attrs: Vec<(u32, Value)>,
    // The nodes of a folder's entries.
    pub entries: Option<Box<Map<Name, u64>>>,
}

impl Record {
    pub fn is_folder(&self) -> bool {
        self.entries.is_some()
    }

    pub fn attr(&self, attr: u32) -> Option<&Value> {
        self.attrs.iter().find(|it| it.0 == attr).map(|it| &it.1)
    }
}

pub struct Entry {
    pub dir: u64,
    pub name: Name,
    pub node: u64,
}

/// The records in a list, and where each stands there.
struct Records {
    places: Map<u64, u32>,
    list: Vec<(u64, Record)>,
}

impl Records {
    fn get(&self, node: u64) -> Option<&Record> {
        self.places
            .get(&node)
            .map(|place| &self.list[*place as usize].1)
    }

    fn get_mut(&mut self, node: u64) -> Option<&mut Record> {
        self.places
            .get(&node)
            .map(|place| &mut self.list[*place as usize].1)
    }

    fn insert(&mut self, node: u64, record: Record) {
        self.places.insert(node, self.list.len() as u32);
        self.list.push((node, record));
    }

    fn remove(&mut self, node: u64) -> Option<Record> {
        let place = self.places.remove(&node)?;
        let (_, record) = self.list.swap_remove(place as usize);
        if let Some((moved, _)) = self.list.get(place as usize) {
            self.places.insert(*moved, place);
        }
        Some(record)
    }
}

pub struct Volume {
    pub changes: u64,
    next: u64,
    records: Records,
    pub attr_names: AttrNames,
}

pub enum Change<'a> {
    Create {
        dir: u64,
        name: &'a [u8],
        is_folder: bool,
        size: u64,
        time: i64,
    },
    Remove {
        node: u64,
    },
    Move {
        node: u64,
        dir: u64,
        name: &'a [u8],
        clobber: bool,
    },
    Write {
        node: u64,
        size: u64,
        time: i64,
    },
    Set {
        node: u64,
        attr: u32,
        value: Value,
    },
    Unset {
        node: u64,
        attr: u32,
    },
}

impl Volume {
    pub fn new() -> Volume {
        let mut records = Records {
            places: Map::default(),
            list: Vec::new(),
        };
        let root = Record {
            dir: 0,
            name: Name::new(b""),
            size: 0,
            time: 0,
            attrs: Vec::new(),
            entries: Some(Box::default()),
        };
        records.insert(ROOT, root);
        let mut attr_names = AttrNames::default();
        for name in ["name", "size", "last_modified"] {
            attr_names.number(name.as_bytes());
        }
        Volume {
            changes: 0,
            next: 2,
            records,
            attr_names,
        }
    }

    pub fn record(&self, node: u64) -> Option<&Record> {
        self.records.get(node)
    }

    fn entry(&self, node: u64) -> Result<&Record, Refusal> {
        let record = self.record(node).ok_or(2_u32)?;
        if node == ROOT {
            return Err(11);
        }
        Ok(record)
    }

    pub fn find(&self, dir: u64, name: &[u8]) -> Result<u64, Refusal> {
        self.folder(dir)?.get(name).copied().ok_or(4)
    }

    fn folder(&self, dir: u64) -> Result<&Map<Name, u64>, Refusal> {
        self.record(dir).ok_or(2_u32)?.entries.as_deref().ok_or(3)
    }

    pub fn fetch(&self, is_met: impl Fn(&Record) -> bool) -> Vec<Entry> {
        let mut found: Vec<Entry> = self
            .records
            .list
            .iter()
            .filter(|it| it.0 != ROOT && is_met(&it.1))
            .map(|(node, it)| Entry {
                dir: it.dir,
                name: it.name.clone(),
                node: *node,
            })
            .collect();
        if !found.is_sorted_by_key(|it| it.node) {
            found.sort_unstable_by_key(|it| it.node);
        }
        found
    }

    fn is_filled(&self, node: u64) -> bool {
        let entries = self.record(node).and_then(|it| it.entries.as_deref());
        entries.is_some_and(|it| !it.is_empty())
    }

    /// Why a change is refused; else its node, and the other node that it removes.
    pub fn check(&self, change: &Change) -> Result<(u64, Option<u64>), Refusal> {
        match change {
            Change::Create {
                dir,
                name,
                is_folder,
                size,
                ..
            } => {
                if self.folder(*dir)?.contains_key(*name) {
                    return Err(5);
                }
                if *is_folder && *size != 0 {
                    return Err(9);
                }
                if *size > i64::MAX as u64 {
                    return Err(12);
                }
                Ok((self.next, None))
            }
            Change::Remove { node } => {
                self.entry(*node)?;
                if self.is_filled(*node) {
                    return Err(7);
                }
                Ok((*node, None))
            }
            Change::Move {
                node,
                dir,
                name,
                clobber,
            } => {
                let record = self.entry(*node)?;
                let place = self.folder(*dir)?;
                if record.is_folder() {
                    let mut at = *dir;
                    while at != ROOT {
                        if at == *node {
                            return Err(6);
                        }
                        at = self.record(at).map_or(ROOT, |it| it.dir);
                    }
                }
                let other = place.get(*name).copied().filter(|it| it != node);
                if let Some(other) = other {
                    if !clobber {
                        return Err(5);
                    }
                    if self.entry(other)?.is_folder() != record.is_folder() {
                        return Err(8);
                    }
                    if self.is_filled(other) {
                        return Err(7);
                    }
                }
                Ok((*node, other))
            }
            Change::Write { node, size, .. } => {
                if self.entry(*node)?.is_folder() {
                    return Err(9);
                }
                if *size > i64::MAX as u64 {
                    return Err(12);
                }
                Ok((*node, None))
            }
            Change::Set { node, attr, .. } => {
                self.entry(*node)?;
                if *attr < 3 {
                    return Err(11);
                }
                Ok((*node, None))
            }
            Change::Unset { node, attr } => {
                let record = self.entry(*node)?;
                if *attr < 3 {
                    return Err(11);
                }
                if record.attr(*attr).is_none() {
                    return Err(10);
                }
                Ok((*node, None))
            }
        }
    }

    fn entries_of(&mut self, dir: u64) -> Option<&mut Map<Name, u64>> {
        self.records.get_mut(dir)?.entries.as_deref_mut()
    }

    fn take(&mut self, node: u64) {
        if let Some(record) = self.records.remove(node) {
            if let Some(entries) = self.entries_of(record.dir) {
                entries.remove(record.name.bytes());
            }
        }
    }

    /// Makes a change that `check` doesn't refuse.
    pub fn make(&mut self, change: Change, other: Option<u64>) {
        match change {
            Change::Create {
                dir,
                name,
                is_folder,
                size,
                time,
            } => {
                let name = Name::new(name);
                let node = self.next;
                self.next += 1;
                if let Some(entries) = self.entries_of(dir) {
                    entries.insert(name.clone(), node);
                }
                let entries = is_folder.then(Box::default);
                let record = Record {
                    dir,
                    name,
                    size,
                    time,
                    attrs: Vec::new(),
                    entries,
                };
                self.records.insert(node, record);
            }
            Change::Remove { node } => self.take(node),
            Change::Move {
                node, dir, name, ..
            } => {
                if let Some(other) = other {
                    self.take(other);
                }
                let name = Name::new(name);
                let Some(record) = self.records.get_mut(node) else {
                    return;
                };
                let old_dir = std::mem::replace(&mut record.dir, dir);
                let old_name = std::mem::replace(&mut record.name, name.clone());
                if let Some(entries) = self.entries_of(old_dir) {
                    entries.remove(old_name.bytes());
                }
                if let Some(entries) = self.entries_of(dir) {
                    entries.insert(name, node);
                }
            }
            Change::Write { node, size, time } => {
                if let Some(record) = self.records.get_mut(node) {
                    record.size = size;
                    record.time = time;
                }
            }
            Change::Set { node, attr, value } => {
                if let Some(record) = self.records.get_mut(node) {
                    match record.attrs.iter_mut().find(|it| it.0 == attr) {
                        Some(there) => there.1 = value,
                        None => {
                            record.attrs.reserve_exact(1);
                            record.attrs.push((attr, value));
                        }
                    }
                }
            }
            Change::Unset { node, attr } => {
                if let Some(record) = self.records.get_mut(node) {
                    record.attrs.retain(|it| it.0 != attr);
                }
            }
        }
        self.changes += 1;
    }
}
