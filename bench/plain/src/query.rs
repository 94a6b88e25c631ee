//! A live query: its messages, and what it read so far.
use crate::formula::Query;
use crate::text::{put_number, put_text, Name};
use crate::volume::Entry;
use std::collections::{BTreeMap, VecDeque};

#[derive(Clone, Copy, PartialEq)]
pub enum Act {
    Created,
    Removed,
    Moved,
}

pub struct Message {
    pub change: u64,
    pub node: u64,
    pub dir: u64,
    pub name: Name,
    pub act: Act,
    pub is_last: bool,
    pub from: Option<Box<(u64, Name)>>,
}

pub struct LiveQuery {
    pub query: Query,
    pub is_moved_told: bool,
    port: usize,
    backlog: usize,
    /// What waits: the first `ready` messages in the port, the rest held before it.
    waiting: VecDeque<Message>,
    ready: usize,
    read: u64,
    /// Why it ended, and the last change that it covers.
    end: Option<(&'static str, u64)>,
    is_mark_taken: bool,
    pub is_asked: bool,
    result: Rebuilt,
}

/// The result by the messages that were read.
struct Rebuilt {
    entries: BTreeMap<u64, (u64, Name)>,
    change: u64,
    is_settled: bool,
}

impl LiveQuery {
    pub fn new(
        query: Query,
        port: usize,
        backlog: usize,
        is_moved_told: bool,
        change: u64,
        found: Vec<Entry>,
    ) -> LiveQuery {
        let entries = found
            .into_iter()
            .map(|it| (it.node, (it.dir, it.name)))
            .collect();
        LiveQuery {
            query,
            is_moved_told,
            port,
            backlog,
            waiting: VecDeque::new(),
            ready: 0,
            read: 0,
            end: None,
            is_mark_taken: false,
            is_asked: false,
            result: Rebuilt {
                entries,
                change,
                is_settled: true,
            },
        }
    }

    pub fn is_live(&self) -> bool {
        self.end.is_none()
    }

    pub fn is_done(&self) -> bool {
        self.is_mark_taken
    }

    /// Whether so many messages more can be held; else it ends before this change.
    pub fn has_room(&mut self, messages: usize, change: u64) -> bool {
        let is_room = self.waiting.len() - self.ready + messages <= self.backlog;
        if !is_room {
            self.end = Some(("overrun", change - 1));
        }
        is_room
    }

    pub fn push(&mut self, message: Message) {
        self.waiting.push_back(message);
    }

    pub fn notice(&mut self, changes: u64) {
        if self.is_asked && self.is_live() {
            self.end = Some(("hung_up", changes));
        }
    }

    pub fn close(&mut self, changes: u64) -> Option<u64> {
        if !self.is_live() {
            return None;
        }
        self.end = Some(("closed", changes));
        Some(changes)
    }

    /// Fills the port.
    pub fn put(&mut self) {
        self.ready = self.port.min(self.waiting.len());
    }

    /// Takes what is first, and writes it.
    pub fn take(&mut self, out: &mut Vec<u8>) {
        if let Some(message) = self.waiting.pop_front() {
            self.ready -= 1;
            self.read += 1;
            put_message(out, &message, self.read);
            self.result.apply(message);
            return;
        }
        match self.end {
            Some((cause, change)) if !self.is_mark_taken => {
                self.is_mark_taken = true;
                out.extend_from_slice(b"{\"cause\":\"");
                out.extend_from_slice(cause.as_bytes());
                out.extend_from_slice(b"\",\"change\":");
                put_number(out, change);
                out.extend_from_slice(b",\"seq\":");
                put_number(out, self.read + 1);
                out.extend_from_slice(b",\"what\":\"END\"}\n");
            }
            Some(_) => out.extend_from_slice(b"{\"what\":\"ENDED\"}\n"),
            None => out.extend_from_slice(b"{\"what\":\"EMPTY\"}\n"),
        }
    }

    pub fn put_result(&self, out: &mut Vec<u8>) {
        out.extend_from_slice(b"{\"change\":");
        put_number(out, self.result.change);
        out.extend_from_slice(b",\"result\":");
        let entries = self.result.entries.iter();
        put_entries(out, entries.map(|(node, it)| (it.0, it.1.bytes(), *node)));
        out.extend_from_slice(b",\"settled\":");
        put_truth(out, self.result.is_settled);
        out.extend_from_slice(b"}\n");
    }
}

impl Rebuilt {
    fn apply(&mut self, message: Message) {
        self.change = message.change;
        self.is_settled = message.is_last;
        match message.act {
            Act::Removed => drop(self.entries.remove(&message.node)),
            _ => drop(
                self.entries
                    .insert(message.node, (message.dir, message.name)),
            ),
        }
    }
}

pub fn put_truth(out: &mut Vec<u8>, truth: bool) {
    out.extend_from_slice(if truth { b"true" } else { b"false" });
}

/// A list of entries, each by its folder, its name and its node.
pub fn put_entries<'a>(out: &mut Vec<u8>, entries: impl Iterator<Item = (u64, &'a [u8], u64)>) {
    out.push(b'[');
    let mut is_first = true;
    for (dir, name, node) in entries {
        out.extend_from_slice(if is_first {
            b"{\"dir\":"
        } else {
            b",{\"dir\":"
        });
        is_first = false;
        put_number(out, dir);
        out.extend_from_slice(b",\"name\":");
        put_text(out, name);
        out.extend_from_slice(b",\"node\":");
        put_number(out, node);
        out.push(b'}');
    }
    out.push(b']');
}

fn put_message(out: &mut Vec<u8>, message: &Message, seq: u64) {
    out.extend_from_slice(b"{\"change\":");
    put_number(out, message.change);
    out.extend_from_slice(b",\"dir\":");
    put_number(out, message.dir);
    if let Some(from) = &message.from {
        out.extend_from_slice(b",\"from_dir\":");
        put_number(out, from.0);
        out.extend_from_slice(b",\"from_name\":");
        put_text(out, from.1.bytes());
    }
    out.extend_from_slice(b",\"last\":");
    put_truth(out, message.is_last);
    out.extend_from_slice(b",\"name\":");
    put_text(out, message.name.bytes());
    out.extend_from_slice(b",\"node\":");
    put_number(out, message.node);
    out.extend_from_slice(match message.act {
        Act::Created => b",\"op\":\"B_ENTRY_CREATED\",\"seq\":",
        Act::Removed => b",\"op\":\"B_ENTRY_REMOVED\",\"seq\":",
        Act::Moved => b",\"op\":\"B_ENTRY_MOVED\",\"seq\":".as_slice(),
    });
    put_number(out, seq);
    out.extend_from_slice(b",\"what\":\"B_QUERY_UPDATE\"}\n");
}
