//! What `lq run` and `lq threads` do, in plain Rust: a reply for each line of standard input.
mod desk;
mod formula;
mod line;
mod query;
mod text;
mod threads;
mod volume;

use desk::{plain_read, Desk};
use std::io::{Read, Write};
use threads::{Looks, Readers};

const BLOCK: usize = 65_536;
const LONGEST: usize = 65_536;

/// Cuts the input into lines, and gathers the replies until the next block is read.
struct Lines<R> {
    input: R,
    block: Vec<u8>,
    from: usize,
    to: usize,
    // The beginning of a line that an earlier block ended in.
    begun: Vec<u8>,
}

fn position(bytes: &[u8]) -> Option<usize> {
    let (words, rest) = bytes.as_chunks::<32>();
    for (index, word) in words.iter().enumerate() {
        if word
            .iter()
            .fold(0, |found, it| found | u8::from(*it == b'\n'))
            != 0
        {
            let within = word.iter().position(|it| *it == b'\n')?;
            return Some(index * 32 + within);
        }
    }
    let within = rest.iter().position(|it| *it == b'\n')?;
    Some(words.len() * 32 + within)
}

impl<R: Read> Lines<R> {
    fn is_block_done(&self) -> bool {
        self.from == self.to
    }

    fn refill(&mut self) -> std::io::Result<bool> {
        self.from = 0;
        self.to = self.input.read(&mut self.block)?;
        Ok(self.to > 0)
    }

    /// Gives each whole line of the block.
    fn each(
        &mut self,
        mut answer: impl FnMut(&[u8]) -> std::io::Result<()>,
    ) -> std::io::Result<()> {
        while !self.is_block_done() {
            let rest = &self.block[self.from..self.to];
            let Some(length) = position(rest) else {
                // A line that is too long isn't kept.
                let room = (LONGEST + 1).saturating_sub(self.begun.len());
                self.begun.extend_from_slice(&rest[..room.min(rest.len())]);
                self.from = self.to;
                return Ok(());
            };
            self.from += length + 1;
            if self.begun.is_empty() {
                answer(&rest[..length])?;
            } else {
                self.begun.extend_from_slice(&rest[..length]);
                answer(&self.begun)?;
                self.begun.clear();
            }
        }
        Ok(())
    }
}

/// A line without the CR at its end, or the refusal of one that is too long.
fn trimmed(line: &[u8]) -> Result<&[u8], u32> {
    if line.len() > LONGEST {
        return Err(30);
    }
    Ok(line.strip_suffix(b"\r").unwrap_or(line))
}

/// Who answers the lines.
enum Session {
    Desk(Box<Desk>),
    Readers(Box<Readers>),
}

impl Session {
    fn answer(&mut self, line: &[u8], out: &mut Vec<u8>) {
        let line = match trimmed(line) {
            Ok([]) => return,
            Ok(line) => line,
            Err(code) => {
                self.end_batch(out);
                Desk::refuse(out, code);
                return;
            }
        };
        match self {
            Session::Desk(desk) => desk.answer(line, out),
            Session::Readers(readers) => match plain_read(line) {
                Some(slot) => readers.add_read(slot, out),
                None => readers.answer(line, out),
            },
        }
    }

    fn end_batch(&mut self, out: &mut Vec<u8>) {
        if let Session::Readers(readers) = self {
            readers.read_all(out);
        }
    }
}

fn carry_out(mut session: Session) -> std::io::Result<()> {
    let mut lines = Lines {
        input: std::io::stdin().lock(),
        block: vec![0; BLOCK],
        from: 0,
        to: 0,
        begun: Vec::new(),
    };
    let mut output = std::io::stdout().lock();
    let mut out = Vec::with_capacity(2 * BLOCK);
    while lines.refill()? {
        lines.each(|line| {
            session.answer(line, &mut out);
            if out.len() >= BLOCK {
                output.write_all(&out)?;
                out.clear();
            }
            Ok(())
        })?;
        session.end_batch(&mut out);
        output.write_all(&out)?;
        out.clear();
    }
    session.answer(&lines.begun, &mut out);
    session.end_batch(&mut out);
    output.write_all(&out)?;
    output.flush()
}

const USAGE: &str = "plain: usage: plain run | plain threads [LOOKS OF THE CALLER, OF THE WORKERS]";

fn main() {
    let words: Vec<String> = std::env::args().skip(1).collect();
    let number = |index: usize| words.get(index).map_or(Some(0), |it| it.parse().ok());
    let session = match (words.first().map(String::as_str), number(1), number(2)) {
        (Some("run"), ..) => Session::Desk(Box::new(Desk::new())),
        (Some("threads"), Some(of_caller), Some(of_workers)) => {
            Session::Readers(Box::new(Readers::new(Looks {
                of_caller,
                of_workers,
            })))
        }
        _ => {
            eprintln!("{USAGE}");
            std::process::exit(2);
        }
    };
    if let Err(error) = carry_out(session) {
        eprintln!("plain: {error}");
        std::process::exit(1);
    }
}
