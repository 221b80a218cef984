//! The calls of a run, kept in a file with what the document expects of each: `--keep FILE`. Another program can make
//! them again (tests/c/replay.c does, in C).
//!
//! The file is a run of little-endian 32-bit numbers (below: words) and of byte strings, with no padding:
//!
//! ```text
//! the 8 bytes "pzkept 1"
//! for each call:
//!   function      1 pz_read_rule, 2 pz_read_report, 3 pz_evaluate, 4 pz_start, 5 pz_open, 6 pz_close, 7 pz_tally,
//!                 8 pz_read_path, 9 pz_print
//!   argument      the label of pz_open, the verdict of pz_tally; else 0
//!   answer        four words, in the order of the reply's fields; 0 where it has fewer
//!   rule          a string, for pz_read_path the text; empty where the function takes none
//!   report        a string; empty where the function takes none
//!   buffer        a string: what is lent to be written, as it is before the call (marks, state, tally, room for a
//!                 rule or for a text, as it lies in memory); empty where the function takes none
//!   changes       how many stretches of the buffer differ after the call, then for each its offset and its bytes
//!                 as a string; every other byte of the buffer stays
//! the word 0, and how many calls there were
//!
//! a string is its length and its bytes; the length 0xFFFFFFFF has no bytes and stands for the string that the call
//! before had in that place (for the buffer: as it was after that call)
//! ```

use crate::calls::Call;
use std::fs::File;
use std::io::{BufWriter, Result, Write};

const AGAIN: u32 = u32::MAX;

/// What a call is given, and what the document says of it.
pub struct Kept<'a> {
    pub call: Call,
    pub argument: u32,
    pub answer: [u32; 4],
    pub rule: &'a [u8],
    pub report: &'a [u8],
    pub before: &'a [u8],
    pub after: &'a [u8],
}

/// A file that calls are kept in.
pub struct Keeper {
    file: BufWriter<File>,
    calls: u32,
    rule: Vec<u8>,
    report: Vec<u8>,
    buffer: Vec<u8>,
}

fn put_word(file: &mut impl Write, word: u32) -> Result<()> {
    file.write_all(&word.to_le_bytes())
}

fn put_string(file: &mut impl Write, bytes: &[u8]) -> Result<()> {
    put_word(file, bytes.len() as u32)?;
    file.write_all(bytes)
}

/// A string, in short where it is the `last` one again. What stands there for the next call is `next`.
fn put_place(file: &mut impl Write, last: &mut Vec<u8>, bytes: &[u8], next: &[u8]) -> Result<()> {
    if bytes == &last[..] && !bytes.is_empty() {
        put_word(file, AGAIN)?;
    } else {
        put_string(file, bytes)?;
    }
    last.clear();
    last.extend_from_slice(next);
    Ok(())
}

/// The stretches in which two buffers of one length differ.
fn stretches(before: &[u8], after: &[u8]) -> Vec<std::ops::Range<usize>> {
    let mut found: Vec<std::ops::Range<usize>> = Vec::new();
    for at in (0..before.len()).filter(|at| before[*at] != after[*at]) {
        match found.last_mut() {
            Some(last) if last.end == at => last.end = at + 1,
            _ => found.push(at..at + 1),
        }
    }
    found
}

impl Keeper {
    pub fn new(name: &str) -> Result<Keeper> {
        let mut file = BufWriter::new(File::create(name)?);
        file.write_all(b"pzkept 1")?;
        Ok(Keeper { file, calls: 0, rule: vec![], report: vec![], buffer: vec![] })
    }

    pub fn keep(&mut self, kept: &Kept) -> Result<()> {
        let function = match kept.call {
            Call::ReadRule => 1,
            Call::ReadReport => 2,
            Call::Evaluate => 3,
            Call::Start => 4,
            Call::Open => 5,
            Call::Close => 6,
            Call::Tally => 7,
            Call::ReadPath => 8,
            Call::Print => 9,
            Call::Program => unreachable!("the program is no exported function"),
        };
        let file = &mut self.file;
        put_word(file, function)?;
        put_word(file, kept.argument)?;
        for field in kept.answer {
            put_word(file, field)?;
        }
        put_place(file, &mut self.rule, kept.rule, kept.rule)?;
        put_place(file, &mut self.report, kept.report, kept.report)?;
        put_place(file, &mut self.buffer, kept.before, kept.after)?;
        let changes = stretches(kept.before, kept.after);
        put_word(file, changes.len() as u32)?;
        for change in changes {
            put_word(file, change.start as u32)?;
            put_string(file, &kept.after[change])?;
        }
        self.calls += 1;
        Ok(())
    }

    /// Ends the file; without this it is not whole.
    pub fn end(mut self) -> Result<()> {
        put_word(&mut self.file, 0)?;
        put_word(&mut self.file, self.calls)?;
        self.file.flush()
    }
}
