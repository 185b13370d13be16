//! Scripts: each line's request is served and its screen written before the next line is waited for.

use crate::check::check;
use crate::engine::Engine;
use crate::fault::ScriptFault;
use crate::grammar::{parse_line, Call};
use crate::journal::Purse;
use crate::screens::{put_check, put_result, put_screen};
use crate::stream::{read_some, write_all};
use std::io::{Read, Write};

const LONGEST_LINE: usize = 4096;
const MOST_LINES: u64 = 1_000_000;
const BLOCK: usize = 1 << 16;

/// Runs the script that the reader gives, whose requests are those of the purse's terminal.
pub fn run_script(
    input: &mut impl Read,
    output: &mut impl Write,
    engine: &mut Engine,
    purse: &mut Purse,
) -> Result<(), ScriptFault> {
    let mut lines = Lines::of(input);
    let mut out = Vec::with_capacity(2 * BLOCK);
    let ended = loop {
        match lines.next(|| flush(output, &mut out)) {
            Ok(Some(line)) => match parse_line(line) {
                Some(call) => answer(call, engine, purse, &mut out),
                None => break Err(ScriptFault::Bad(lines.number)),
            },
            Ok(None) => break Ok(()),
            Err(fault) => break Err(fault),
        }
        if out.len() >= BLOCK {
            flush(output, &mut out)?;
        }
    };
    // The screens of the lines before a fault are written too.
    flush(output, &mut out)?;
    ended
}

fn answer(call: Call, engine: &mut Engine, purse: &mut Purse, out: &mut Vec<u8>) {
    match call {
        Call::Serve(request) => put_screen(out, engine.serve(request, purse)),
        Call::Check => put_check(out, check(&engine.tables)),
        Call::Results => engine.journal.results().for_each(|ten| put_result(out, &ten)),
    }
}

fn flush(output: &mut impl Write, out: &mut Vec<u8>) -> Result<(), ScriptFault> {
    write_all(output, out).map_err(|_| ScriptFault::Write)?;
    out.clear();
    Ok(())
}

// The lines of a reader, read in blocks.
struct Lines<'a, R> {
    input: &'a mut R,
    buffer: Vec<u8>,
    // What of the buffer is read and not given yet.
    start: usize,
    end: usize,
    // The number of the line that was given last, or is looked for.
    number: u64,
}

impl<'a, R: Read> Lines<'a, R> {
    fn of(input: &'a mut R) -> Self {
        Lines { input, buffer: vec![0; BLOCK + LONGEST_LINE], start: 0, end: 0, number: 0 }
    }

    // The next line without its line feed, None at the end. `before` is called before each read.
    fn next(&mut self, mut before: impl FnMut() -> Result<(), ScriptFault>) -> Result<Option<&[u8]>, ScriptFault> {
        let mut looked = 0;
        loop {
            let rest = &self.buffer[self.start..self.end];
            if !rest.is_empty() && self.number == MOST_LINES {
                return Err(ScriptFault::TooManyLines);
            }
            match line_feed(&rest[looked..]) {
                Some(more) if looked + more <= LONGEST_LINE => {
                    let line = self.start..self.start + looked + more;
                    self.start = line.end + 1;
                    self.number += 1;
                    return Ok(Some(&self.buffer[line]));
                }
                None if rest.len() <= LONGEST_LINE => looked = rest.len(),
                _ => return Err(ScriptFault::LongLine(self.number + 1)),
            }
            before()?;
            if self.read_more()? == 0 {
                return match looked {
                    0 => Ok(None),
                    _ => Err(ScriptFault::Cut(self.number + 1)),
                };
            }
        }
    }

    fn read_more(&mut self) -> Result<usize, ScriptFault> {
        self.buffer.copy_within(self.start..self.end, 0);
        self.end -= self.start;
        self.start = 0;
        let count = read_some(self.input, &mut self.buffer[self.end..]).map_err(|_| ScriptFault::Read)?;
        self.end += count;
        Ok(count)
    }
}

// Where the first line feed is. Eight bytes at once: a byte is 10 where it is 0 once each is xored with 10.
fn line_feed(bytes: &[u8]) -> Option<usize> {
    const ONES: u64 = u64::from_ne_bytes([1; 8]);
    const HIGHS: u64 = ONES << 7;
    let mut words = bytes.chunks_exact(8);
    for (place, word) in words.by_ref().enumerate() {
        let mut eight = [0; 8];
        eight.copy_from_slice(word);
        let zeros = u64::from_le_bytes(eight) ^ (ONES * u64::from(b'\n'));
        let found = zeros.wrapping_sub(ONES) & !zeros & HIGHS;
        if found != 0 {
            return Some(place * 8 + found.trailing_zeros() as usize / 8);
        }
    }
    let rest = words.remainder();
    let place = rest.iter().position(|&byte| byte == b'\n')?;
    Some(bytes.len() - rest.len() + place)
}
