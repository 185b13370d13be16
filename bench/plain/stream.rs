//! Readers and writers of bytes whose calls may be interrupted.

use std::fs::File;
use std::io::{Error, ErrorKind, Read, Result, Write};
use std::os::fd::AsFd;

const MOST_TRIES: u32 = 1000;

/// Standard output with no buffer of its own, so that a write that fails is told at once.
pub fn standard_output() -> Result<File> {
    Ok(std::io::stdout().as_fd().try_clone_to_owned()?.into())
}

/// Standard input with no buffer of its own.
pub fn standard_input() -> Result<File> {
    Ok(std::io::stdin().as_fd().try_clone_to_owned()?.into())
}

/// Reads some bytes; none at the end. A read that is interrupted is tried again, but not for ever.
pub fn read_some(input: &mut impl Read, bytes: &mut [u8]) -> Result<usize> {
    tried(|| input.read(bytes))
}

/// Writes all bytes.
pub fn write_all(output: &mut impl Write, bytes: &[u8]) -> Result<()> {
    let mut rest = bytes;
    while !rest.is_empty() {
        let count = tried(|| output.write(rest))?;
        if count == 0 {
            return Err(Error::from(ErrorKind::WriteZero));
        }
        rest = &rest[count..];
    }
    Ok(())
}

fn tried(mut call: impl FnMut() -> Result<usize>) -> Result<usize> {
    let mut tries = 0;
    loop {
        match call() {
            Err(error) if error.kind() == ErrorKind::Interrupted && tries < MOST_TRIES => {
                tries += 1;
            }
            result => return result,
        }
    }
}
