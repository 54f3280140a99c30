//! Reading in buffers: the replay, the log and the judge take their files in these, in constant memory.
use std::io::{ErrorKind, Read, Result};

/// Whole records, so that none lies across two buffers.
pub const BUFFER: usize = 65_536;

/// Fills the buffer as far as the input goes, however it is cut into reads: fewer bytes are its end.
pub fn fill(input: &mut impl Read, buffer: &mut [u8]) -> Result<usize> {
    let mut n = 0;
    while n < buffer.len() {
        match input.read(&mut buffer[n..]) {
            Ok(0) => break,
            Ok(k) => n += k,
            Err(error) if error.kind() == ErrorKind::Interrupted => {}
            Err(error) => return Err(error),
        }
    }
    Ok(n)
}
