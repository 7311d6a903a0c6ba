//! What `policies` and `join` share: they print the one text that a call writes.

use crate::common::{refused, space, text_in, Ended};
use pitch_gate::Refusal;
use std::io::{self, Write};
use std::process::ExitCode;

/// Prints the text that was written, or the refusal.
pub fn print(written: Result<Vec<u8>, Refusal>) -> Ended {
    match written {
        Ok(text) => {
            io::stdout().write_all(&text)?;
            Ok(ExitCode::SUCCESS)
        }
        Err(refusal) => Ok(refused(refusal)),
    }
}

/// Writes in a space of this length, and sees that no byte is touched that the library promises to leave.
pub fn in_space(bytes: usize, write: impl FnOnce(&mut [u8]) -> Result<usize, Refusal>) -> Result<Vec<u8>, Refusal> {
    let mut space = space(bytes);
    let written = write(&mut space);
    let text = text_in(space, written.unwrap_or(0));
    written.map(|_| text)
}
