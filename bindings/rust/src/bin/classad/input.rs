//! Files and standard input.

use crate::arguments::is_input;
use crate::lines;
use classad::bounds::TEXT_BYTES;
use std::ffi::OsStr;
use std::fs::File;
use std::io::{self, Read};

/// The text of a file, or the line that says why it cannot be read. One byte beyond the bound
/// is enough to know that a text is too long.
pub fn text_of(file: &OsStr) -> Result<Vec<u8>, Vec<u8>> {
    let limit = TEXT_BYTES as u64 + 1;
    let mut text = Vec::new();
    let done = if is_input(file) {
        io::stdin().lock().take(limit).read_to_end(&mut text)
    } else {
        File::open(file).and_then(|opened| opened.take(limit).read_to_end(&mut text))
    };
    done.map_err(|fault| lines::fault(file, &fault))?;
    Ok(text)
}
