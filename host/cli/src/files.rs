//! Files as they are read, and called in messages. Never more is read than the thing may have, since a pipe or a
//! device may have no end.

use std::fs::File;
use std::io::{self, Read};
use std::path::Path;

use crate::problem::{said as said_value, wrong, Done};
use crate::standard;

/// The most bytes that each may have.
pub const TABLE: usize = 64 * (4 + 1 + 64 + 1 + 64 + 32);
pub const REQUEST: usize = 19 + 4 + 64 + 8 + (2 + 16) + (2 + 1024) + (2 + 64) + (2 + 128);
pub const TEXT: usize = 5462;
pub const MESSAGE: usize = 8192;
pub const BUNDLE: usize = 65_536;

/// How a file is called in messages; '-' stands for standard input.
pub fn named(file: &Path) -> String {
    if is_input(file) { "standard input".to_owned() } else { said_value(&file.to_string_lossy()) }
}

/// Whether a name stands for standard input; there are some for the same descriptor.
pub fn is_input(file: &Path) -> bool {
    ["-", "/dev/stdin", "/dev/fd/0", "/proc/self/fd/0"].iter().any(|name| file == Path::new(name))
}

/// Why a call failed, without its number.
pub fn said(error: &io::Error) -> String {
    let all = error.to_string();
    all.split(" (os error").next().unwrap_or_default().to_owned()
}

/// The bytes of a file, and one more at most than it may have: that is enough for the library to refuse it.
pub fn read(file: &Path, most: usize) -> Done<Vec<u8>> {
    let mut bytes = Vec::new();
    let opened = if is_input(file) { standard::input() } else { File::open(file) };
    let done = opened.and_then(|opened| opened.take(most as u64 + 1).read_to_end(&mut bytes));
    done.or_else(|error| wrong(format!("{} cannot be read: {}", named(file), said(&error))))?;
    Ok(bytes)
}

/// The same of a text on one line. Editors and shells end a file with a newline, which is not part of it, so one
/// is left out.
pub fn line(file: &Path, most: usize) -> Done<Vec<u8>> {
    let mut text = read(file, most + 1)?;
    if text.last() == Some(&b'\n') {
        text.pop();
    }
    Ok(text)
}
