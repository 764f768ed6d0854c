//! Where what is made goes: what is written is whole in its place or not there at all, its owner's alone, and no
//! key table is lost under it.

use std::fs::{self, File, Metadata, OpenOptions};
use std::io::{self, ErrorKind, Write};
use std::os::unix::fs::MetadataExt;
use std::path::{Path, PathBuf};

use clap::Args;

use crate::files::{is_input, named, read, said, TABLE};
use crate::problem::{wrong, Done, Problem};
use crate::{library, standard};

/// Where what is made goes.
#[derive(Args, Debug)]
pub struct Out {
    /// The file to write, for its owner's eyes alone; without it, or for -, standard output
    #[arg(long, value_name = "FILE")]
    pub out: Option<PathBuf>,

    /// Lets --out put another file in the place of a key table
    #[arg(long, requires = "out")]
    pub replace: bool,
}

impl Out {
    /// The file, where it is none of those that stand for standard output.
    fn file(&self) -> Option<&Path> {
        self.out.as_deref().filter(|file| !is_output(file))
    }

    /// What is wrong with these words, before anything is read.
    pub fn judged(&self) -> Done<()> {
        if self.replace && self.file().is_none() {
            return wrong("--replace: standard output has nothing to replace");
        }
        Ok(())
    }

    /// Writes what was made.
    pub fn put(&self, bytes: &[u8]) -> Done<()> {
        self.put_unless(bytes, holds_keys)
    }

    /// Writes a table, which takes the place of no file but one of those that its rows came from.
    pub fn put_table(&self, bytes: &[u8], from: &[PathBuf]) -> Done<()> {
        self.put_unless(bytes, |file| Ok(!from.iter().any(|read| is_same(read, file))))
    }

    fn put_unless(&self, bytes: &[u8], kept: impl Fn(&Path) -> Done<bool>) -> Done<()> {
        let Some(file) = self.file() else { return print(bytes) };
        let there = there(file)?;
        if there.as_ref().is_some_and(|found| !found.is_file()) {
            return write_through(file, bytes);
        }
        if is_descriptor(file) {
            return wrong(format!("{} cannot be written: it leads to an open file", named(file)));
        }
        if there.is_some() && !self.replace && kept(file)? {
            return wrong(format!("{} is there and is kept; with --replace it is lost", named(file)));
        }
        let done = match there {
            // What a link leads to is replaced, and not the link.
            Some(_) => fs::canonicalize(file).and_then(|place| write_whole(&place, bytes)),
            None => write_whole(file, bytes),
        };
        done.or_else(|error| {
            wrong(format!("{} cannot be written, and nothing was changed: {}", named(file), said(&error)))
        })
    }
}

fn is_output(file: &Path) -> bool {
    ["-", "/dev/stdout", "/dev/fd/1", "/proc/self/fd/1"].iter().any(|name| file == Path::new(name))
}

/// Whether a name stands for a descriptor: what it leads to is open, and others write there too.
fn is_descriptor(file: &Path) -> bool {
    ["/dev/stderr", "/dev/fd", "/proc/self/fd"].iter().any(|front| file.starts_with(front))
}

/// A device or a pipe has no place beside it that could be renamed, and may have taken a part.
fn write_through(file: &Path, bytes: &[u8]) -> Done<()> {
    let done = OpenOptions::new().write(true).open(file).and_then(|mut open| open.write_all(bytes));
    match done {
        Err(error) if error.kind() == ErrorKind::BrokenPipe => Err(Problem::Unread),
        Err(error) => wrong(format!("{} cannot be written: {}", named(file), said(&error))),
        Ok(()) => Ok(()),
    }
}

/// What stands at a place, if anything does.
fn there(file: &Path) -> Done<Option<Metadata>> {
    match fs::metadata(file) {
        Ok(found) if found.is_dir() => wrong(format!("{} cannot be written: it is a folder", named(file))),
        Ok(found) => Ok(Some(found)),
        Err(error) if error.kind() == ErrorKind::NotFound && fs::symlink_metadata(file).is_ok() => {
            wrong(format!("{} cannot be written: it is a link to nothing", named(file)))
        }
        Err(error) if error.kind() == ErrorKind::NotFound => Ok(None),
        Err(error) => wrong(format!("{} cannot be written: {}", named(file), said(&error))),
    }
}

fn is_same(read: &Path, file: &Path) -> bool {
    let place = |file: &Path| fs::metadata(file).map(|found| (found.dev(), found.ino())).ok();
    !is_input(read) && place(read).is_some() && place(read) == place(file)
}

/// Whether a file is a table that has a row: whoever wrote a token over it would have lost the keys.
fn holds_keys(file: &Path) -> Done<bool> {
    let held = read(file, TABLE)?;
    Ok(!held.is_empty() && library::table_is_good(&held))
}

/// Written beside its place, synced and renamed: at no moment is there half a file. The new file is its
/// owner's alone.
fn write_whole(place: &Path, bytes: &[u8]) -> io::Result<()> {
    let folder = place.parent().filter(|folder| !folder.as_os_str().is_empty()).unwrap_or(Path::new("."));
    let mut beside = tempfile::Builder::new().prefix(".bhinorpa-").tempfile_in(folder)?;
    beside.write_all(bytes)?;
    beside.as_file().sync_all()?;
    beside.persist(place)?;
    // The rename itself is on the disk once the folder is; where a folder cannot be synced, that is all there is.
    let _ = File::open(folder).and_then(|folder| folder.sync_all());
    Ok(())
}

/// To standard output, and out of the buffer that would be lost in silence.
pub fn print(bytes: &[u8]) -> Done<()> {
    let done = standard::output().and_then(|mut output| output.write_all(bytes).and_then(|()| output.flush()));
    match done {
        Err(error) if error.kind() == ErrorKind::BrokenPipe => Err(Problem::Unread),
        Err(error) => wrong(format!("standard output cannot be written: {}", said(&error))),
        Ok(()) => Ok(()),
    }
}
