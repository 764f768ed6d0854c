//! Writes the files of vectors/: `vectors FOLDER`.

use std::path::Path;
use std::{fs, io};

use checks::vectors;

fn main() -> io::Result<()> {
    let folder = std::env::args_os().nth(1).expect("usage: vectors FOLDER");
    let folder = Path::new(&folder);
    vectors::files().into_iter().try_for_each(|(name, json)| fs::write(folder.join(name), json))
}
