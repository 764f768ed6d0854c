//! Writes the samples of examples/: `sample-bundle FOLDER` makes sample.bundle there, and sample.txt with the
//! lines that the judge prints for it; firmware.in, and firmware.txt with what firmware.c prints for it.

use std::path::Path;
use std::{fs, io};

use checks::sample_bundle;

fn main() -> io::Result<()> {
    let folder = std::env::args_os().nth(1).expect("usage: sample-bundle FOLDER");
    let folder = Path::new(&folder);
    let (bundle, lines) = sample_bundle::made();
    fs::write(folder.join("sample.bundle"), bundle)?;
    fs::write(folder.join("sample.txt"), lines)?;
    let (messages, printed) = sample_bundle::service();
    fs::write(folder.join("firmware.in"), messages)?;
    fs::write(folder.join("firmware.txt"), printed)
}
