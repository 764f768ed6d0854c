//! `bhinorpa`: the library's entry points on a command line, with all that they are lent made from words.

mod bundle;
mod caveats;
mod checks;
mod explain;
mod files;
mod items;
mod library;
mod make;
mod names;
mod order;
mod out;
mod pages;
mod parts;
mod problem;
mod racks;
mod records;
mod refusal;
mod request;
mod show;
mod standard;
mod times;
mod values;
mod verbs;
mod words;

use std::ffi::OsString;
use std::process::ExitCode;

use clap::error::ErrorKind;
use clap::Parser;

use problem::{wrong, Done};
use words::Words;

fn main() -> ExitCode {
    standard::limits_are_errors();
    match run(std::env::args_os().collect()) {
        Ok(status) => status.into(),
        Err(problem) => {
            problem.tell();
            problem.status().into()
        }
    }
}

/// The status that the command ends with.
fn run(args: Vec<OsString>) -> Done<u8> {
    match Words::try_parse_from(args) {
        Ok(words) => checks::judged(&words.verb).and_then(|()| verbs::done(words.verb)),
        Err(error) if matches!(error.kind(), ErrorKind::DisplayHelp | ErrorKind::DisplayVersion) => {
            out::print(error.to_string().as_bytes()).map(|()| 0)
        }
        Err(error) => wrong(format!("{}\nbhinorpa --help shows each verb and an example", refusal::said(&error))),
    }
}
