//! What goes wrong with a command, how it is told, and the status that the command then ends with.

use std::fmt;
use std::io::{self, Write};

use crate::names;

/// Why a command did not do what it was asked for.
#[derive(Debug, PartialEq)]
pub enum Problem {
    /// The words or a file are not what the command needs.
    Words(String),
    /// The library refuses with this answer; beside it what is refused, and why in words.
    Refused(u32, String),
    /// Whoever read the output has gone: nobody is left to be told.
    Unread,
}

pub type Done<T> = Result<T, Problem>;

pub fn wrong<T>(said: impl fmt::Display) -> Done<T> {
    Err(Problem::Words(said.to_string()))
}

/// What the library refuses, and why in words; where there are none, what the answer means.
pub fn refused<T>(answer: u32, what: impl fmt::Display, why: Option<&str>) -> Done<T> {
    Err(Problem::Refused(answer, format!("{what}: {}", why.unwrap_or(names::meaning(answer)))))
}

/// A value as it stands in a message: in quotes where it would not be seen, or would break the line.
pub fn said(value: &str) -> String {
    let plain = !value.is_empty() && value.chars().all(|letter| !letter.is_whitespace() && !letter.is_control());
    if plain { value.to_owned() } else { format!("{value:?}") }
}

impl Problem {
    /// The same of a thing that this stands in front of.
    pub fn of(self, what: &str) -> Problem {
        match self {
            Problem::Words(said) => Problem::Words(format!("{what}: {said}")),
            Problem::Refused(answer, said) => Problem::Refused(answer, format!("{what}: {said}")),
            Problem::Unread => Problem::Unread,
        }
    }

    pub fn status(&self) -> u8 {
        match self {
            Problem::Refused(..) => 1,
            Problem::Words(_) | Problem::Unread => 2,
        }
    }

    /// On standard error; where that too cannot be written, the status says it alone.
    pub fn tell(&self) {
        let _ = match self {
            Problem::Words(said) => writeln!(io::stderr(), "bhinorpa: {said}"),
            Problem::Refused(answer, said) => {
                writeln!(io::stderr(), "bhinorpa: {said} ({}, {answer})", names::name(*answer))
            }
            Problem::Unread => Ok(()),
        };
    }
}
