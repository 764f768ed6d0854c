//! What is wrong with a command line, in one sentence that names the option and its value.

use std::error::Error as _;

use clap::error::{ContextKind, ContextValue, ErrorKind};
use clap::Error;

use crate::problem::said as said_value;

/// One sentence for an error of the command line.
pub fn said(error: &Error) -> String {
    let arg = names(error, ContextKind::InvalidArg);
    let value = said_value(&texts(error, ContextKind::InvalidValue).join(" "));
    match error.kind() {
        ErrorKind::ArgumentConflict => conflict(&arg, &names(error, ContextKind::PriorArg)),
        ErrorKind::MissingRequiredArgument => {
            let are = if texts(error, ContextKind::InvalidArg).len() > 1 { "are" } else { "is" };
            format!("{arg} {are} missing")
        }
        ErrorKind::ValueValidation => {
            let why = error.source().map(ToString::to_string).unwrap_or_default();
            format!("{}: {why}", without_key(&arg, &value))
        }
        ErrorKind::InvalidValue if texts(error, ContextKind::ValidValue).is_empty() => format!("{arg} needs a value"),
        ErrorKind::InvalidValue => {
            let known = texts(error, ContextKind::ValidValue).join(", ");
            format!("{arg} {value}: one of these is needed: {known}")
        }
        ErrorKind::TooManyValues => format!("{arg} takes no value, and {value} stands there"),
        ErrorKind::UnknownArgument => unknown(&arg, &texts(error, ContextKind::SuggestedArg).join(" ")),
        ErrorKind::InvalidSubcommand => {
            format!("there is no verb {}", texts(error, ContextKind::InvalidSubcommand).join(" "))
        }
        ErrorKind::MissingSubcommand | ErrorKind::DisplayHelpOnMissingArgumentOrSubcommand => {
            "a verb is missing".to_owned()
        }
        ErrorKind::InvalidUtf8 => "a word is not UTF-8".to_owned(),
        _ => first_line(error),
    }
}

fn conflict(arg: &str, prior: &str) -> String {
    if prior == arg {
        return format!("{arg} stands twice, and may stand once");
    }
    format!("{arg} and {prior} cannot stand together")
}

fn unknown(arg: &str, near: &str) -> String {
    let near = if near.is_empty() { String::new() } else { format!("; there is {near}") };
    let short = arg.starts_with('-') && !arg.starts_with("--");
    let dash = if short { "; a value that begins with - is written --option=VALUE" } else { "" };
    format!("{arg} is no word of this verb{near}{dash}")
}

/// The option and its value, of which a key is left out: one with a wrong digit is a secret all the same, and
/// messages go into logs.
fn without_key(arg: &str, value: &str) -> String {
    match (arg, value.split_once('=')) {
        ("--key", _) => arg.to_owned(),
        ("--row", Some((ids, _))) => format!("{arg} {ids}"),
        _ => format!("{arg} {value}"),
    }
}

fn first_line(error: &Error) -> String {
    let all = error.to_string();
    all.lines().next().unwrap_or_default().trim_start_matches("error: ").to_owned()
}

fn texts(error: &Error, kind: ContextKind) -> Vec<String> {
    match error.context().find(|(known, _)| *known == kind).map(|(_, value)| value) {
        Some(ContextValue::String(text)) => vec![text.clone()],
        Some(ContextValue::Strings(texts)) => texts.clone(),
        _ => vec![],
    }
}

/// The options' names without what their values are called; of a group, which is written <--a <A>|--b <B>>, all.
fn names(error: &Error, kind: ContextKind) -> String {
    let names = texts(error, kind);
    let cut = |name: &str| {
        let name = name.split(' ').next().unwrap_or_default();
        name.trim_start_matches('<').trim_end_matches('>').trim_end_matches("...").to_owned()
    };
    let of_one = |name: &String| match name.starts_with("<--") {
        true => name.split('|').map(cut).collect::<Vec<_>>().join(" or "),
        false => cut(name),
    };
    names.iter().map(of_one).collect::<Vec<_>>().join(", ")
}
