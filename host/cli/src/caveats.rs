//! The words of caveats. They may be mixed and repeated, and stand in the token in the order in which they stand
//! on the command line.

use std::path::Path;

use clap::{Arg, ArgAction, ArgMatches, Args, Command, FromArgMatches};

use crate::items;
use crate::order::{self, Placed};
use crate::problem::{said, Done};
use crate::values::{self, Custom, Hex, Methods, Rate};

/// What a caveat says, or all of its bytes.
#[derive(Clone, Debug)]
pub enum Value {
    Number(u64),
    Text(String),
    Methods(Methods),
    Rate(Rate),
    Truth(bool),
    Custom(Custom),
    Whole(Hex),
}

type Read = fn(&str) -> Result<Value, String>;

/// Option, what its value is called, what it means, and how it is read.
const OPTIONS: [(&str, &str, &str, Read); 13] = [
    ("exp", "TIME", "Holds up to this second, with the request's skew", seconds),
    ("nbf", "TIME", "Holds from this second on, with the request's skew", seconds),
    ("aud", "TEXT", "Holds for this audience", text),
    ("method", "GET,PUT", "Holds for these methods; '' holds for none", methods),
    ("path-prefix", "PATH", "Holds for this path and those under it: /relay/1 is not for /relay/12", text),
    ("ip-cidr", "10.0.0.0/8", "Holds for peers in this network", text),
    ("bytes-le", "N", "Holds for bodies of up to so many bytes", number),
    ("rate", "PER_S,BURST", "Holds where the host states a rate, and none above this", rate),
    ("tenant", "TID", "Holds for tokens of this tenant", text),
    ("amnesia", "true|false", "true: holds in amnesia mode; false always holds", truth),
    ("gov-policy-digest", "DIGEST", "Holds under this policy digest, 64 hex digits", digest),
    ("custom", "NS/NAME=HEX", "A caveat of one's own, with its value's CBOR; holds for nothing so far", custom),
    ("caveat", "HEX", "A whole caveat's CBOR", whole),
];

fn seconds(value: &str) -> Result<Value, String> {
    values::time(value).map(Value::Number)
}

fn number(value: &str) -> Result<Value, String> {
    values::number(value).map(Value::Number)
}

fn text(value: &str) -> Result<Value, String> {
    Ok(Value::Text(value.to_owned()))
}

fn methods(value: &str) -> Result<Value, String> {
    value.parse().map(Value::Methods)
}

fn rate(value: &str) -> Result<Value, String> {
    value.parse().map(Value::Rate)
}

fn truth(value: &str) -> Result<Value, String> {
    values::truth(value).map(Value::Truth)
}

fn digest(value: &str) -> Result<Value, String> {
    values::digest(value).map(Value::Text)
}

fn custom(value: &str) -> Result<Value, String> {
    value.parse().map(Value::Custom)
}

fn whole(value: &str) -> Result<Value, String> {
    value.parse().map(Value::Whole)
}

/// One caveat and the words that it is from.
pub type Caveat = Placed<Value>;

impl Caveat {
    /// The words as they stand on the command line.
    pub fn words(&self) -> String {
        format!("--{} {}", self.option, said(&self.said))
    }

    /// A caveat's bytes; they may be bad, and the library says so.
    pub fn bytes(&self) -> Done<Vec<u8>> {
        let v = match &self.value {
            Value::Whole(hex) => return hex.bytes(self.option),
            Value::Number(number) => items::unsigned(*number),
            Value::Text(text) => items::text(text),
            Value::Methods(list) => items::texts(&list.0),
            Value::Truth(truth) => items::truth(*truth),
            Value::Rate(Rate { per_s, burst }) => {
                let number = |number: u32| items::unsigned(number.into());
                items::map(&[("burst", number(*burst)), ("per_s", number(*per_s))])
            }
            Value::Custom(Custom { ns, name, value }) => {
                let value = value.bytes(self.option)?;
                items::map(&[("ns", items::text(ns)), ("cbor", value), ("name", items::text(name))])
            }
        };
        Ok(items::map(&[("t", items::text(&self.option.replace('-', "_"))), ("v", v)]))
    }
}

/// All caveats of a command line in their order.
#[derive(Clone, Debug)]
pub struct Caveats(pub Vec<Caveat>);

impl Caveats {
    /// The same with nothing left in files.
    pub fn read(&self) -> Done<Caveats> {
        let read = |caveat: &Caveat| {
            let value = match &caveat.value {
                Value::Whole(hex) => Value::Whole(hex.read(caveat.option)?),
                Value::Custom(custom) => {
                    Value::Custom(Custom { value: custom.value.read(caveat.option)?, ..custom.clone() })
                }
                other => other.clone(),
            };
            Ok(Caveat { value, ..caveat.clone() })
        };
        self.0.iter().map(read).collect::<Done<_>>().map(Caveats)
    }

    /// The files that they are in, and by which option.
    pub fn files(&self) -> Vec<(&'static str, &Path)> {
        let mut files = Vec::new();
        for caveat in &self.0 {
            if let Value::Whole(hex) | Value::Custom(Custom { value: hex, .. }) = &caveat.value {
                files.extend(hex.file().map(|file| (caveat.option, file)));
            }
        }
        files
    }
}

impl FromArgMatches for Caveats {
    fn from_arg_matches(matches: &ArgMatches) -> Result<Caveats, clap::Error> {
        Ok(Caveats(order::of(matches, &OPTIONS.map(|(option, ..)| option))))
    }

    fn update_from_arg_matches(&mut self, matches: &ArgMatches) -> Result<(), clap::Error> {
        *self = Caveats::from_arg_matches(matches)?;
        Ok(())
    }
}

impl Args for Caveats {
    fn augment_args(command: Command) -> Command {
        OPTIONS.into_iter().fold(command, |command, (option, value, help, read)| {
            let arg = Arg::new(option).long(option).value_name(value).help(help).help_heading("Caveats");
            command.arg(arg.action(ArgAction::Append).value_parser(read))
        })
    }

    fn augment_args_for_update(command: Command) -> Command {
        Caveats::augment_args(command)
    }
}
