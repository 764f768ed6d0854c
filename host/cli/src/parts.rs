//! The words of a bundle's parts. They may be mixed and repeated, and each record stands in the bundle where its
//! words stand on the command line.

use std::path::{Path, PathBuf};

use clap::builder::{PathBufValueParser, TypedValueParser, ValueParser};
use clap::{Arg, ArgAction, ArgMatches, Args, Command, FromArgMatches, Parser};

use crate::order::{self, Placed};
use crate::problem::{said, wrong, Done};
use crate::refusal;
use crate::request::{self, RequestWords};

/// What a record is made from.
#[derive(Clone, Debug)]
pub enum Part {
    File(PathBuf),
    Asked(Box<RequestWords>),
    Text(String),
}

const OPTIONS: [(&str, &str, &str); 5] = [
    ("table", "FILE", "A key table, for the tokens behind it; may be repeated"),
    ("request", "FILE", "A request, for the tokens behind it; may be repeated"),
    ("ask", "WORDS", "The same from the words of the verb request, as one value; may be repeated"),
    ("token", "FILE", "A token to judge; may be repeated"),
    ("token-text", "TEXT", "A token's text itself; may be repeated"),
];

/// All parts in their order.
#[derive(Clone, Debug)]
pub struct Parts(pub Vec<Placed<Part>>);

impl FromArgMatches for Parts {
    fn from_arg_matches(matches: &ArgMatches) -> Result<Parts, clap::Error> {
        Ok(Parts(order::of(matches, &OPTIONS.map(|(option, ..)| option))))
    }

    fn update_from_arg_matches(&mut self, matches: &ArgMatches) -> Result<(), clap::Error> {
        *self = Parts::from_arg_matches(matches)?;
        Ok(())
    }
}

impl Parts {
    /// What is wrong with these words, before anything is read.
    pub fn judged(&self) -> Done<()> {
        if self.0.is_empty() {
            return wrong("there is nothing to lay into the bundle: --table, --request, --ask, --token or --token-text");
        }
        self.0.iter().try_for_each(|part| match &part.value {
            Part::Asked(words) => request::made(words).map(drop).map_err(|problem| problem.of(&named(part))),
            _ => Ok(()),
        })
    }

    /// The files that they are in, and by which option.
    pub fn files(&self) -> Vec<(&'static str, &Path)> {
        let mut files = Vec::new();
        for part in &self.0 {
            if let Part::File(file) = &part.value {
                files.push((part.option, file.as_path()));
            }
        }
        files
    }
}

/// A part as it stands on the command line.
pub fn named(part: &Placed<Part>) -> String {
    format!("--{} {}", part.option, said(&part.said))
}

impl Args for Parts {
    fn augment_args(command: Command) -> Command {
        OPTIONS.into_iter().fold(command, |command, (option, value, help)| {
            let read: ValueParser = match option {
                "ask" => ValueParser::new(asked),
                "token-text" => ValueParser::new(|text: &str| Ok::<_, String>(Part::Text(text.to_owned()))),
                _ => PathBufValueParser::new().map(Part::File).into(),
            };
            let arg = Arg::new(option).long(option).value_name(value).help(help).help_heading("Records, in order");
            // The words of a request begin as options do.
            let hyphens = option == "ask";
            command.arg(arg.action(ArgAction::Append).value_parser(read).allow_hyphen_values(hyphens))
        })
    }

    fn augment_args_for_update(command: Command) -> Command {
        Parts::augment_args(command)
    }
}

/// A command line of its own inside one word: no value that a request may have has a blank in it.
#[derive(Parser)]
#[command(no_binary_name = true, disable_help_flag = true)]
struct Asked {
    #[command(flatten)]
    request: RequestWords,
}

fn asked(words: &str) -> Result<Part, String> {
    let read = Asked::try_parse_from(words.split_whitespace());
    read.map(|asked| Part::Asked(Box::new(asked.request))).map_err(|error| refusal::said(&error))
}
