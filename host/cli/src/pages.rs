//! The man page and the completions, made from the description of the command line.

use clap::{Arg, Command, CommandFactory};
use clap_complete::Shell;
use roff::{bold, italic, roman, Roff};

use crate::words::{Words, EXAMPLES};

const NAME: &str = "bhinorpa";

fn description() -> Command {
    let mut command = Words::command();
    command.build();
    command
}

pub fn completions(shell: Shell) -> Vec<u8> {
    let mut made = Vec::new();
    clap_complete::generate(shell, &mut Words::command(), NAME, &mut made);
    made
}

pub fn man() -> Vec<u8> {
    let command = description();
    let mut page = Roff::new();
    page.control("TH", [NAME, "1"]);
    page.control("SH", ["NAME"]);
    page.text([roman(format!("{NAME} - {}", about(&command).to_lowercase()))]);
    page.control("SH", ["SYNOPSIS"]);
    let front = [bold(NAME), roman(" "), italic("VERB"), roman(" ["), bold("--OPTION"), roman(" "), italic("VALUE")];
    let rest = [roman("]... ["), italic("WORD"), roman("]")];
    page.text(front.into_iter().chain(rest).collect::<Vec<_>>());
    page.control("SH", ["DESCRIPTION"]);
    let long = command.get_long_about().map(ToString::to_string).unwrap_or_default();
    for paragraph in long.split("\n\n") {
        page.control("PP", []);
        page.text([roman(paragraph)]);
    }
    page.control("SH", ["VERBS"]);
    for verb in command.get_subcommands() {
        verb_on(&mut page, verb);
    }
    page.control("SH", ["EXAMPLES"]);
    page.text([roman("Each with what those before it made:")]);
    page.control("nf", []);
    page.text(EXAMPLES.iter().map(|(_, line)| roman(format!("{line}\n"))).collect::<Vec<_>>());
    page.control("fi", []);
    page.render().into_bytes()
}

fn about(command: &Command) -> String {
    command.get_about().map(ToString::to_string).unwrap_or_default()
}

fn verb_on(page: &mut Roff, verb: &Command) {
    page.control("SS", [verb.get_name()]);
    let said = verb.get_long_about().or(verb.get_about()).map(ToString::to_string).unwrap_or_default();
    page.text([roman(said.replace("\n\n", ". "))]);
    for arg in verb.get_arguments().filter(|arg| !arg.is_hide_set() && arg.get_id() != "help") {
        page.control("TP", []);
        page.text(head(arg));
        page.text([roman(arg.get_help().map(ToString::to_string).unwrap_or_default())]);
    }
}

/// An option's name and what its value is called.
fn head(arg: &Arg) -> Vec<roff::Inline> {
    let value: String = arg.get_value_names().unwrap_or_default().iter().map(ToString::to_string).collect();
    match arg.get_long() {
        Some(long) if arg.get_action().takes_values() => vec![bold(format!("--{long}")), roman(" "), italic(value)],
        Some(long) => vec![bold(format!("--{long}"))],
        None => vec![italic(value)],
    }
}
