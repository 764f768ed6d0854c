//! What the words alone can tell: a command that cannot be done is refused before anything is read.

use std::path::{Path, PathBuf};

use crate::caveats::Caveats;
use crate::files::is_input;
use crate::out::Out;
use crate::problem::{wrong, Done};
use crate::values::Hex;
use crate::words::{ShowWords, TableWords, TokenWords, Verb};
use crate::{make, request};

/// The one word that belongs to no option.
const FILE: &str = "FILE";

/// A file that is read, and the option that names it.
type Input<'a> = (&'static str, &'a Path);

pub fn judged(verb: &Verb) -> Done<()> {
    out(verb).map_or(Ok(()), Out::judged)?;
    one_reader(&inputs(verb))?;
    match verb {
        Verb::Table(words) => drops(words),
        Verb::Scope(words) => make::scope(&words.scope).map(drop),
        Verb::Caveat(words) => some(&words.caveats),
        Verb::Issue(words) if words.scope_hex.is_none() => make::scope(&words.scope).map(drop),
        Verb::Narrow(words) => some(&words.caveats).and_then(|()| there(&words.token)),
        Verb::Request(words) => request::made(&words.request).map(drop),
        Verb::Verify(words) if words.file.is_none() => {
            there(&words.token).and_then(|()| request::made(&words.request).map(drop))
        }
        Verb::Verify(words) => there(&words.token),
        Verb::Bundle(words) => words.parts.judged(),
        Verb::Show(words) => shown(words),
        _ => Ok(()),
    }
}

fn out(verb: &Verb) -> Option<&Out> {
    match verb {
        Verb::Table(words) => Some(&words.out),
        Verb::Scope(words) => Some(&words.out),
        Verb::Caveat(words) => Some(&words.out),
        Verb::Issue(words) => Some(&words.out),
        Verb::Narrow(words) => Some(&words.out),
        Verb::Request(words) => Some(&words.out),
        Verb::Verify(words) => Some(&words.out),
        Verb::Bundle(words) => Some(&words.out),
        Verb::Show(words) => Some(&words.out),
        Verb::Hash(words) => Some(&words.out),
        Verb::Man | Verb::Completions { .. } => None,
    }
}

fn inputs(verb: &Verb) -> Vec<Input<'_>> {
    match verb {
        Verb::Table(words) => {
            let from = words.from.iter().map(|file| ("from", file.as_path()));
            from.chain(words.row.iter().filter_map(|row| in_hex("row", Some(&row.key)))).collect()
        }
        Verb::Caveat(words) => words.caveats.files(),
        Verb::Issue(words) => {
            let table = [("table", words.table.as_path())].into_iter();
            table.chain(in_hex("scope", words.scope_hex.as_ref())).chain(words.caveats.files()).collect()
        }
        Verb::Narrow(words) => {
            let table = [("table", words.table.as_path())].into_iter();
            table.chain(in_file("token", &words.token.token)).chain(words.caveats.files()).collect()
        }
        Verb::Verify(words) => {
            let table = [("table", words.table.as_path())].into_iter();
            table.chain(in_file("token", &words.token.token)).chain(in_file("request", &words.file)).collect()
        }
        Verb::Bundle(words) => words.parts.files(),
        Verb::Show(words) => {
            let files = [("table", &words.table), ("token", &words.token.token), ("request", &words.request)];
            let files = files.into_iter().chain([("bundle", &words.bundle)]);
            let hex = [("scope", words.scope.as_ref()), ("caveat", words.caveat.as_ref())];
            let hex = hex.into_iter().filter_map(|(option, hex)| in_hex(option, hex));
            files.filter_map(|(option, file)| in_file(option, file)).chain(hex).collect()
        }
        Verb::Hash(words) => {
            in_hex("key", Some(&words.key)).into_iter().chain([(FILE, words.file.as_path())]).collect()
        }
        Verb::Scope(_) | Verb::Request(_) | Verb::Man | Verb::Completions { .. } => vec![],
    }
}

fn in_file<'a>(option: &'static str, file: &'a Option<PathBuf>) -> Option<Input<'a>> {
    file.as_deref().map(|file| (option, file))
}

fn in_hex<'a>(option: &'static str, hex: Option<&'a Hex>) -> Option<Input<'a>> {
    hex.and_then(Hex::file).map(|file| (option, file))
}

/// Standard input has one thing in it, so one word may have it.
fn one_reader(inputs: &[Input<'_>]) -> Done<()> {
    let named = |word: &str| if word == FILE { word.to_owned() } else { format!("--{word}") };
    let words: Vec<String> = inputs.iter().filter(|(_, file)| is_input(file)).map(|(word, _)| named(word)).collect();
    if words.len() > 1 {
        return wrong(format!("{}: standard input has one thing in it", words.join(" and ")));
    }
    Ok(())
}

fn drops(words: &TableWords) -> Done<()> {
    let twice = (1..words.drop.len()).find(|&at| words.drop[..at].contains(&words.drop[at]));
    match twice.map(|at| &words.drop[at]) {
        Some(ids) => wrong(format!("--drop {ids} stands twice, and may stand once")),
        None => Ok(()),
    }
}

fn some(caveats: &Caveats) -> Done<()> {
    if caveats.0.is_empty() { wrong("there is no caveat: --exp, --method or another is needed") } else { Ok(()) }
}

fn there(token: &TokenWords) -> Done<()> {
    if token.there() { Ok(()) } else { wrong("--token FILE or --token-text TEXT is missing") }
}

fn shown(words: &ShowWords) -> Done<()> {
    let files = [&words.table, &words.request, &words.bundle].iter().any(|file| file.is_some());
    if files || words.token.there() || words.scope.is_some() || words.caveat.is_some() {
        return Ok(());
    }
    wrong("show needs --table, --request, --token, --token-text, --scope, --caveat or --bundle")
}
