//! Tables, scopes and tokens' texts, made from words. What is made may be bad: the library says so.

use std::fs::File;
use std::io::Read;
use std::path::Path;

use crate::files;
use crate::problem::{refused, wrong, Done};
use crate::values::Ids;
use crate::words::{ScopeWords, TableWords, TokenWords};
use crate::{items, library, records};

/// A row to be laid, and the word that it is from.
#[derive(PartialEq, Eq, PartialOrd, Ord)]
pub struct Laid {
    pub ids: Ids,
    pub key: Vec<u8>,
    pub word: &'static str,
}

/// A table's rows: those of other tables, those with a key, and those to which a fresh key is given, all in the
/// order that a table must have.
pub fn rows(words: &TableWords) -> Done<Vec<Laid>> {
    let mut rows = Vec::new();
    for file in &words.from {
        rows.extend(records::rows(&table(file)?).into_iter().map(|(ids, key)| Laid { ids, key, word: "--from" }));
    }
    for ids in &words.drop {
        let before = rows.len();
        rows.retain(|row| row.ids != *ids);
        if rows.len() == before {
            return wrong(format!("--drop {ids}: --from has no such row"));
        }
    }
    for row in &words.row {
        rows.push(Laid { ids: row.ids.clone(), key: row.key.bytes("row")?, word: "--row" });
    }
    for ids in &words.new {
        rows.push(Laid { ids: ids.clone(), key: fresh_key()?, word: "--new" });
    }
    rows.sort();
    Ok(rows)
}

/// A table that is there, and good.
pub fn table(file: &Path) -> Done<Vec<u8>> {
    let table = files::read(file, files::TABLE)?;
    match library::table_answer(&table) {
        0 => Ok(table),
        answer => refused(answer, format!("the table in {}", files::named(file)), None),
    }
}

fn fresh_key() -> Done<Vec<u8>> {
    let mut key = vec![0; 32];
    let done = File::open("/dev/urandom").and_then(|mut source| source.read_exact(&mut key));
    done.or_else(|error| wrong(format!("no key could be drawn from /dev/urandom: {error}")))?;
    Ok(key)
}

/// A scope's bytes, made from its words.
pub fn scope(words: &ScopeWords) -> Done<Vec<u8>> {
    if words.methods.is_none() {
        return wrong("--methods is missing: a scope lists its methods, '' for none");
    }
    Ok(scope_of(words))
}

pub fn scope_of(words: &ScopeWords) -> Vec<u8> {
    let prefix = words.prefix.iter().map(|prefix| ("prefix", items::text(prefix)));
    let methods = words.methods.iter().map(|methods| ("methods", items::texts(&methods.0)));
    let most = words.max_bytes.iter().map(|most| ("max_bytes", items::unsigned(*most)));
    items::map(&prefix.chain(methods).chain(most).collect::<Vec<_>>())
}

impl TokenWords {
    pub fn there(&self) -> bool {
        self.token.is_some() || self.token_text.is_some()
    }

    /// The token's text, and how the token is called in messages.
    pub fn text(&self) -> Done<(Vec<u8>, String)> {
        match (&self.token, &self.token_text) {
            (Some(file), _) => Ok((files::line(file, files::TEXT)?, format!("the token in {}", files::named(file)))),
            (None, text) => Ok((text.clone().unwrap_or_default().into_bytes(), "the token of --token-text".to_owned())),
        }
    }
}
