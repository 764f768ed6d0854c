//! The one description of the command line. What is taken, the help, the man page and the completions are all
//! made from it.

use std::path::PathBuf;

use clap::{ArgGroup, Args, Parser, Subcommand};
use clap_complete::Shell;

use crate::caveats::Caveats;
use crate::out::Out;
use crate::parts::Parts;
use crate::request::{self, RequestWords};
use crate::values::{self, Hex, Ids, Methods, Row};

const VERSION: &str = concat!(env!("CARGO_PKG_VERSION"), ", proved with ", env!("BHINORPA_KIT"));

const LONG: &str = "\
Makes, narrows and judges capability tokens for relay modules. Every judgement is the library's:
this tool lays bytes from words, calls the library and says its answer.

FILE may be - for standard input, once in a command. HEX is digits of either case, @FILE or -.
Times are written 2026-01-01T00:00:00Z, in seconds since 1970, or +30d from now (s, m, h, d, w).
A value that begins with - is written --option=VALUE. One newline at the end of a token's or a
hex file is not part of it.

Every word is used, or the command is refused with nothing read or written; only --help and
--version leave other words alone. The status is 0; 1 where the library refuses or denies; 2
where the words are wrong or a file cannot be read or written. A file is written whole or not
at all.";

/// The verbs' examples in an order in which each finds what it needs; the tests run them.
pub const EXAMPLES: [(&str, &str); 11] = [
    ("table", "bhinorpa table --new workshop/kid-2025-10 --new contractor/kid-2025-11 --out keys"),
    ("scope", "bhinorpa scope --methods GET,PUT --prefix /relay/1 --max-bytes 512"),
    ("caveat", "bhinorpa caveat --exp 2026-01-01T00:00:00Z"),
    (
        "issue",
        "bhinorpa issue --table keys --tid workshop --kid kid-2025-10 --methods GET,PUT --prefix /relay/1 \
         --exp +30d --out token",
    ),
    ("narrow", "bhinorpa narrow --table keys --token token --method GET --ip-cidr 10.0.0.0/8 --out child"),
    ("request", "bhinorpa request --method GET --path /relay/1/count --tenant workshop --peer 10.1.2.3 --out asked"),
    ("verify", "bhinorpa verify --table keys --token child --request asked"),
    ("bundle", "bhinorpa bundle --table keys --request asked --token token --token child --out rack.bundle"),
    ("show", "bhinorpa show --token child --table keys"),
    ("hash", "bhinorpa hash --key 77686174732074686520456c7669736820776f726420666f7220667269656e64 token"),
    ("completions", "bhinorpa completions bash"),
];

/// What stands behind a verb's help.
fn example(verb: &str) -> String {
    EXAMPLES.iter().filter(|(of, _)| *of == verb).map(|(_, line)| format!("Example:\n  {line}")).collect()
}

fn examples() -> String {
    let lines = EXAMPLES.iter().map(|(_, line)| format!("\n  {line}"));
    format!("Examples, each with what those before it made:{}", lines.collect::<String>())
}

#[derive(Parser, Debug)]
#[command(
    name = "bhinorpa",
    version = VERSION,
    about = "Makes, narrows and judges capability tokens for relay modules",
    long_about = LONG,
    after_long_help = examples(),
    disable_help_subcommand = true,
    subcommand_value_name = "VERB",
    subcommand_help_heading = "Verbs"
)]
pub struct Words {
    #[command(subcommand)]
    pub verb: Verb,
}

#[derive(Subcommand, Debug)]
pub enum Verb {
    /// Makes a key table from fresh keys, given keys and the rows of other tables
    ///
    /// Whoever has the file can make tokens: keep it as you keep keys. A file that is there already is kept,
    /// unless its rows are read too (--from) or --replace says so.
    #[command(after_help = example("table"))]
    Table(TableWords),
    /// Prints a scope's bytes in hex
    #[command(after_help = example("scope"))]
    Scope(ScopeVerb),
    /// Prints the bytes of caveats in hex, each on a line
    #[command(after_help = example("caveat"))]
    Caveat(CaveatVerb),
    /// Makes a token for a scope, and narrows it by the caveats that are there
    #[command(after_help = example("issue"))]
    Issue(Box<IssueWords>),
    /// Makes a child of a token, narrowed by caveats
    #[command(after_help = example("narrow"))]
    Narrow(NarrowWords),
    /// Makes a request, of this moment unless --now says another
    #[command(after_help = example("request"))]
    Request(RequestVerb),
    /// Prints allow, or deny and the reason's name
    ///
    /// The request is --request FILE, or made from the words of the verb request.
    #[command(after_help = example("verify"))]
    Verify(VerifyWords),
    /// Lays tables, requests and tokens one behind the other into a bundle, as they stand on the command line
    ///
    /// Each is judged by itself first, and one that is bad is refused; --as-is takes it all the same.
    #[command(after_help = example("bundle"))]
    Bundle(BundleWords),
    /// Says in words what a file or hex holds, a line for each field
    ///
    /// Of a token it is said that its tag was not judged or, with --table, whether key and tag are right.
    #[command(after_help = example("show"))]
    Show(ShowWords),
    /// Prints the keyed BLAKE3 of a file of up to 8,192 bytes
    #[command(after_help = example("hash"))]
    Hash(HashWords),
    /// Prints the man page
    Man,
    /// Prints completions for a shell
    #[command(after_help = example("completions"))]
    Completions {
        /// The shell they are for
        shell: Shell,
    },
}

#[derive(Args, Debug)]
#[command(group(ArgGroup::new("rows").required(true).multiple(true).args(["from", "row", "new"])))]
pub struct TableWords {
    /// Takes the rows of a table that is there; may be repeated
    #[arg(long, value_name = "FILE")]
    pub from: Vec<PathBuf>,

    /// Leaves out a row of those that --from took; may be repeated
    #[arg(long, value_name = "TID/KID", requires = "from")]
    pub drop: Vec<Ids>,

    /// A row with a key of 64 hex digits, or @FILE or - that has them; may be repeated
    #[arg(long, value_name = "TID/KID=KEY")]
    pub row: Vec<Row>,

    /// A row with a key that is drawn at random; may be repeated
    #[arg(long, value_name = "TID/KID")]
    pub new: Vec<Ids>,

    #[command(flatten)]
    pub out: Out,
}

#[derive(Args, Clone, Debug, Default)]
pub struct ScopeWords {
    /// The methods that it is for (needed); '' for none
    #[arg(long, value_name = "GET,PUT", help_heading = "Scope")]
    pub methods: Option<Methods>,

    /// The path that it is for, with those under it: /relay/1 is not for /relay/12
    #[arg(long, value_name = "PATH", help_heading = "Scope")]
    pub prefix: Option<String>,

    /// How large a body may be
    #[arg(long, value_name = "N", value_parser = values::number, help_heading = "Scope")]
    pub max_bytes: Option<u64>,
}

#[derive(Args, Debug)]
pub struct ScopeVerb {
    #[command(flatten)]
    pub scope: ScopeWords,

    #[command(flatten)]
    pub out: Out,
}

#[derive(Args, Debug)]
pub struct CaveatVerb {
    #[command(flatten)]
    pub caveats: Caveats,

    #[command(flatten)]
    pub out: Out,
}

#[derive(Args, Debug)]
pub struct IssueWords {
    /// The key table
    #[arg(long, value_name = "FILE", required = true)]
    pub table: PathBuf,

    /// The tenant whose token it is
    #[arg(long, value_name = "TID", required = true)]
    pub tid: String,

    /// The name of the key in the table
    #[arg(long, value_name = "KID", required = true)]
    pub kid: String,

    #[command(flatten)]
    pub scope: ScopeWords,

    /// The scope's CBOR in hex, in the place of its words
    #[arg(
        id = "scope",
        long = "scope",
        value_name = "HEX",
        help_heading = "Scope",
        conflicts_with_all = ["methods", "prefix", "max_bytes"]
    )]
    pub scope_hex: Option<Hex>,

    #[command(flatten)]
    pub caveats: Caveats,

    #[command(flatten)]
    pub out: Out,
}

#[derive(Args, Debug)]
#[command(group(ArgGroup::new("token words").args(["token", "token_text"])))]
pub struct TokenWords {
    /// The file with the token's text
    #[arg(long, value_name = "FILE")]
    pub token: Option<PathBuf>,

    /// The token's text itself
    #[arg(long, value_name = "TEXT")]
    pub token_text: Option<String>,
}

#[derive(Args, Debug)]
pub struct NarrowWords {
    /// The key table
    #[arg(long, value_name = "FILE", required = true)]
    pub table: PathBuf,

    #[command(flatten)]
    pub token: TokenWords,

    #[command(flatten)]
    pub caveats: Caveats,

    #[command(flatten)]
    pub out: Out,
}

#[derive(Args, Debug)]
pub struct RequestVerb {
    #[command(flatten)]
    pub request: RequestWords,

    #[command(flatten)]
    pub out: Out,
}

#[derive(Args, Debug)]
pub struct VerifyWords {
    /// The key table
    #[arg(long, value_name = "FILE", required = true)]
    pub table: PathBuf,

    #[command(flatten)]
    pub token: TokenWords,

    /// The request's file, in the place of its words
    #[arg(id = "request", long = "request", value_name = "FILE", conflicts_with_all = request::WORDS)]
    pub file: Option<PathBuf>,

    #[command(flatten)]
    pub request: RequestWords,

    /// Prints one line of JSON: number, name and meaning of the answer
    #[arg(long)]
    pub json: bool,

    #[command(flatten)]
    pub out: Out,
}

#[derive(Args, Debug)]
pub struct BundleWords {
    #[command(flatten)]
    pub parts: Parts,

    /// Takes what the library refuses too
    #[arg(long)]
    pub as_is: bool,

    #[command(flatten)]
    pub out: Out,
}

#[derive(Args, Debug)]
#[command(group(ArgGroup::new("shown").args(["request", "token", "token_text", "scope", "caveat", "bundle"])))]
pub struct ShowWords {
    /// A key table; with a token, the table that its key and tag are judged by
    #[arg(long, value_name = "FILE", conflicts_with_all = ["request", "scope", "caveat", "bundle"])]
    pub table: Option<PathBuf>,

    /// Shows the table's keys too
    #[arg(
        long,
        requires = "table",
        conflicts_with_all = ["token", "token_text", "request", "scope", "caveat", "bundle"]
    )]
    pub keys: bool,

    #[command(flatten)]
    pub token: TokenWords,

    /// A request
    #[arg(long, value_name = "FILE")]
    pub request: Option<PathBuf>,

    /// A scope
    #[arg(long, value_name = "HEX")]
    pub scope: Option<Hex>,

    /// A caveat
    #[arg(long, value_name = "HEX")]
    pub caveat: Option<Hex>,

    /// A bundle, with the answer to each token
    #[arg(long, value_name = "FILE")]
    pub bundle: Option<PathBuf>,

    /// Prints JSON
    #[arg(long)]
    pub json: bool,

    #[command(flatten)]
    pub out: Out,
}

#[derive(Args, Debug)]
pub struct HashWords {
    /// The key as 64 hex digits, or @FILE or - that has them
    #[arg(long, value_name = "KEY", required = true)]
    pub key: Hex,

    /// What is hashed; - for standard input
    #[arg(value_name = "FILE", required = true)]
    pub file: PathBuf,

    #[command(flatten)]
    pub out: Out,
}
