//! Help, version, man page and completions, which are made from one description, and the pages of docs/ whose
//! examples are run as they stand there.

mod common;

use std::fs;
use std::path::Path;

use common::Folder;

const VERBS: [&str; 12] = [
    "table", "scope", "caveat", "issue", "narrow", "request", "verify", "bundle", "show", "hash", "man", "completions",
];

#[test]
fn the_examples_of_help_do_what_they_say() {
    let folder = Folder::new("help");
    let help = folder.good("--help");
    let examples: Vec<&str> = help.lines().filter_map(|line| line.strip_prefix("  bhinorpa ")).collect();
    let verbs: Vec<&str> = examples.iter().filter_map(|line| line.split(' ').next()).collect();
    assert_eq!(verbs, VERBS.into_iter().filter(|verb| *verb != "man").collect::<Vec<_>>());
    for example in &examples {
        let printed = folder.good(example);
        if example.starts_with("verify") {
            assert_eq!(printed, "allow\n");
        }
    }
    for (verb, example) in verbs.iter().zip(&examples) {
        for help in ["-h", "--help"] {
            let one = folder.good(&format!("{verb} {help}"));
            assert!(one.contains(&format!("Usage: bhinorpa {verb}")), "{one}");
            assert!(one.ends_with(&format!("Example:\n  bhinorpa {example}\n")), "{one}");
        }
    }
    assert!(folder.good("-h").contains("Verbs:"));
}

#[test]
fn the_version_names_the_kit() {
    let said = Folder::new("version").good("--version");
    let noted = Path::new(env!("CARGO_MANIFEST_DIR")).join("../../target/staticlib/kit");
    let kit = fs::read_to_string(noted).expect("tools/archives notes the kit");
    assert_eq!(said, format!("bhinorpa {}, proved with {kit}", env!("CARGO_PKG_VERSION")));
}

#[test]
fn the_man_page_has_every_verb_and_option() {
    let folder = Folder::new("man");
    let page = folder.good("man");
    assert!(page.contains(".TH bhinorpa 1"), "{page}");
    for verb in VERBS {
        assert!(page.contains(&format!(".SS {verb}\n")), "{verb}");
        let help = folder.good(&format!("{verb} -h"));
        let words = help.split_whitespace().filter(|word| word.starts_with("--") && *word != "--help");
        for option in words.map(|word| word.trim_end_matches(['.', ',', ';', ')'])) {
            assert!(page.contains(&option.replace('-', "\\-")), "{verb} {option}");
        }
    }
}

#[test]
fn completions_know_the_words() {
    let folder = Folder::new("completions");
    for shell in ["bash", "zsh", "fish"] {
        let made = folder.good(&format!("completions {shell}"));
        for word in ["table", "replace", "gov-policy-digest", "token-text"] {
            assert!(made.contains(word), "{shell}: {word}");
        }
    }
    // bash itself takes them, and offers the verbs that begin so.
    let asked = "COMP_WORDS=(bhinorpa ver); COMP_CWORD=1; _bhinorpa bhinorpa ver bhinorpa; echo ${COMPREPLY[@]}";
    let offered = folder.good(&format!("completions bash >made && bash -c '. ./made; {asked}'"));
    assert_eq!(offered, "verify\n");
}
