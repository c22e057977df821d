//! What the grammar admits at a refusal 4, in the terminals and words of document 01.

use crate::grammar::{expected, Expected, Symbol};
use crate::token::WORDS;

/// A terminal: document 01's words for it, and which tokens are its own.
pub struct Terminal {
    pub words: String,
    pub tokens: Vec<Symbol>,
}

/// What is told where the text may end.
pub const END: &str = "the end of the text";

fn code(word: &str) -> u8 {
    let at = WORDS.iter().position(|known| *known == word);
    at.expect("a known word") as u8 + 1
}

/// The terminals, in the order of the proved call's flags.
pub fn terminals() -> Vec<Terminal> {
    let mut all = Vec::new();
    let mut add = |words: &str, tokens: Vec<Symbol>| {
        all.push(Terminal {
            words: words.to_string(),
            tokens,
        })
    };
    let from_to = |from: &str, to: &str| (code(from)..=code(to)).map(Symbol::Word).collect();
    add("a name", vec![Symbol::Name]);
    add("a kind", from_to("OS", "NM"));
    add("a kind followed by _TYPE", from_to("OS_TYPE", "NM_TYPE"));
    add("an integer type", from_to("UINT32", "INT64"));
    for word in "OIL_VERSION IMPLEMENTATION CPU STRING BOOLEAN ENUM FLOAT".split(' ') {
        add(word, from_to(word, word));
    }
    add("a number", vec![Symbol::Number]);
    add("a string", vec![Symbol::Quoted]);
    add("a float", vec![Symbol::Float]);
    for word in "TRUE FALSE AUTO NO_DEFAULT WITH_AUTO".split(' ') {
        add(word, from_to(word, word));
    }
    for sign in "{ } [ ] = ; : , ..".split(' ') {
        let token = Symbol::Punctuator(sign.as_bytes()[0]);
        add(&format!("`{sign}`"), vec![token]);
    }
    all
}

/// The words for what is expected, the end's last. Of a kind's or type's words all are expected,
/// or none is.
pub fn in_words(expected: &Expected) -> Vec<String> {
    let mut found = Vec::new();
    let mut told = 0;
    for terminal in terminals() {
        let is_told = |token: &&Symbol| expected.tokens.contains(token);
        let count = terminal.tokens.iter().filter(is_told).count();
        assert!(count == 0 || count == terminal.tokens.len(), "{expected:?}");
        told += count;
        if count > 0 {
            found.push(terminal.words);
        }
    }
    assert_eq!(told, expected.tokens.len(), "{expected:?}");
    if expected.end {
        found.push(END.to_string());
    }
    found
}

/// The words in a row: `a`, `a or b`, `a, b or c`.
pub fn in_a_row(words: &[String]) -> String {
    match words.split_last() {
        Some((last, [])) => last.clone(),
        Some((last, others)) => format!("{} or {last}", others.join(", ")),
        None => String::new(),
    }
}

/// What is expected where a text is refused with 4, as `oil_explain` tells it.
pub fn told(text: &[u8]) -> Option<String> {
    let expected = expected(text)?;
    Some(format!("expected {}", in_a_row(&in_words(&expected))))
}
