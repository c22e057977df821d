//! Sources of Rattle as far as changes need them: tokens, functions, declared types.

use std::collections::HashMap;
use std::ops::Range;

/// A token of a source, by its place.
#[derive(Clone)]
pub struct Token {
    pub at: Range<usize>,
    pub sort: Sort,
}

#[derive(Clone, Copy, PartialEq)]
pub enum Sort {
    Word,
    Number,
    Byte,
    Quoted,
    Mark,
}

/// A function that has a body.
pub struct Function {
    pub name: String,
    pub body: Vec<Token>,
}

/// What is declared: the types of parameters by a function's name, of fields by a struct's.
#[derive(Default)]
pub struct Declared {
    pub parameters: HashMap<String, Vec<Vec<String>>>,
    pub fields: HashMap<String, Vec<(String, String)>>,
}

fn is_word(byte: u8) -> bool {
    byte.is_ascii_alphanumeric() || byte == b'_'
}

/// The length of the run from `start` on of bytes that pass.
fn run(bytes: &[u8], start: usize, pass: impl Fn(u8) -> bool) -> usize {
    bytes[start..]
        .iter()
        .take_while(|byte| pass(**byte))
        .count()
}

/// The length of what is quoted from `start` on, with both its quotes.
fn quoted(bytes: &[u8], start: usize) -> usize {
    let quote = bytes[start];
    let mut at = start + 1;
    while at < bytes.len() && bytes[at] != quote {
        at += if bytes[at] == b'\\' { 2 } else { 1 };
    }
    at + 1 - start
}

/// The tokens of a part of a source; comments are passed over.
pub fn tokens(source: &str, part: Range<usize>) -> Vec<Token> {
    let bytes = &source.as_bytes()[..part.end];
    let long = [
        "<=", ">=", "==", "!=", "&&", "||", "+=", "-=", "*=", "=>", "->", "::", "..",
    ];
    let mut found = Vec::new();
    let mut at = part.start;
    while at < bytes.len() {
        let byte = bytes[at];
        let rest = &bytes[at..];
        if byte.is_ascii_whitespace() {
            at += 1;
            continue;
        }
        if rest.starts_with(b"//") {
            at += run(bytes, at, |byte| byte != b'\n');
            continue;
        }
        let (sort, len) = if rest.starts_with(b"b'") {
            (Sort::Byte, 1 + quoted(bytes, at + 1))
        } else if rest.starts_with(b"b\"") {
            (Sort::Quoted, 1 + quoted(bytes, at + 1))
        } else if byte.is_ascii_digit() {
            (Sort::Number, run(bytes, at, is_word))
        } else if is_word(byte) {
            (Sort::Word, run(bytes, at, is_word))
        } else if long.iter().any(|mark| rest.starts_with(mark.as_bytes())) {
            (Sort::Mark, 2)
        } else {
            (Sort::Mark, run(bytes, at + 1, |byte| byte >= 0x80) + 1)
        };
        let range = at..at + len;
        found.push(Token { at: range, sort });
        at += len;
    }
    found
}

/// Where a declaration's own word, as `fn`, stands in a line, after `pub` and the like.
fn declared(line: &str, word: &str) -> Option<String> {
    let mut words = line
        .trim_start()
        .split(' ')
        .skip_while(|each| ["pub", "extern", "\"C\""].contains(each) && *each != word);
    if words.next() != Some(word) {
        return None;
    }
    let name: String = words
        .next()?
        .bytes()
        .take_while(|byte| is_word(*byte))
        .map(char::from)
        .collect();
    Some(name)
}

/// The functions of a source, as `rt fmt` lays it out: a body ends with the first `}` below that
/// stands as deep as the function's head.
pub fn functions(source: &str) -> Vec<Function> {
    let mut found: Vec<Function> = Vec::new();
    let mut head: Option<(String, String)> = None;
    let mut start = None;
    let mut at = 0;
    for line in source.split_inclusive('\n') {
        let text = line.trim_end();
        if let (None, Some(name)) = (&head, declared(text, "fn")) {
            let depth = text.len() - text.trim_start().len();
            head = Some((name, text[..depth].to_string()));
        }
        if let Some((name, depth)) = &head {
            let contract = ["ensures", "requires"];
            let contract = contract
                .iter()
                .any(|word| text.trim_start().starts_with(word));
            if start.is_none() && !contract && text.ends_with('{') {
                start = Some(at + line.len());
            } else if let (Some(from), true) = (start, text == format!("{depth}}}")) {
                let body = tokens(source, from..at);
                let name = name.clone();
                found.push(Function { name, body });
                head = None;
                start = None;
            }
        }
        at += line.len();
    }
    found
}

/// What stands between brackets, separated at the commas that are in no brackets of their own.
/// `open` is the place of the first bracket among the tokens.
pub fn parts(tokens: &[Token], source: &str, open: usize) -> (Vec<Range<usize>>, usize) {
    let mut parts = Vec::new();
    let mut depth = 0;
    let mut from = open + 1;
    for (index, token) in tokens.iter().enumerate().skip(open) {
        match &source[token.at.clone()] {
            "(" | "[" | "{" => depth += 1,
            ")" | "]" | "}" => depth -= 1,
            "," if depth == 1 => {
                parts.push(from..index);
                from = index + 1;
            }
            _ => {}
        }
        if depth == 0 {
            if from < index {
                parts.push(from..index);
            }
            return (parts, index);
        }
    }
    (Vec::new(), tokens.len())
}

/// The text of some tokens.
pub fn text<'a>(tokens: &[Token], source: &'a str, range: &Range<usize>) -> &'a str {
    &source[tokens[range.start].at.start..tokens[range.end - 1].at.end]
}

impl Declared {
    /// Takes in what a source declares.
    pub fn read(&mut self, source: &str) {
        let all = tokens(source, 0..source.len());
        for (index, token) in all.iter().enumerate() {
            let word = &source[token.at.clone()];
            if (word != "fn" && word != "struct") || index + 2 >= all.len() {
                continue;
            }
            let name = source[all[index + 1].at.clone()].to_string();
            let open = (index + 2..all.len()).find(|k| "({;".contains(&source[all[*k].at.clone()]));
            let Some(open) = open else { continue };
            let (parts, _) = parts(&all, source, open);
            let typed: Vec<(String, String)> = parts
                .iter()
                .map(|part| typed(text(&all, source, part)))
                .collect();
            if word == "struct" {
                self.fields.insert(name, typed);
            } else {
                let types = typed.into_iter().map(|(_, sort)| sort).collect();
                self.parameters.entry(name).or_default().push(types);
            }
        }
    }

    /// Whether parameters `i` and `j` of a function with a name and so many have one type.
    pub fn alike(&self, name: &str, count: usize, i: usize, j: usize) -> bool {
        let known = self.parameters.get(name);
        known.is_some_and(|all| {
            all.iter()
                .any(|types| types.len() == count && types[i] == types[j])
        })
    }
}

/// Name and type of a parameter or a field.
fn typed(declaration: &str) -> (String, String) {
    match declaration.split_once(": ") {
        Some((name, sort)) => {
            let name = name.rsplit(' ').next().unwrap_or(name);
            (name.to_string(), sort.to_string())
        }
        None => (declaration.to_string(), declaration.to_string()),
    }
}
