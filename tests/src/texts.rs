//! Generators of texts. The same seed gives always the same text.

use crate::grammar::{grammar, Symbol, RULES};
use crate::random::Random;
use crate::token::WORDS;
use std::sync::OnceLock;

/// Words that look like known ones, and other ordinary ones.
const ORDINARY: [&str; 24] = [
    "TASK_TYPF",
    "TASKS",
    "task",
    "TASK_TYPE_",
    "_TASK",
    "TAS",
    "Task",
    "TRUE_",
    "TRU",
    "false",
    "FALSEE",
    "AUTO_",
    "NODEFAULT",
    "WITHAUTO",
    "OIL_VERSIOM",
    "IMPLEMENTATIONS",
    "CPU_TYPE",
    "FLOATS",
    "UINT16",
    "NETWORKMESSAGE_TYP",
    "a",
    "_",
    "x1",
    "A_very_long_word_with_0123456789_in_it",
];

/// Runs that are numbers, that nearly are, and the bounds of what they may be.
const NUMBERS: [&str; 44] = [
    "0",
    "+0",
    "-0",
    "00",
    "007",
    "-01",
    "+",
    "-",
    "--5",
    "+-1",
    "1",
    "7",
    "+7",
    "-7",
    "10",
    "255",
    "256",
    "1u",
    "1_0",
    "1e5",
    "12ab",
    "0x",
    "0X1",
    "0x0",
    "0xff",
    "0xFf",
    "0xG",
    "0x1g",
    "-0x1",
    "+0x1",
    "0x000000000000000000000000000001",
    "0xffffffffffffffff",
    "0xFFFFFFFFFFFFFFFF",
    "0x10000000000000000",
    "4294967295",
    "4294967296",
    "-2147483648",
    "-2147483649",
    "9223372036854775807",
    "9223372036854775808",
    "18446744073709551615",
    "18446744073709551616",
    "-9223372036854775808",
    "-9223372036854775809",
];

/// Runs that are floats, that nearly are, and the bounds of what they may be.
const FLOATS: [&str; 56] = [
    "0.0",
    "-0.0",
    "+0.0e-64",
    "1.5",
    "1.50",
    "15.0e-1",
    "-1.5",
    "+1.0",
    "007.5",
    "1.0e5",
    "1.0E+5",
    "1.0e-064",
    "1.0e0000000064",
    "1.0e64",
    "1.0e65",
    "1.0e-64",
    "1.0e-65",
    "1.0E064",
    "1.0e-065",
    "1.0e128",
    "1.0e18446744073709551616",
    "12345678901234567.8",
    "1.23456789012345678",
    "123456789.012345678",
    "123456789.0123456789",
    "1.234567890123456789",
    "123456789012345678.9",
    "00000000000000000.0",
    "000000000000000000.0",
    "99999999999999999.9e64",
    "0.00000000000000001e-64",
    "0x1.5",
    "0x.5",
    "1a.5",
    "1_.5",
    "1.5x",
    "1.5_",
    "1.5e",
    "1.5E",
    "1.5e+",
    "1.5e-",
    "1.5e+x",
    "1.5e+5e+6",
    "1.5e5e5",
    "1.5ee+5",
    "1.5xe+5",
    "1.5e_5",
    "1.5e5+3",
    "1.5-3",
    "1.5.5",
    "1.5..2.5",
    "1.e5",
    "1.",
    ".5",
    "+.5",
    "-1.5e-5-1.5",
];

/// What may stand between tokens, and what nearly may.
const GAPS: [&str; 20] = [
    " ",
    "\n",
    "\t",
    "\r\n",
    "\x0b",
    "\x0c",
    "   ",
    "",
    "/**/",
    "/* a */",
    "/*/*/",
    "/***/",
    "/* \" */",
    "/* { // */",
    "//\n",
    "// a \" /* b\n",
    "// a\r b\\\n",
    "/",
    "/ /",
    "* /",
];

/// Ends that swallow what follows them.
const UNENDED: [&str; 7] = ["/*", "/*/", "/* *", "//", "// a\r", "\"", "\"a"];

const STRINGS: [&str; 9] = [
    "\"\"",
    "\"2.5\"",
    "\"a b\"",
    "\"/* a\"",
    "\"// a\"",
    "\"\\\"",
    "\"\n\"",
    "\"\0\"",
    "\"TRUE { } ;\"",
];

const PUNCTUATORS: [&str; 12] = [
    "{", "}", "[", "]", "=", ";", ":", ",", "..", "...", ".", "....",
];

/// Random bytes.
pub fn bytes(random: &mut Random, length: usize) -> Vec<u8> {
    (0..length).map(|_| random.byte()).collect()
}

/// Random bytes of those that the token rules name, so that tokens touch one another.
pub fn chosen_bytes(random: &mut Random, length: usize) -> Vec<u8> {
    const CHOICES: &[u8] =
        b"//**\"\"..{}[]=;:,+-01290xXaAeEfFgG_T \t\r\n\x0b\x0c#\\'\0\x7f\x80\xff";
    (0..length).map(|_| random.pick_byte(CHOICES)).collect()
}

/// Random bytes of very few, so that comments, strings and dots meet often.
pub fn few_bytes(random: &mut Random, length: usize) -> Vec<u8> {
    let choices: &[u8] = random.pick(&[
        &b"/* \n"[..],
        b"/*\"",
        b"\"a\n/",
        b".1 ",
        b"-+0x1",
        b"0x1aF_",
        b"019+-.",
        b"1.e+x0",
        b"05.eE-",
        b"a_0Z ",
    ]);
    (0..length).map(|_| random.pick_byte(choices)).collect()
}

/// Every run of these bytes, up to so many of them.
pub fn every_run(choices: &[u8], longest: usize) -> Vec<Vec<u8>> {
    let mut runs: Vec<Vec<u8>> = vec![Vec::new()];
    let mut first = 0;
    for _ in 0..longest {
        for index in first..runs.len() {
            for &byte in choices {
                runs.push([&runs[index][..], &[byte]].concat());
            }
            first += 1;
        }
    }
    runs
}

/// A word of the known ones, of their near misses, or one made of random run bytes.
fn word(random: &mut Random) -> Vec<u8> {
    match random.below(6) {
        0..=2 => random.pick(&WORDS).as_bytes().to_vec(),
        3 => random.pick(&ORDINARY).as_bytes().to_vec(),
        4 => {
            let known = random.pick(&WORDS).as_bytes();
            damaged(random, known)
        }
        _ => {
            let length = random.from_to(1, 6);
            (0..length)
                .map(|_| random.pick_byte(b"abzABZ019_"))
                .collect()
        }
    }
}

/// A number, something near a bound of the values, or a random run after a sign.
fn number(random: &mut Random) -> Vec<u8> {
    let near = |random: &mut Random, bound: u128| bound + random.below(4) as u128 - 2;
    match random.below(8) {
        0..=3 => random.pick(&NUMBERS).as_bytes().to_vec(),
        4 => near(random, 1 << 64).to_string().into_bytes(),
        5 => format!("-{}", near(random, 1 << 63)).into_bytes(),
        6 => {
            let digits = random.from_to(14, 19);
            let hex = b"0123456789abcdefABCDEF";
            let digits = (0..digits).map(|_| random.pick_byte(hex));
            b"0x".iter().copied().chain(digits).collect()
        }
        _ => {
            let sign = random.pick(&["", "", "+", "-"]).bytes();
            let digits: Vec<u8> = (0..random.from_to(1, 22))
                .map(|_| random.pick_byte(b"0123456789"))
                .collect();
            sign.chain(digits).collect()
        }
    }
}

/// A float, something near it, or digits around a dot.
pub fn float(random: &mut Random) -> Vec<u8> {
    match random.below(6) {
        0 | 1 => random.pick(&FLOATS).as_bytes().to_vec(),
        2 => {
            let text = random.pick(&FLOATS).as_bytes();
            damaged(random, text)
        }
        _ => around_a_dot(random).into_bytes(),
    }
}

/// Random digits around a dot, about as many as there may be, often with an exponent, about as
/// great as it may be.
fn around_a_dot(random: &mut Random) -> String {
    let all = match random.below(3) {
        0 => random.from_to(17, 20),
        _ => random.from_to(2, 18),
    };
    let digits = (0..all).map(|_| random.pick_byte(b"0123456789"));
    let mut text: String = digits.map(char::from).collect();
    text.insert(random.from_to(1, all - 1), '.');
    text.insert_str(0, random.pick(&["", "", "+", "-"]));
    if random.once_in(2) {
        let exponent = match random.below(3) {
            0 => random.below(30),
            _ => random.from_to(62, 66),
        };
        text += random.pick(&["e", "E"]);
        text += random.pick(&["", "+", "-"]);
        text += random.pick(&["", "", "0", "00000"]);
        text += &exponent.to_string();
    }
    text
}

/// A string that ends.
fn string(random: &mut Random) -> Vec<u8> {
    if random.once_in(2) {
        return random.pick(&STRINGS).as_bytes().to_vec();
    }
    let length = random.below(9);
    let mut inside = bytes(random, length);
    inside.retain(|&byte| byte != b'"');
    [b"\"", &inside[..], b"\""].concat()
}

/// Tokens of all sorts, and near misses of them, in any order.
pub fn soup(random: &mut Random, tokens: usize) -> Vec<u8> {
    let mut text = Vec::new();
    for _ in 0..tokens {
        text.extend(match random.below(10) {
            0..=2 => word(random),
            3 => number(random),
            4 => float(random),
            5 => string(random),
            6..=8 => random.pick(&PUNCTUATORS).as_bytes().to_vec(),
            _ if random.once_in(6) => random.pick(&UNENDED).as_bytes().to_vec(),
            _ => Vec::new(),
        });
        if !random.once_in(4) {
            text.extend(random.pick(&GAPS).bytes());
        }
    }
    text
}

/// A text with one byte or more deleted, inserted, replaced or swapped, or cut off.
pub fn damaged(random: &mut Random, text: &[u8]) -> Vec<u8> {
    let mut text = text.to_vec();
    for _ in 0..random.from_to(1, 2) {
        let place = random.below(text.len() + 1);
        let byte = chosen_bytes(random, 1)[0];
        match random.below(6) {
            _ if place == text.len() => text.push(byte),
            0 | 1 => {
                text.remove(place);
            }
            2 => text.insert(place, byte),
            3 => text[place] = byte,
            4 => {
                let other = random.below(text.len());
                text.swap(place, other);
            }
            _ => text.truncate(place),
        }
    }
    text
}

/// What a derivation should be like: about how many tokens, the most braces open at once,
/// and a rule under which it should go down to that depth.
pub struct Shape {
    pub tokens: usize,
    pub deepest: usize,
    pub steep: Option<&'static str>,
}

impl Shape {
    /// So many tokens and so deep, each from the first number to the second; steep or not.
    pub fn any(tokens: [usize; 2], deepest: [usize; 2], random: &mut Random) -> Shape {
        let flat = Shape::flat(tokens, deepest, random);
        let steep = [None, Some("implementation"), Some("application")][random.below(3)];
        Shape { steep, ..flat }
    }

    /// The same, steep under no rule.
    pub fn flat(tokens: [usize; 2], deepest: [usize; 2], random: &mut Random) -> Shape {
        Shape {
            tokens: random.from_to(tokens[0], tokens[1]),
            deepest: random.from_to(deepest[0], deepest[1]),
            steep: None,
        }
    }
}

/// The tokens of a random derivation by the grammar, with no regard to the meaning.
pub fn derived(random: &mut Random, shape: Shape) -> Vec<Vec<u8>> {
    let mut derivation = Derivation {
        random,
        shape,
        is_steep: false,
        open: 0,
        tokens: Vec::new(),
    };
    derivation.derive(Symbol::Rule(0));
    derivation.tokens
}

/// What a rule or a form of one needs and may do.
#[derive(Clone, Copy, Default, PartialEq, Eq)]
struct Need {
    /// The fewest tokens that it derives.
    tokens: usize,
    /// The fewest braces that it has open at once.
    braces: usize,
    /// Whether it can have a brace at all.
    opens: bool,
}

/// The needs of each rule, found by asking again and again until nothing changes.
fn needs() -> &'static [Need] {
    static FOUND: OnceLock<Vec<Need>> = OnceLock::new();
    FOUND.get_or_init(|| {
        let start = Need {
            tokens: 1_000,
            braces: 1_000,
            opens: false,
        };
        let mut needs = vec![start; RULES.len()];
        loop {
            let again: Vec<Need> = grammar()
                .forms
                .iter()
                .map(|forms| {
                    let each: Vec<Need> = forms.iter().map(|form| need(form, &needs)).collect();
                    Need {
                        tokens: each.iter().map(|need| need.tokens).min().unwrap_or(0),
                        braces: each.iter().map(|need| need.braces).min().unwrap_or(0),
                        opens: each.iter().any(|need| need.opens),
                    }
                })
                .collect();
            if again == needs {
                return needs;
            }
            needs = again;
        }
    })
}

/// What a form needs, by the needs of its rules.
fn need(form: &[Symbol], needs: &[Need]) -> Need {
    let mut open = 0;
    let mut whole = Need::default();
    for &symbol in form {
        match symbol {
            Symbol::Rule(rule) => {
                whole.tokens += needs[rule].tokens;
                whole.braces = whole.braces.max(open + needs[rule].braces);
                whole.opens |= needs[rule].opens;
                continue;
            }
            Symbol::Punctuator(b'{') => open += 1,
            Symbol::Punctuator(b'}') => open -= 1,
            _ => (),
        }
        whole.tokens += 1;
        whole.braces = whole.braces.max(open);
        whole.opens |= open > 0;
    }
    whole
}

struct Derivation<'a> {
    random: &'a mut Random,
    shape: Shape,
    is_steep: bool,
    open: usize,
    tokens: Vec<Vec<u8>>,
}

impl Derivation<'_> {
    fn derive(&mut self, symbol: Symbol) {
        let Symbol::Rule(rule) = symbol else {
            self.token(symbol);
            return;
        };
        self.is_steep |= RULES[rule].split(':').next() == self.shape.steep;
        for &symbol in self.choose(&grammar().forms[rule]) {
            self.derive(symbol);
        }
    }

    /// A form that fits under the deepest brace: one that leads down where the derivation
    /// should be steep, the shortest one where there are tokens enough, else any.
    fn choose<'f>(&mut self, forms: &'f [Vec<Symbol>]) -> &'f [Symbol] {
        let need = |form: &[Symbol]| need(form, needs());
        let fits = |form: &&[Symbol]| self.open + need(form).braces <= self.shape.deepest;
        let fitting: Vec<&[Symbol]> = forms.iter().map(Vec::as_slice).filter(fits).collect();
        let down = |form: &&[Symbol]| need(form).opens;
        let down: Vec<&[Symbol]> = fitting.iter().copied().filter(down).collect();
        if self.is_steep && !down.is_empty() {
            return self.random.pick(&down);
        }
        if self.tokens.len() >= self.shape.tokens {
            let shortest = fitting.iter().min_by_key(|form| need(form).tokens);
            return shortest.expect("a form that fits");
        }
        self.random.pick(&fitting)
    }

    fn token(&mut self, symbol: Symbol) {
        match symbol {
            Symbol::Punctuator(b'{') => self.open += 1,
            Symbol::Punctuator(b'}') => self.open -= 1,
            _ => (),
        }
        self.is_steep &= self.open < self.shape.deepest;
        let token = a_token(self.random, symbol);
        self.tokens.push(token);
    }
}

/// A token that may stand where a symbol, which is no rule, does.
fn a_token(random: &mut Random, symbol: Symbol) -> Vec<u8> {
    const NAMES: [&str; 9] = [
        "a",
        "b",
        "c1",
        "TASK",
        "UINT32",
        "CPU",
        "n_2",
        "ENUM",
        "OIL_VERSION",
    ];
    let token = match symbol {
        Symbol::Word(code) => WORDS[code as usize - 1],
        Symbol::Name => random.pick(&NAMES),
        Symbol::Number => random.pick(&["0", "1", "-5", "0x1F", "255", "+3", "-0"]),
        Symbol::Float => random.pick(&["0.0", "1.5", "-0.0", "15.0e-1", "-2.50E+1", "1.0e-64"]),
        Symbol::Quoted => random.pick(&["\"2.5\"", "\"\"", "\"}\"", "\"//\""]),
        Symbol::Punctuator(b'.') => "..",
        Symbol::Punctuator(byte) => return vec![byte],
        Symbol::Rule(_) => unreachable!("a rule is no token"),
    };
    token.into()
}

/// A token of any sort.
pub fn any_token(random: &mut Random) -> Vec<u8> {
    let symbol = match random.below(10) {
        0..=2 => Symbol::Word(random.from_to(1, WORDS.len()) as u8),
        3 | 4 => Symbol::Name,
        5 if random.once_in(2) => Symbol::Float,
        5 => Symbol::Number,
        6 => Symbol::Quoted,
        _ => Symbol::Punctuator(random.pick_byte(b"{}[]=;:,.")),
    };
    a_token(random, symbol)
}

/// One token for each that the grammar can tell from the others.
pub fn every_token() -> impl Iterator<Item = &'static [u8]> {
    let others = [
        "a", "1", "1.5", "\"a\"", "{", "}", "[", "]", "=", ";", ":", ",", "..",
    ];
    WORDS.into_iter().chain(others).map(str::as_bytes)
}

/// A list of tokens with one token deleted, inserted, replaced, or swapped with the next
/// or with any other.
pub fn one_token_off(random: &mut Random, tokens: &[Vec<u8>]) -> Vec<Vec<u8>> {
    let mut tokens = tokens.to_vec();
    let place = random.below(tokens.len());
    match random.below(6) {
        0 => {
            tokens.remove(place);
        }
        1 => tokens.insert(place, any_token(random)),
        2 | 3 => tokens[place] = any_token(random),
        4 => {
            let next = (place + 1) % tokens.len();
            tokens.swap(place, next);
        }
        _ => {
            let other = random.below(tokens.len());
            tokens.swap(place, other);
        }
    }
    tokens
}

/// The tokens with random blanks and comments between them, or with nothing where they
/// stay apart without.
pub fn spaced(random: &mut Random, tokens: &[Vec<u8>]) -> Vec<u8> {
    const BETWEEN: [&str; 14] = [
        "", "", "", "", " ", " ", " ", "\n", "\r\n", "\t", "\x0b", "\x0c", "/* a */", "//b\n",
    ];
    let run =
        |byte: Option<&u8>| byte.is_some_and(|&byte| byte.is_ascii_alphanumeric() || byte == b'_');
    let mut text = Vec::new();
    for token in tokens {
        let touch = run(text.last()) && run(token.first());
        let between = match random.pick(&BETWEEN) {
            "" if touch => " ",
            between => between,
        };
        text.extend(between.bytes());
        text.extend(token);
    }
    text
}

/// A text of the grammar's shape, and no regard to the meaning.
pub fn likely(random: &mut Random) -> Vec<u8> {
    let shape = Shape::flat([20, 150], [2, 5], random);
    let tokens = derived(random, shape);
    spaced(random, &tokens)
}

/// A text for the token readers, of one of all shapes above, short or longer.
pub fn any(seed: u64) -> Vec<u8> {
    let random = &mut Random::new(seed);
    let length = match random.below(4) {
        0 => random.below(6),
        1 | 2 => random.below(24),
        _ => random.below(300),
    };
    match random.below(12) {
        0 => bytes(random, length),
        1 | 2 => chosen_bytes(random, length),
        3 | 4 => few_bytes(random, length),
        5 => word(random),
        6 if random.once_in(2) => float(random),
        6 => number(random),
        7 | 8 => soup(random, length / 2),
        9 => {
            let text = soup(random, length / 2);
            damaged(random, &text)
        }
        10 => likely(random),
        _ => {
            let text = likely(random);
            damaged(random, &text)
        }
    }
}

/// A long text: some thousands of bytes, of several shapes one after the other.
pub fn long(seed: u64) -> Vec<u8> {
    let random = &mut Random::new(seed);
    let mut text = Vec::new();
    while text.len() < 4_000 {
        text.extend(match random.below(5) {
            0 => soup(random, 40),
            1 => likely(random),
            2 => chosen_bytes(random, 40),
            3 => random.pick(&GAPS).repeat(200).into_bytes(),
            _ => b"1".repeat(200),
        });
    }
    text
}

#[cfg(test)]
mod tests {
    use super::*;
    use crate::token::{step, Step};

    #[test]
    fn a_seed_gives_one_text() {
        for seed in 0..50 {
            assert_eq!(any(seed), any(seed));
        }
    }

    #[test]
    fn likely_texts_divide_into_tokens() {
        for seed in 0..200 {
            let text = likely(&mut Random::new(seed));
            let mut place = 0;
            while let Step::Token(_, next) = step(&text, place) {
                place = next;
            }
            assert_eq!(step(&text, place), Step::End(text.len()));
        }
    }
}
