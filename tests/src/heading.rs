//! Document 02, Q-7: the version string, without its quotes, and the implementation's name of a
//! text, or a refusal; and texts for it.

use crate::grammar::{stage, Stage};
use crate::heavy::Heavy;
use crate::including;
use crate::meaning::Refusal;
use crate::random::Random;
use crate::texts::{self, Shape};
use crate::token::{step, Sort, Step, Token, WORDS};
use crate::{answered, configuration::configuration};
use std::ops::Range;

/// What is told of a text: where its version string, without its quotes, and its
/// implementation's name stand.
#[derive(Clone, Debug, PartialEq, Eq)]
pub struct Heading {
    pub version: Range<usize>,
    pub name: Range<usize>,
}

/// "Refusal 2 comes first." Then: "if the full reading's refusal 3, 4 or 5 lies at or before
/// that brace, or there is none, that same number and place, otherwise the answer."
pub fn heading(text: &[u8]) -> Result<Heading, Refusal> {
    if text.len() > 65_535 {
        return Err(Refusal {
            number: 2,
            place: 0,
        });
    }
    match (stage(text), front(text)) {
        (Stage::Refused { number, place }, Some((_, brace))) if place <= brace => {
            Err(Refusal { number, place })
        }
        (_, Some((heading, _))) => Ok(heading),
        (Stage::Refused { number, place }, None) => Err(Refusal { number, place }),
        (Stage::Passes, None) => unreachable!("what the grammar derives has such a brace"),
    }
}

/// The heading by "the tokens through the brace after the implementation's name", and that
/// brace's place; nothing where the text does not begin with such tokens.
fn front(text: &[u8]) -> Option<(Heading, usize)> {
    let mut tokens = Tokens { text, place: 0 };
    tokens.word("OIL_VERSION")?;
    tokens.sign(b'=')?;
    let version = tokens.string()?;
    let mut sign = tokens.next()?;
    if sign.sort == Sort::Punctuator(b':') {
        tokens.string()?;
        sign = tokens.next()?;
    }
    (sign.sort == Sort::Punctuator(b';')).then_some(())?;
    tokens.word("IMPLEMENTATION")?;
    let name = tokens.next()?;
    matches!(name.sort, Sort::Word(code) if !(1..=5).contains(&code)).then_some(())?;
    let brace = tokens.sign(b'{')?;
    let heading = Heading {
        version: version.place + 1..version.place + version.length - 1,
        name: name.place..name.place + name.length,
    };
    Some((heading, brace.place))
}

/// The tokens of a text, one by one.
struct Tokens<'a> {
    text: &'a [u8],
    place: usize,
}

impl Tokens<'_> {
    fn next(&mut self) -> Option<Token> {
        let Step::Token(token, next) = step(self.text, self.place) else {
            return None;
        };
        self.place = next;
        Some(token)
    }

    fn word(&mut self, word: &str) -> Option<()> {
        let token = self.next()?;
        let end = token.place + token.length;
        (&self.text[token.place..end] == word.as_bytes()).then_some(())
    }

    fn sign(&mut self, byte: u8) -> Option<Token> {
        self.next()
            .filter(|token| token.sort == Sort::Punctuator(byte))
    }

    fn string(&mut self) -> Option<Token> {
        self.next().filter(|token| token.sort == Sort::Quoted)
    }
}

/// The line that the program `oil_heading` writes for a text under a name, where no file can be
/// opened that it includes.
pub fn line(name: &[u8], text: &[u8]) -> Vec<u8> {
    let mut line = shown(name);
    line.push(b'\t');
    match including::heading(&including::alone(text)) {
        Ok([version, name]) => {
            line.extend(shown(&version.bytes));
            line.push(b'\t');
            line.extend(shown(&name.bytes));
            line.push(b'\n');
        }
        Err(refused) => line.extend(refused.line().bytes()),
    }
    line
}

/// Bytes as the program shows them: plain characters of ASCII but `\` as they are, each other
/// byte as `\x` and two hex digits.
pub fn shown(bytes: &[u8]) -> Vec<u8> {
    let mut shown = Vec::new();
    for &byte in bytes {
        match byte {
            b' '..=b'~' if byte != b'\\' => shown.push(byte),
            _ => shown.extend(format!("\\x{byte:02x}").bytes()),
        }
    }
    shown
}

/// The tokens of a front, through its brace: any string as version, any name, with a
/// description or without one.
pub fn front_tokens(random: &mut Random) -> Vec<Vec<u8>> {
    let mut tokens: Vec<Vec<u8>> = vec![b"OIL_VERSION".to_vec(), b"=".to_vec(), string(random)];
    if random.once_in(3) {
        tokens.extend([b":".to_vec(), string(random)]);
    }
    tokens.extend([b";".to_vec(), b"IMPLEMENTATION".to_vec()]);
    tokens.push(match random.below(3) {
        0 => b"m".to_vec(),
        1 => WORDS[random.from_to(5, WORDS.len() - 1)]
            .as_bytes()
            .to_vec(),
        _ => {
            let length = random.from_to(0, 12);
            let rest = (0..length).map(|_| random.pick_byte(b"abzABZ019_"));
            [b'n'].into_iter().chain(rest).collect()
        }
    });
    tokens.push(b"{".to_vec());
    tokens
}

/// A string: 2.5 or another version, or any bytes but a quote.
fn string(random: &mut Random) -> Vec<u8> {
    let mut inside = match random.below(4) {
        0 => b"2.5".to_vec(),
        1 => random
            .pick(&["2.4", "", "2.5 ", "{", "// 2.5", "\t\n\\"])
            .as_bytes()
            .to_vec(),
        _ => {
            let length = random.below(12);
            texts::bytes(random, length)
        }
    };
    inside.retain(|&byte| byte != b'"');
    [b"\"", &inside[..], b"\""].concat()
}

/// What may stand after the brace: nothing, the rest of a text, deep braces, no token, or
/// anything else.
pub fn behind(random: &mut Random) -> Vec<u8> {
    let length = random.below(60);
    match random.below(10) {
        0 => Vec::new(),
        1 => b" OS {}; }; CPU c { OS o; APPMODE a; };".to_vec(),
        2 => b"{".repeat(length),
        3 => random
            .pick(&["#", "/*", "\"", "007", "}", " CPU", "1.5x", "//"])
            .as_bytes()
            .to_vec(),
        4 => texts::bytes(random, length),
        5 => texts::chosen_bytes(random, length),
        6 => texts::soup(random, length / 4),
        7 => b"OS { ENUM [A ".repeat(random.below(20)),
        8 => texts::likely(random),
        _ => b" ".repeat(length),
    }
}

/// A text with a front, and anything after its brace.
pub fn with_front(seed: u64) -> Vec<u8> {
    let random = &mut Random::new(seed);
    let tokens = front_tokens(random);
    let mut text = texts::spaced(random, &tokens);
    text.extend(behind(random));
    text
}

/// A text whose front has a fault: a token of it is another, is left out, comes twice or has
/// another before it; or a byte of it is another.
pub fn with_faulty_front(seed: u64) -> Vec<u8> {
    let random = &mut Random::new(seed);
    let tokens = front_tokens(random);
    let mut text = match random.below(3) {
        0 => {
            let front = texts::spaced(random, &tokens);
            texts::damaged(random, &front)
        }
        1 => {
            let mut tokens = tokens;
            let place = random.below(tokens.len());
            let bad = random.pick(&["#", "007", "1.5x", "1.5", "/* x", "\"x", "AUTO", "."]);
            tokens.insert(place, bad.as_bytes().to_vec());
            texts::spaced(random, &tokens)
        }
        _ => {
            let tokens = texts::one_token_off(random, &tokens);
            texts::spaced(random, &tokens)
        }
    };
    text.extend(behind(random));
    text
}

/// A text that the grammar derives, accepted or not.
pub fn derived(seed: u64) -> Vec<u8> {
    let random = &mut Random::new(seed);
    if random.once_in(2) {
        return answered::accepted(seed).text;
    }
    let shape = Shape::flat([15, 60], [1, 4], random);
    let tokens = texts::derived(random, shape);
    texts::spaced(random, &tokens)
}

/// Texts of a length: a front and then blanks, no tokens or any bytes; a front at the very
/// end; a long version, name, description and comment; a text of that length that is accepted.
pub fn of_length(length: usize) -> Vec<Vec<u8>> {
    let front = b"OIL_VERSION = \"2.5\"; IMPLEMENTATION m {".to_vec();
    let left = length - front.len();
    let noise = texts::bytes(&mut Random::new(7), left);
    let mut all: Vec<Vec<u8>> = [vec![b' '; left], vec![b'#'; left], vec![b'{'; left], noise]
        .into_iter()
        .map(|behind| [&front[..], &behind].concat())
        .collect();
    all.push([&vec![b'\n'; left][..], &front].concat());
    let long = |before: &str, byte: u8, after: &str| {
        let left = length - before.len() - after.len();
        [before.as_bytes(), &vec![byte; left], after.as_bytes()].concat()
    };
    all.push(long("OIL_VERSION=\"", b'v', "\";IMPLEMENTATION m{"));
    all.push(long("OIL_VERSION=\"2.5\":\"", b'd', "\";IMPLEMENTATION m{"));
    all.push(long("OIL_VERSION=\"2.5\";IMPLEMENTATION ", b'n', "{"));
    all.push(long("OIL_VERSION=\"2.5\";IMPLEMENTATION ", b'n', ""));
    all.push(long("OIL_VERSION=\"2.5\";/*", b'*', "*/IMPLEMENTATION m{"));
    all.push(long("OIL_VERSION=\"", b'v', ""));
    let mut accepted = configuration(length).into_bytes();
    accepted.resize(length, b' ');
    all.push(accepted);
    all
}

/// A heading in front of nothing, and in front of 60,000 bytes, for counting what it costs; and
/// what a front can cost at most.
pub fn heavy() -> Vec<Heavy> {
    let front = "OIL_VERSION = \"2.5\"; IMPLEMENTATION m {";
    let rest = configuration(60_000 - 1);
    let accepted = &rest[rest.find('{').expect("a brace") + 1..];
    let behind = [
        ("a heading in front of nothing", String::new()),
        (
            "a heading in front of an accepted text's rest",
            accepted.to_string(),
        ),
        ("a heading in front of 60,000 blanks", " ".repeat(60_000)),
        (
            "a heading in front of a comment of 60,000 bytes",
            format!("/*{}*/", "*".repeat(59_996)),
        ),
        ("a heading in front of 60,000 braces", "{".repeat(60_000)),
        (
            "a heading in front of 60,000 bytes of no token",
            "#".repeat(60_000),
        ),
    ];
    let mut all: Vec<Heavy> = behind
        .into_iter()
        .map(|(name, behind)| Heavy {
            name,
            text: format!("{front}{behind}").into_bytes(),
            number: 0,
        })
        .collect();
    let comment = "*".repeat(65_000);
    all.push(Heavy {
        name: "a front with a comment of 65,000 bytes",
        text: format!("OIL_VERSION = \"2.5\"; /*{comment}*/ IMPLEMENTATION m {{").into_bytes(),
        number: 0,
    });
    all
}
