//! Sets of lent texts (document 02, Q-10): tokens divided among texts that include each other,
//! with planted faults, at the limits, with lengths of every sort told for them, heavy ones.

use crate::configuration::configuration;
use crate::families::{tokens_of, word};
use crate::including::{Buffer, Lent, Place, Refused, LONGEST, START, TEXTS, TOO_MUCH};
use crate::random::Random;
use crate::{answered, texts};
use std::ops::Range;

/// What is lent, and what is known of the answer that `read` gives.
pub struct Set {
    pub name: String,
    pub buffer: Buffer,
    pub known: Known,
}

#[derive(Clone, Copy, Debug, PartialEq, Eq)]
pub enum Known {
    Nothing,
    Accepted,
    Refused(Refused),
}

impl Set {
    fn new(name: impl Into<String>, texts: &[Lent], known: Known) -> Set {
        Set {
            name: name.into(),
            buffer: Buffer::of(texts),
            known,
        }
    }

    fn unknown(name: impl Into<String>, texts: &[Lent]) -> Set {
        Set::new(name, texts, Known::Nothing)
    }
}

/// Names of files, odd ones too; none of them has both marks that could end it.
const NAMES: [&[u8]; 14] = [
    b"a",
    b"b",
    b"b.oil",
    b"dir/c.oil",
    b" ",
    b"//",
    b"/* d",
    b"*/",
    b"<",
    b"\"",
    b">",
    b"\xff\x00\x80",
    b"#include",
    b"\t\r\x0b",
];

/// A name that no text has.
const NO_NAME: &[u8] = b"none";

/// What may stand on an include line beside it.
fn aside(random: &mut Random, line: &mut Vec<u8>) {
    const ASIDE: [&str; 6] = [" ", "\t", "\r", "/**/", "/* \" */", "/*//*/"];
    while random.once_in(2) {
        line.extend(random.pick(&ASIDE).bytes());
    }
}

/// An include line of a name, without its LF, and the place of its `#`.
fn include_line(random: &mut Random, name: &[u8]) -> (Vec<u8>, usize) {
    let mut line = Vec::new();
    aside(random, &mut line);
    let hash = line.len();
    line.extend(b"#include");
    aside(random, &mut line);
    let is_quoted = name.contains(&b'>') || (!name.contains(&b'"') && random.once_in(2));
    let (open, close) = match is_quoted {
        true => (b'"', b'"'),
        false => (b'<', b'>'),
    };
    line.push(open);
    line.extend(name);
    line.push(close);
    aside(random, &mut line);
    if random.once_in(4) {
        line.extend(b"// \"x\" /*");
    }
    (line, hash)
}

/// Nearly an include line, which gives 29; and the place of its `#`.
fn other_hash(random: &mut Random) -> (Vec<u8>, usize) {
    const OTHERS: [&str; 14] = [
        "#",
        "# include \"a\"",
        "#include",
        "#include a",
        "#include \"a",
        "#include <a\"",
        "#include \"a>",
        "#include \"a\" x",
        "#include \"a\" \"b\"",
        "#include \"a\" /* b",
        "#include \x0b\"a\"",
        "#include \"a\" \x0c",
        "#INCLUDE \"a\"",
        "/* c\n */ #include \"a\"",
    ];
    let other = random.pick(&OTHERS);
    let hash = other.find('#').expect("each has one");
    (other.as_bytes().to_vec(), hash)
}

/// The tokens of a text, divided among texts that include each other, in the order in which they
/// are opened.
struct Division<'a> {
    random: &'a mut Random,
    words: Vec<Vec<u8>>,
    texts: Vec<Lent>,
    open: Vec<usize>,
    /// After so many tokens a fault is planted.
    fault_after: usize,
    known: Known,
}

impl Division<'_> {
    /// Puts some of the tokens into a text.
    fn fill(&mut self, number: usize, words: Range<usize>) {
        let mut text = Vec::new();
        let mut at = words.start;
        self.open.push(number);
        loop {
            let end = words.end.min(at + self.random.below(16));
            text.extend(texts::spaced(self.random, &self.words[at..end]));
            at = end;
            if at == words.end && self.random.once_in(2) {
                break;
            }
            text.push(b'\n');
            if at >= self.fault_after && self.known == Known::Accepted {
                self.plant(number, &mut text);
            }
            match self.random.below(5) {
                0..=2 if self.texts.len() < TEXTS => {
                    let more = words.end.min(at + self.random.below(40));
                    self.include(&mut text, at..more);
                    at = more;
                }
                3 => self.include_blank(&mut text),
                _ => (),
            }
            if at == words.end {
                break;
            }
        }
        self.open.pop();
        self.texts[number].text = text;
    }

    /// A new text with some of the tokens, and the line that includes it.
    fn include(&mut self, text: &mut Vec<u8>, words: Range<usize>) {
        let number = self.texts.len();
        let name = loop {
            let name = self.random.pick(&NAMES);
            if self.texts.iter().all(|lent| lent.name != name) {
                break name;
            }
        };
        self.texts.push(Lent::new(name, ""));
        let is_last = words.end == self.words.len() && self.open.len() == 1;
        self.fill(number, words);
        text.extend(include_line(self.random, name).0);
        if !is_last || self.random.once_in(2) {
            text.push(b'\n');
        }
    }

    /// A line that includes a text without tokens, which may be included many times.
    fn include_blank(&mut self, text: &mut Vec<u8>) {
        const BLANK: [&str; 6] = [
            "",
            "\n",
            "// #",
            "/* \n#include <a> */",
            " \t\r\n",
            "//\n//",
        ];
        let name: &[u8] = b"blank";
        if !self.texts.iter().any(|lent| lent.name == name) {
            if self.texts.len() == TEXTS {
                return;
            }
            let blank = self.random.pick(&BLANK);
            self.texts.push(Lent::new(name, blank));
        }
        for _ in 0..self.random.from_to(1, 3) {
            text.extend(include_line(self.random, name).0);
            text.push(b'\n');
        }
    }

    /// A fault on a line of its own. It is the first one, since the texts are made in the order
    /// in which they are expanded.
    fn plant(&mut self, text: usize, bytes: &mut Vec<u8>) {
        const NO_TOKENS: [&str; 5] = ["@", "007", "'", "\\", "1x"];
        let start = bytes.len();
        let (number, (line, hash)) = match self.random.below(4) {
            0 => {
                let line = self.random.pick(&NO_TOKENS).as_bytes().to_vec();
                (3, (line, 0))
            }
            1 => {
                let open = self.open[self.random.below(self.open.len())];
                let name = self.texts[open].name.clone();
                (27, include_line(self.random, &name))
            }
            2 => (28, include_line(self.random, NO_NAME)),
            _ => (29, other_hash(self.random)),
        };
        bytes.extend(line);
        bytes.push(b'\n');
        self.known = Known::Refused(Refused {
            number,
            place: Place {
                text,
                byte: start + hash,
            },
        });
    }
}

/// The tokens of an accepted text divided among lent texts, and what is known of these: accepted
/// as the text is, or the fault that is planted after so many tokens.
fn divided(random: &mut Random, text: &[u8], fault_after: usize) -> (Vec<Lent>, Known) {
    let words = tokens_of(text).into_iter().map(|token| word(text, &token));
    let mut division = Division {
        words: words.collect(),
        texts: vec![Lent::default()],
        open: Vec::new(),
        fault_after,
        known: Known::Accepted,
        random,
    };
    division.fill(0, 0..division.words.len());
    let Division { texts, known, .. } = division;
    let mut texts = shuffled(random, texts, known);
    more(random, &mut texts.0);
    texts
}

/// The texts after the main one in another order.
fn shuffled(random: &mut Random, texts: Vec<Lent>, known: Known) -> (Vec<Lent>, Known) {
    let mut order: Vec<usize> = (0..texts.len()).collect();
    for index in 1..texts.len() {
        order.swap(index, random.from_to(1, index));
    }
    let number = |text| order.iter().position(|other| *other == text);
    let known = match known {
        Known::Refused(Refused { number: n, place }) => Known::Refused(Refused {
            number: n,
            place: Place {
                text: number(place.text).expect("one of them"),
                ..place
            },
        }),
        known => known,
    };
    let texts = order.iter().map(|text| texts[*text].clone()).collect();
    (texts, known)
}

/// Texts that no line names, and more under names that are there already: "of equal names the
/// first counts".
fn more(random: &mut Random, texts: &mut Vec<Lent>) {
    while texts.len() < TEXTS && random.once_in(2) {
        let name = match random.once_in(2) {
            true => texts[random.below(texts.len())].name.clone(),
            false => b"unnamed".to_vec(),
        };
        let text = random.pick(&["#", "\n", "@", "/* x", "}", "#include <a>"]);
        texts.push(Lent::new(name, text));
    }
}

/// The tokens of any text, divided.
pub fn divided_text(random: &mut Random, text: &[u8]) -> Vec<Lent> {
    divided(random, text, usize::MAX).0
}

/// An accepted text, and its tokens divided among lent texts.
pub fn accepted(seed: u64) -> (Vec<u8>, Set) {
    let random = &mut Random::new(seed);
    let text = answered::accepted(seed).text;
    let (texts, known) = divided(random, &text, usize::MAX);
    (
        text,
        Set::new(format!("divided, seed {seed}"), &texts, known),
    )
}

/// The same with a fault.
pub fn with_fault(seed: u64) -> Set {
    let random = &mut Random::new(seed);
    let text = answered::accepted(seed).text;
    let fault_after = random.below(tokens_of(&text).len());
    let (texts, known) = divided(random, &text, fault_after);
    Set::new(format!("with a fault, seed {seed}"), &texts, known)
}

/// A text with a fault of a later stage, divided: its place is known, but not in which text.
pub fn with_later_fault(seed: u64) -> Set {
    const NUMBERS: [u8; 13] = [4, 6, 8, 9, 13, 14, 15, 16, 17, 18, 21, 22, 23];
    let random = &mut Random::new(seed);
    let number = NUMBERS[random.below(NUMBERS.len())];
    let made = answered::with_faults(seed, &[number]);
    let text = made.map_or_else(|| answered::accepted(seed).text, |made| made.text);
    let texts = divided_text(random, &text);
    Set::unknown(format!("fault {number}, seed {seed}"), &texts)
}

/// A set with one text cut or damaged, or with other names, or told lengths that are off.
pub fn damaged(seed: u64) -> Set {
    let random = &mut Random::new(!seed);
    let mut set = match random.once_in(3) {
        true => with_fault(seed),
        false => accepted(seed).1,
    };
    set.known = Known::Nothing;
    set.name = format!("damaged, seed {seed}");
    let mut texts = set.buffer.texts().expect("texts that are lent well");
    let number = random.below(texts.len());
    let other = random.below(texts.len());
    let length = texts[number].text.len();
    match random.below(7) {
        0 => texts[number].text.truncate(random.below(length + 1)),
        1..=3 => texts[number].text = texts::damaged(random, &texts[number].text),
        4 => texts[number].name = texts[other].name.clone(),
        5 => texts.swap(number, other),
        _ => {
            let index = random.below(set.buffer.lengths.len());
            let length = &mut set.buffer.lengths[index];
            *length = (*length + random.below(7)).saturating_sub(3);
            return set;
        }
    }
    set.buffer = Buffer::of(&texts);
    set
}

/// Texts of lines of every sort.
pub fn lines(seed: u64) -> Set {
    const OTHERS: [&str; 14] = [
        "", " ", "\r", "/* a", "b */", "// c", "\"d", "e\"", "/* f */", "*/", "/", "\x0b", "g", "{",
    ];
    let random = &mut Random::new(seed);
    let count = random.from_to(1, TEXTS);
    let names: [&[u8]; 7] = [b"a", b"b", b"b", b"c", b"d", b"", b"<"];
    let mut texts: Vec<Lent> = Vec::new();
    for number in 0..count {
        let mut text = Vec::new();
        for _ in 0..random.below(9) {
            match random.below(12) {
                0..=4 => {
                    let name = random.pick(&names[..5]);
                    text.extend(include_line(random, name).0);
                }
                5 => text.extend(other_hash(random).0),
                6 => {
                    let any = random.number();
                    text.extend(texts::any(any));
                }
                7 => {
                    let name = random.pick(&names);
                    text.extend(include_line(random, name).0);
                }
                _ => text.extend(random.pick(&OTHERS).bytes()),
            }
            text.push(b'\n');
        }
        if random.once_in(2) {
            text.pop();
        }
        let name = match number {
            0 if random.once_in(4) => b"",
            _ => random.pick(&names),
        };
        texts.push(Lent::new(name, text));
    }
    Set::unknown(format!("lines, seed {seed}"), &texts)
}

/// Lengths told for a buffer: near its end, near 2^64, more and fewer of them.
pub fn told(seed: u64) -> Set {
    let random = &mut Random::new(seed);
    let (_, mut set) = accepted(seed);
    set.known = Known::Nothing;
    set.name = format!("told lengths, seed {seed}");
    let lengths = &mut set.buffer.lengths;
    let before: usize = lengths.iter().sum();
    match random.below(6) {
        0 => {
            let count = random.below(20);
            lengths.resize(count, 0);
        }
        1 => lengths.extend((0..random.below(20)).map(|_| random.below(3))),
        _ => {
            let index = random.below(lengths.len());
            let near = [0, before, LONGEST, usize::MAX, usize::MAX / 2, 1 << 63];
            let near = near[random.below(near.len())];
            lengths[index] = match random.once_in(2) {
                true => near.wrapping_sub(random.below(70_000)),
                false => near.wrapping_sub(before).wrapping_add(random.below(4)),
            };
        }
    }
    set
}

fn blank(length: usize) -> Vec<u8> {
    vec![b' '; length]
}

/// Nothing of the blank texts is admitted: the grammar's refusal is at the main text's end.
fn too_early(main: &[u8]) -> Known {
    let byte = main.len();
    Known::Refused(Refused {
        number: 4,
        place: Place { text: 0, byte },
    })
}

/// What is known of texts that expand to so many bytes.
fn within(length: usize, known: Known) -> Known {
    match length > LONGEST {
        true => Known::Refused(TOO_MUCH),
        false => known,
    }
}

/// The lengths at the limit.
const ABOUT: [usize; 5] = [LONGEST - 2, LONGEST - 1, LONGEST, LONGEST + 1, LONGEST + 2];

/// Texts that expand to so many bytes, one byte more or less around the longest that is accepted.
pub fn limits() -> Vec<Set> {
    let mut sets = vec![Set::unknown("no text", &[])];
    for length in ABOUT {
        sets.extend(limit(length));
        sets.extend(accepted_limit(length));
    }
    for count in [7, 8, 9] {
        let texts = vec![Lent::new("", ""); count];
        let known = match count > TEXTS {
            true => Known::Refused(TOO_MUCH),
            false => too_early(b""),
        };
        sets.push(Set::new(format!("{count} texts"), &texts, known));
    }
    for (name, texts) in heavy() {
        sets.push(Set::unknown(name, &texts));
    }
    sets.extend(long_names());
    sets
}

/// Blank texts.
fn limit(length: usize) -> Vec<Set> {
    let mut sets = Vec::new();
    let mut push = |name: &str, texts: &[Lent], known: Known| {
        let name = format!("{name}, {length} bytes");
        sets.push(Set::new(name, texts, within(length, known)));
    };
    let main = blank(length);
    push("one text", &[Lent::new("", &main[..])], too_early(&main));
    let other = [Lent::new("", ""), Lent::new("a", &main[..])];
    push("a text that is not included", &other, too_early(b""));
    // The included text and an LF in place of the line.
    for (front, line, back) in [
        ("", "#include <a>\n", ""),
        ("", "#include <a>", ""),
        ("\n \n", " #include <a> \n", "\n"),
        ("//\n", "/* */ #include <a> // \n", "// a"),
    ] {
        let main = format!("{front}{line}{back}");
        let inside = length - 1 - front.len() - back.len();
        for inside in [blank(inside), [&blank(inside - 1)[..], b"\n"].concat()] {
            let known = too_early(main.as_bytes());
            push(
                &main,
                &[Lent::new("", &main[..]), Lent::new("a", inside)],
                known,
            );
        }
        // The rest of the main text is what makes it long.
        let rest = length - 1 - front.len() - back.len() - 7;
        let main = [main.as_bytes(), &blank(rest)].concat();
        if line.ends_with('\n') && !back.starts_with("//") && main.len() <= LONGEST {
            let known = too_early(&main);
            push(
                "a long rest",
                &[Lent::new("", &main[..]), Lent::new("a", "\t\t\t\n\t\t\t")],
                known,
            );
        }
    }
    // A fault leaves the lines after it unexpanded, and they count as they stand.
    let fault = |number, text, byte| {
        let place = Place { text, byte };
        Known::Refused(Refused { number, place })
    };
    let line = "#include <a>\n";
    for (front, number, byte) in [("#\n", 29, 0), ("\n@\n", 3, 1), ("#include <b>\n", 28, 0)] {
        let main = [
            front.as_bytes(),
            line.as_bytes(),
            &blank(length - front.len() - line.len()),
        ];
        let texts = [Lent::new("", main.concat()), Lent::new("a", blank(40_000))];
        push(front, &texts, fault(number, 0, byte));
    }
    for (inside, number) in [
        ("#include \"\"", 27),
        ("#include <a>", 27),
        ("'", 3),
        ("\n#", 29),
    ] {
        let rest = blank(length - inside.len() - 1);
        let main = [line.as_bytes(), &rest[..]].concat();
        if main.len() <= LONGEST {
            let texts = [Lent::new("", main), Lent::new("a", inside)];
            let byte = inside.len() - inside.trim_start().len();
            push(inside, &texts, fault(number, 1, byte));
        }
    }
    sets.extend(nested(length));
    sets
}

/// Texts of include lines alone: n of a text of m of an empty one are n * (m + 1) LFs.
fn nested(length: usize) -> Option<Set> {
    let times = (100..300).find(|times| length.is_multiple_of(*times))?;
    let main = "#include <a>\n".repeat(times);
    let inside = "#include <b>\n".repeat(length / times - 1);
    let known = within(length, too_early(main.as_bytes()));
    let texts = [
        Lent::new("", main),
        Lent::new("a", inside),
        Lent::new("b", ""),
    ];
    Some(Set::new(format!("LFs, {length} bytes"), &texts, known))
}

/// Accepted texts of so many expanded bytes.
fn accepted_limit(length: usize) -> Vec<Set> {
    let text = configuration(60_000).into_bytes();
    let cut = text.iter().position(|byte| *byte == b'\n').expect("a line") + 1;
    let (front, back) = text.split_at(cut);
    let fill = blank(length - text.len() - 1);
    let line = b"#include <a>\n";
    let main = [front, line, &fill].concat();
    let texts = [Lent::new("", main), Lent::new("a", back)];
    let known = within(length, Known::Accepted);
    vec![Set::new(format!("accepted, {length} bytes"), &texts, known)]
}

/// Names of 0 and of 60,000 bytes.
fn long_names() -> Vec<Set> {
    let mut sets = Vec::new();
    for length in [0, 1, 60_000, 65_525, 65_526, 70_000] {
        let name = vec![b'n'; length];
        let line = [b"#include<", &name[..], b">"].concat();
        let known = match length {
            0 => Known::Refused(Refused {
                number: 27,
                place: START,
            }),
            _ => within(line.len(), too_early(&line)),
        };
        let texts = [Lent::new("", &line[..]), Lent::new(&name[..], "\n")];
        sets.push(Set::new(format!("a name of {length} bytes"), &texts, known));
    }
    sets
}

/// Texts whose expansion takes much work, or would be much too long.
pub fn heavy() -> Vec<(&'static str, Vec<Lent>)> {
    let name = |number: usize| vec![b'a' + number as u8];
    let includes = |number: usize, times: usize| {
        let line = [b"#include \"", &name(number)[..], b"\"\n"].concat();
        line.repeat(times)
    };
    let chain = |times: usize, last: &[u8]| -> Vec<Lent> {
        let mut texts = vec![Lent::new("", includes(1, times))];
        for number in 1..TEXTS - 1 {
            texts.push(Lent::new(name(number), includes(number + 1, times)));
        }
        texts.push(Lent::new(name(TEXTS - 1), last));
        texts
    };
    let all = |times: usize| -> Vec<Lent> {
        let lines: Vec<u8> = (0..TEXTS).flat_map(|number| includes(number, 1)).collect();
        let text = lines.repeat(times / TEXTS);
        let lent = |number: usize| Lent::new(name(number), &text[..]);
        (0..TEXTS).map(lent).collect()
    };
    // A text that is one include line of 65,000 bytes, included 100 times by one that is included
    // 100 times.
    let long_line = |front: &str, last: &[u8]| {
        let blank = " ".repeat(65_000 - front.len() - "#include \"c\"".len());
        let line = format!("{front}{blank}#include \"c\"");
        vec![
            Lent::new("", includes(1, 100)),
            Lent::new(name(1), [&includes(3, 100)[..]].concat()),
            Lent::new(name(2), last),
            Lent::new(name(3), line),
        ]
    };
    let comments = format!("{}#include \"c\"", "/**/".repeat(16_000));
    // Each text is gone through for its include lines, whether it is included or not.
    let full = |token: &[u8]| -> Vec<Lent> {
        let text = token.repeat(LONGEST / token.len());
        let lent = |number: usize| Lent::new(name(number), &text[..]);
        (0..TEXTS).map(lent).collect()
    };
    vec![
        (
            "100 times 100 times a line of 65,000 bytes",
            long_line("", b""),
        ),
        ("the same, with a fault at the end", {
            let mut texts = long_line("", b"");
            texts[0].text.extend(b"#");
            texts
        }),
        ("100 times 100 times a line of comments", {
            let mut texts = long_line("", b"");
            texts[3].text = comments.into_bytes();
            texts
        }),
        (
            "8 texts, each 5,000 times in the one before",
            chain(5_000, b"x"),
        ),
        (
            "8 texts, each 5,000 times, the last one empty",
            chain(5_000, b""),
        ),
        (
            "8 texts, each 130 times in the one before",
            chain(130, b"x"),
        ),
        ("8 texts, each 4 times in the one before", chain(4, b"x")),
        ("8 texts, each including all, 5,000 times", all(5_000)),
        ("8 texts of 65,535 bytes, all tokens `;`", full(b";")),
        ("8 texts of 65,535 bytes, tokens `a;`", full(b"a;")),
        ("8 texts of 65,535 bytes, tokens `1;`", full(b"1;")),
        ("8 texts of 65,535 bytes, tokens `-1;`", full(b"-1;")),
        ("8 texts of 65,535 bytes, tokens `1.0;`", full(b"1.0;")),
        ("8 texts of 65,535 bytes, tokens `0x1;`", full(b"0x1;")),
        ("8 texts of 65,535 bytes, empty strings", full(b"\"\"")),
        ("8 texts of 65,535 bytes, tokens `OS;`", full(b"OS;")),
        (
            "8 texts of 65,535 bytes, comments and tokens",
            full(b"/**/;"),
        ),
        ("8 texts of include lines of texts that are not there", {
            let line = b"#include <zz>\n";
            let text = line.repeat(LONGEST / line.len());
            let lent = |number: usize| Lent::new(name(number), &text[..]);
            (0..TEXTS).map(lent).collect()
        }),
        ("8 texts, lines with long names that differ at their end", {
            let long = |last: usize| [&[b'n'; 5_000][..], &name(last)].concat();
            let line = [b"#include <", &long(TEXTS)[..], b">\n"].concat();
            let text = line.repeat(LONGEST / line.len());
            let lent = |number: usize| Lent::new(long(number), &text[..]);
            let mut texts: Vec<Lent> = (0..TEXTS - 1).map(lent).collect();
            texts.push(Lent::new(long(TEXTS), ""));
            texts
        }),
        ("5,000 lines with names that share their first bytes", {
            let mut texts = vec![Lent::new("", includes(7, 5_000))];
            texts.extend((1..TEXTS).map(|number| Lent::new(name(number), "\n")));
            texts
        }),
    ]
}
