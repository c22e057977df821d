//! Document 02, Q-12: what the tables of an accepted text show of each object, without places and
//! without rows of objects and values; a text with two neighbouring parts exchanged, and a text
//! with something else between the braces of one part; the same over lent texts.

use crate::including::{expand, Lent, Place, TEXTS};
use crate::random::Random;
use crate::tables::{Answer, WIDTHS};
use crate::token::{step, Sort, Step};
use crate::tree::{self, Object};
use std::collections::BTreeMap;

/// A resolved value as it is shown.
#[derive(Debug, PartialEq, Eq)]
pub struct Item {
    pub definition: usize,
    pub attribute: Vec<u8>,
    pub value: Shown,
    pub stated: bool,
    /// How far before it the value stands that it is under; 0 where it is under none.
    pub under: usize,
}

/// What a value shows: a reference the kind and name of the object that it leads to.
#[derive(Debug, PartialEq, Eq)]
pub enum Shown {
    Number(usize, usize),
    Truth(usize),
    Auto,
    Text(Vec<u8>),
    Enumerator(usize, Vec<u8>),
    Reference(Key),
}

/// An object's kind and name.
pub type Key = (usize, Vec<u8>);

/// The values of each object.
pub type Channels = BTreeMap<Key, Vec<Item>>;

/// The channels of an accepted text, by the cells of its tables (docs/TABLES.md).
pub fn channels(text: &[u8], answer: &Answer) -> Channels {
    channels_by(answer, |place, length| text[place..place + length].to_vec())
}

/// Those of accepted lent texts: a place is a text number and a byte of that text.
pub fn lent_channels(texts: &[Lent], answer: &Answer) -> Channels {
    channels_by(answer, |place, length| {
        let (text, byte) = (&texts[place / 65_536].text, place % 65_536);
        text[byte..byte + length].to_vec()
    })
}

fn channels_by(answer: &Answer, bytes: impl Fn(usize, usize) -> Vec<u8>) -> Channels {
    let row =
        |table: usize, row: usize| &answer.rows[table][row * WIDTHS[table]..][..WIDTHS[table]];
    let word = |cells: &[usize]| bytes(cells[0], cells[1]);
    let key = |object: usize| (row(2, object)[0], word(&row(2, object)[3..]));
    let objects = answer.rows[2].len() / WIDTHS[2];
    let mut all: Channels = (0..objects)
        .map(|object| (key(object), Vec::new()))
        .collect();
    assert_eq!(all.len(), objects, "two objects of one kind and name");
    let mut owners = Vec::new();
    for number in 0..answer.rows[3].len() / WIDTHS[3] {
        let cells = row(3, number);
        let (owner, under) = match cells[1] {
            0 => (cells[2], 0),
            _ => (owners[cells[2]], number - cells[2]),
        };
        owners.push(owner);
        let value = match cells[3] {
            0 => Shown::Number(cells[4], cells[5]),
            1 => Shown::Truth(cells[5]),
            2 => Shown::Auto,
            3 | 6 => Shown::Text(word(&cells[7..])),
            4 => Shown::Enumerator(cells[5], word(&cells[7..])),
            _ => Shown::Reference(key(cells[5])),
        };
        all.get_mut(&key(owner)).expect("its object").push(Item {
            definition: cells[0],
            attribute: word(&row(0, cells[0])[2..]),
            value,
            stated: cells[6] == 1,
            under,
        });
    }
    all
}

/// A part of an object: from its kind's word through its semicolon, and its kind and name.
pub struct Part {
    pub begin: usize,
    pub end: usize,
    pub key: Key,
    /// Between its braces.
    pub inside: Option<(usize, usize)>,
}

/// The parts of an accepted text, in text order.
pub fn parts(text: &[u8]) -> Vec<Part> {
    let part = |object: &Object| {
        let has_braces = object.block.length > 0;
        let last = if has_braces {
            object.block
        } else {
            object.name
        };
        let block = (
            object.block.place + 1,
            object.block.place + object.block.length,
        );
        Part {
            begin: object.kind_word.place,
            end: semicolon(text, last.place + last.length),
            key: (object.kind, object.name.of(text).to_vec()),
            inside: has_braces.then(|| (block.0, block.1 - 1)),
        }
    };
    tree::file(text).objects.iter().map(part).collect()
}

/// The place after the next semicolon.
fn semicolon(text: &[u8], from: usize) -> usize {
    let mut place = from;
    while let Step::Token(token, next) = step(text, place) {
        if token.sort == Sort::Punctuator(b';') {
            return next;
        }
        place = next;
    }
    panic!("no semicolon after {from}")
}

/// The text with two neighbouring parts exchanged; what stands between them stays.
pub fn exchanged(text: &[u8], one: &Part, other: &Part) -> Vec<u8> {
    let pieces = [
        &text[..one.begin],
        &text[other.begin..other.end],
        &text[one.end..other.begin],
        &text[one.begin..one.end],
        &text[other.end..],
    ];
    pieces.concat()
}

/// The text with something else between the braces of a part: nothing, what stands between
/// those of another part, both, or without one of its statements.
pub fn replaced(random: &mut Random, text: &[u8], part: &Part, others: &[&Part]) -> Vec<u8> {
    let (begin, end) = part.inside.expect("a part with braces");
    let own = &text[begin..end];
    let other = others[random.below(others.len())].inside;
    let other = other.map_or(&b""[..], |(begin, end)| &text[begin..end]);
    let inside = match random.below(5) {
        0 => Vec::new(),
        1 => other.to_vec(),
        2 => [own, b" ", other].concat(),
        3 => [other, b"\n", own].concat(),
        _ => without_one(random, own),
    };
    [&text[..begin], &inside, &text[end..]].concat()
}

/// Statements without one of them.
fn without_one(random: &mut Random, inside: &[u8]) -> Vec<u8> {
    let mut ends = vec![0];
    let mut depth = 0;
    let mut place = 0;
    while let Step::Token(token, next) = step(inside, place) {
        match token.sort {
            Sort::Punctuator(b'{') => depth += 1,
            Sort::Punctuator(b'}') => depth -= 1,
            Sort::Punctuator(b';') if depth == 0 => ends.push(next),
            _ => (),
        }
        place = next;
    }
    if ends.len() == 1 {
        return inside.to_vec();
    }
    let gone = random.below(ends.len() - 1);
    [&inside[..ends[gone]], &inside[ends[gone + 1]..]].concat()
}

/// An accepted text divided among lent texts at its parts: a main text, a text with some of its
/// parts that it includes once, one that this one includes, one with parts without braces that is
/// included several times, and one that no line names.
pub fn lent(random: &mut Random, text: &[u8]) -> Vec<Lent> {
    let all = parts(text);
    let names: [&[u8]; 4] = [b"once.oil", b"inner.oil", b"often.oil", b"none.oil"];
    let objects = tree::file(text).objects;
    let heads: Vec<Vec<u8>> = objects.iter().map(|object| head(text, object)).collect();
    let mut often: Vec<u8> = Vec::new();
    for _ in 0..random.from_to(2, 6) {
        often.extend(&heads[random.below(heads.len())]);
        often.extend(random.pick(&["\n", " ", "", " // x\n", "/* ; */"]).bytes());
    }
    let often = Lent::new(names[2], often);
    let none = Lent::new(names[3], heads[..heads.len().min(4)].concat());
    // Where the parts of the two texts begin and end.
    let mut cuts = [0; 4].map(|_| random.below(all.len() + 1));
    cuts.sort_unstable();
    let mut texts: [Vec<u8>; 3] = Default::default();
    let mut at = 0;
    for (index, part) in all.iter().enumerate() {
        let inside = |from: usize, to: usize| (cuts[from]..cuts[to]).contains(&index);
        let into = usize::from(inside(0, 3)) + usize::from(inside(1, 2));
        // What stands before the first part, and after the last, is the main text's.
        let gap = &text[at..part.begin];
        at = part.end;
        let before = if index == 0 { 0 } else { into };
        texts[before].extend(gap);
        for depth in 1..=2 {
            if index == cuts[depth - 1] && cuts[depth - 1] < cuts[4 - depth] {
                texts[depth - 1].extend(line(random, names[depth - 1]));
            }
        }
        if random.once_in(8) {
            texts[into].extend(line(random, names[2]));
        }
        texts[into].extend(&text[part.begin..part.end]);
    }
    texts[0].extend(&text[at..]);
    let [main, once, inner] = texts;
    let mut lent = vec![Lent::new("", main)];
    lent.extend([
        Lent::new(names[0], once),
        Lent::new(names[1], inner),
        often,
        none,
    ]);
    assert!(lent.len() <= TEXTS);
    lent
}

/// A part of the same object without braces.
fn head(text: &[u8], object: &Object) -> Vec<u8> {
    [object.kind_word.of(text), b" ", object.name.of(text), b";"].concat()
}

/// A line that includes a text, on a line of its own.
fn line(random: &mut Random, name: &[u8]) -> Vec<u8> {
    let (open, close) = random.pick(&[&("\"", "\""), &("<", ">")]);
    [
        &b"\n#include "[..],
        open.as_bytes(),
        name,
        close.as_bytes(),
        b"\n",
    ]
    .concat()
}

/// Two neighbouring parts of different objects in one lent text, with no include line in or
/// between, by places of that text; and in how many places of the expanded text they stand.
pub struct Two {
    pub text: usize,
    pub one: Part,
    pub other: Part,
    pub times: usize,
}

/// A part of the expanded text as a part of the lent text that it comes from.
fn own(origins: &[Place], part: &Part) -> Option<(usize, Part)> {
    let first = origins[part.begin];
    let mut bytes = origins[part.begin..part.end].iter().zip(first.byte..);
    let is_whole = bytes.all(|(place, byte)| place.text == first.text && place.byte == byte);
    let moved = |place: usize| place - part.begin + first.byte;
    let own = Part {
        begin: first.byte,
        end: moved(part.end),
        key: part.key.clone(),
        inside: part.inside.map(|(begin, end)| (moved(begin), moved(end))),
    };
    is_whole.then_some((first.text, own))
}

/// All such pairs of accepted texts, and all parts that stand in one text, each with the number of
/// its places.
pub fn pairs(texts: &[Lent]) -> (Vec<Two>, Vec<(usize, Part, usize)>) {
    let expanded = expand(texts).expect("accepted texts");
    let found: Vec<_> = parts(&expanded.bytes)
        .iter()
        .map(|part| own(&expanded.origins, part))
        .collect();
    let mut twos: BTreeMap<(usize, usize), Two> = BTreeMap::new();
    let mut ones: BTreeMap<(usize, usize), (usize, Part, usize)> = BTreeMap::new();
    for (text, part) in found.iter().flatten() {
        let begin = part.begin;
        let entry = ones.entry((*text, begin));
        entry.or_insert_with(|| (*text, part.copy(), 0)).2 += 1;
    }
    for two in found.windows(2) {
        let [Some((text, one)), Some((same, other))] = two else {
            continue;
        };
        if text != same || other.begin < one.end || one.key == other.key {
            continue;
        }
        // An include line stands between them, or a comment with a `#`.
        if texts[*text].text[one.end..other.begin].contains(&b'#') {
            continue;
        }
        let entry = twos.entry((*text, one.begin)).or_insert_with(|| Two {
            text: *text,
            one: one.copy(),
            other: other.copy(),
            times: 0,
        });
        assert!(entry.other.begin == other.begin);
        entry.times += 1;
    }
    (twos.into_values().collect(), ones.into_values().collect())
}

impl Part {
    fn copy(&self) -> Part {
        Part {
            key: self.key.clone(),
            ..*self
        }
    }
}
