//! Document 02, Q-10, written from the paper: lent texts, the main one and those that it
//! includes; their expansion; and what the calls answer for them.

use crate::comparing_releases::{self, Difference};
use crate::heading;
use crate::masks::{self, Checked, Planned};
use crate::meaning::{self, Reading, Refusal};
use crate::normal;
use crate::standard;
use crate::token::{step, Step};
use crate::tree::Part;

/// "at most 8 texts"
pub const TEXTS: usize = 8;

/// "over 65,535 bytes, in one text or after expansion"
pub const LONGEST: usize = 65_535;

/// A lent text, under its name.
#[derive(Clone, Debug, Default, PartialEq, Eq)]
pub struct Lent {
    pub name: Vec<u8>,
    pub text: Vec<u8>,
}

impl Lent {
    pub fn new(name: impl Into<Vec<u8>>, text: impl Into<Vec<u8>>) -> Lent {
        Lent {
            name: name.into(),
            text: text.into(),
        }
    }
}

/// "A place becomes a text number, from 0, and a byte".
#[derive(Clone, Copy, Debug, PartialEq, Eq)]
pub struct Place {
    pub text: usize,
    pub byte: usize,
}

impl Place {
    /// The one number that holds a place, as docs/TABLES.md fixes it.
    pub fn cell(self) -> usize {
        self.text * 65_536 + self.byte
    }
}

/// The main text's start: "0 in the table of refusals".
pub const START: Place = Place { text: 0, byte: 0 };

/// A refusal with its place in the lent texts.
#[derive(Clone, Copy, Debug, PartialEq, Eq)]
pub struct Refused {
    pub number: u8,
    pub place: Place,
}

/// The refusal of what is lent, or of what it expands to.
pub const TOO_MUCH: Refused = Refused {
    number: 30,
    place: START,
};

impl Refused {
    /// "printed with a tab between".
    pub fn line(&self) -> String {
        let Place { text, byte } = self.place;
        format!("refused\t{}\t{text}\t{byte}\n", self.number)
    }
}

/// The buffer that is lent and the told lengths: a name, its text, the next name and so on.
#[derive(Clone, Debug, Default, PartialEq, Eq)]
pub struct Buffer {
    pub bytes: Vec<u8>,
    pub lengths: Vec<usize>,
}

impl Buffer {
    pub fn of(texts: &[Lent]) -> Buffer {
        let mut buffer = Buffer::default();
        for lent in texts {
            for part in [&lent.name, &lent.text] {
                buffer.bytes.extend(part);
                buffer.lengths.push(part.len());
            }
        }
        buffer
    }

    /// The lent texts; nothing for "no text or more than 8 lent, told lengths that overrun the
    /// buffer, or over 65,535 bytes, in one text".
    pub fn texts(&self) -> Option<Vec<Lent>> {
        let (pairs, rest) = self.lengths.as_chunks::<2>();
        if pairs.is_empty() || pairs.len() > TEXTS || !rest.is_empty() {
            return None;
        }
        let mut left = &self.bytes[..];
        let mut texts = Vec::new();
        for &[name, text] in pairs {
            let (name, after) = left.split_at_checked(name)?;
            let (text, after) = after.split_at_checked(text)?;
            left = after;
            texts.push(Lent::new(name, text));
        }
        let is_long = texts.iter().any(|lent| lent.text.len() > LONGEST);
        (!is_long).then_some(texts)
    }
}

/// The first of 3 and 27 to 29: its number, how many expanded bytes stand before it, and the
/// name on an include line.
#[derive(Clone, Debug, PartialEq, Eq)]
pub struct Fault {
    pub number: u8,
    pub place: usize,
    pub name: Vec<u8>,
}

/// The expanded text: each byte with its place in the lent texts; and its first fault.
#[derive(Clone, Debug, Default, PartialEq, Eq)]
pub struct Expanded {
    pub bytes: Vec<u8>,
    pub origins: Vec<Place>,
    pub fault: Option<Fault>,
    /// The place after the text that has the fault; without a fault that of all bytes.
    pub end: usize,
}

impl Expanded {
    fn push(&mut self, text: usize, from: usize, bytes: &[u8]) {
        self.bytes.extend(bytes);
        self.origins
            .extend((from..from + bytes.len()).map(|byte| Place { text, byte }));
    }
}

/// The expanded texts; nothing where they are refused by 30: "no text or more than 8 lent .. or
/// over 65,535 bytes, in one text or after expansion".
pub fn expand(texts: &[Lent]) -> Option<Expanded> {
    let is_long = texts.iter().any(|lent| lent.text.len() > LONGEST);
    if texts.is_empty() || texts.len() > TEXTS || is_long {
        return None;
    }
    let expanded = expanded(texts);
    (expanded.bytes.len() <= LONGEST).then_some(expanded)
}

/// The texts, expanded as far as 65,535 bytes and one more.
pub fn expanded(texts: &[Lent]) -> Expanded {
    let mut expanded = Expanded::default();
    include(texts, &mut vec![0], &mut expanded);
    if expanded.fault.is_none() {
        expanded.end = expanded.bytes.len();
    }
    expanded
}

/// Puts the last of the open texts. What follows too many bytes is not looked at: it changes
/// nothing.
fn include(texts: &[Lent], open: &mut Vec<usize>, into: &mut Expanded) {
    let number = open[open.len() - 1];
    let text = &texts[number].text;
    let mut from = 0;
    while into.fault.is_none() && into.bytes.len() <= LONGEST {
        let Some((stop, line)) = next_stop(text, from) else {
            break;
        };
        let place = into.bytes.len() + stop.place - from;
        let end = into.bytes.len() + text.len() - from;
        let mut fault = |number, name| {
            into.end = end;
            into.fault = Some(Fault {
                number,
                place,
                name,
            });
        };
        let Some(line) = line else {
            fault(stop.number, Vec::new());
            break;
        };
        match texts.iter().position(|lent| lent.name == line.name) {
            None => fault(28, line.name),
            Some(found) if open.contains(&found) => fault(27, line.name),
            Some(found) => {
                into.push(number, from, &text[from..line.start]);
                open.push(found);
                include(texts, open, into);
                open.pop();
                // "the included bytes and an LF in the stead of the line and its LF"
                into.push(number, stop.place, b"\n");
                from = line.after;
            }
        }
    }
    // "from the first 3 or 27 to 29 on, lines stay unexpanded"
    into.push(number, from, &text[from..]);
}

/// "The program gathers at most 8 texts, the main one, with an empty name, then each newly named
/// file it can open, in expanded order".
pub fn gather(main: &[u8], open: impl Fn(&[u8]) -> Option<Vec<u8>>) -> Vec<Lent> {
    let mut texts = alone(main);
    while texts.len() < TEXTS {
        let Some(Fault {
            number: 28, name, ..
        }) = expanded(&texts).fault
        else {
            break;
        };
        let Some(text) = open(&name) else { break };
        texts.push(Lent { name, text });
    }
    texts
}

/// A text where no file can be opened.
pub fn alone(main: &[u8]) -> Vec<Lent> {
    vec![Lent::new("", main)]
}

/// An include line: where it begins, the name on it, and the place after it and its LF.
struct Line {
    start: usize,
    name: Vec<u8>,
    after: usize,
}

/// The first place from `from` on where a token could start and none does, and the include line
/// there, if it is one; nothing where the text ends before.
fn next_stop(text: &[u8], from: usize) -> Option<(Refusal, Option<Line>)> {
    let mut last = from;
    let place = loop {
        match step(text, last) {
            Step::Token(_, next) => last = next,
            Step::Refused(place) => break place,
            Step::End(_) => return None,
        }
    };
    if text[place] != b'#' {
        return Some((Refusal { number: 3, place }, None));
    }
    let is_lf = |byte: &u8| *byte == b'\n';
    let start = text[..place].iter().rposition(is_lf).map_or(0, |lf| lf + 1);
    let end = text[place..].iter().position(is_lf);
    let end = end.map_or(text.len(), |lf| place + lf);
    // No token and no comment reaches into the line: what stands before it ends before it.
    let is_whole = last <= start && matches!(step(&text[..start], last), Step::End(_));
    let name = name_on(&text[start..end]).filter(|_| is_whole);
    let line = name.map(|name| Line {
        start,
        name,
        after: text.len().min(end + 1),
    });
    Some((Refusal { number: 29, place }, line))
}

/// The file's name, if a line holds "only `#include` and a file in quotes or angle brackets,
/// spaces, tabs, CR and comments wholly on it aside".
fn name_on(line: &[u8]) -> Option<Vec<u8>> {
    let rest = aside(line).strip_prefix(b"#include")?;
    let (&quote, rest) = aside(rest).split_first()?;
    let close = match quote {
        b'"' => b'"',
        b'<' => b'>',
        _ => return None,
    };
    let length = rest.iter().position(|&byte| byte == close)?;
    let is_all = aside(&rest[length + 1..]).is_empty();
    is_all.then(|| rest[..length].to_vec())
}

/// What is left of a line after spaces, tabs, CR and comments that end on it.
fn aside(mut line: &[u8]) -> &[u8] {
    loop {
        line = match line {
            [b' ' | b'\t' | b'\r', rest @ ..] => rest,
            [b'/', b'/', ..] => &[],
            [b'/', b'*', rest @ ..] => match rest.windows(2).position(|pair| pair == b"*/") {
                Some(end) => &rest[end + 2..],
                None => return line,
            },
            _ => return line,
        };
    }
}

/// The one text that lent texts come to. From the first of 3 and 27 to 29 on, a `#` stands for
/// the rest: no token is there either.
pub struct Joined {
    pub text: Vec<u8>,
    expanded: Expanded,
    main_length: usize,
}

/// "30 replaces 2".
pub fn join(texts: &[Lent]) -> Result<Joined, Refused> {
    let expanded = expand(texts).ok_or(TOO_MUCH)?;
    let mut text = expanded.bytes.clone();
    if let Some(fault) = &expanded.fault {
        text.truncate(fault.place);
        text.push(b'#');
    }
    Ok(Joined {
        text,
        expanded,
        main_length: texts[0].text.len(),
    })
}

impl Joined {
    /// Where a place of the expanded text comes from; "the end .. [is] the main text's".
    pub fn place(&self, place: usize) -> Place {
        let end = Place {
            text: 0,
            byte: self.main_length,
        };
        self.expanded.origins.get(place).copied().unwrap_or(end)
    }

    /// The refusal of the joined text as that of the lent texts.
    pub fn refused(&self, Refusal { number, place }: Refusal) -> Refused {
        let number = match &self.expanded.fault {
            Some(fault) if number == 3 => fault.number,
            _ => number,
        };
        let place = match number {
            19 | 20 => START,
            _ => self.place(place),
        };
        Refused { number, place }
    }

    /// The reading, with places in the joined text.
    pub fn read(&self) -> Result<Reading, Refused> {
        meaning::read(&self.text).map_err(|refusal| self.refused(refusal))
    }

    /// The same part, its place in the lent texts; "lengths count expanded bytes".
    fn placed(&self, part: Part) -> Part {
        match part.length {
            0 => part,
            length => Part {
                place: self.place(part.place).cell(),
                length,
            },
        }
    }

    /// The rows of a reading, with places in the lent texts.
    pub fn placed_rows(&self, mut reading: Reading) -> Reading {
        let place = |part: &mut Part| *part = self.placed(*part);
        for row in &mut reading.definitions {
            let words = [&mut row.under, &mut row.name, &mut row.type_word];
            words.into_iter().for_each(place);
            place(&mut row.range);
            place(&mut row.default);
        }
        for row in &mut reading.enumerators {
            place(&mut row.name);
        }
        for row in &mut reading.objects {
            let parts = [&mut row.kind_word, &mut row.name, &mut row.block];
            parts.into_iter().for_each(place);
        }
        for row in &mut reading.values {
            place(&mut row.word);
        }
        reading
    }
}

/// The rows of lent texts, with places in these.
pub fn read(texts: &[Lent]) -> Result<Reading, Refused> {
    let joined = join(texts)?;
    joined.read().map(|reading| joined.placed_rows(reading))
}

/// The normal text of lent texts.
pub fn normal(texts: &[Lent]) -> Result<Vec<u8>, Refused> {
    let joined = join(texts)?;
    let reading = joined.read()?;
    Ok(normal::write(&joined.text, &reading))
}

/// The same where so many bytes are lent for it.
pub fn normal_within(texts: &[Lent], output: usize) -> Result<Vec<u8>, Refused> {
    let written = normal(texts)?;
    match written.len() > output {
        true => Err(Refused {
            number: 20,
            place: START,
        }),
        false => Ok(written),
    }
}

/// What the call tells of a writing: the number of the refusal, 0 where there is none, its place
/// in a cell, and the length of the normal text.
#[repr(C)]
#[derive(Clone, Copy, Debug, PartialEq, Eq)]
pub struct Told {
    pub number: usize,
    pub place: usize,
    pub length: usize,
}

/// What the program writes: the normal text, or `refused`, tab, number, tab, text number, tab,
/// byte in a line.
pub fn program(texts: &[Lent]) -> Vec<u8> {
    let written = normal_within(texts, LONGEST);
    written.unwrap_or_else(|refused| refused.line().into_bytes())
}

/// A part of the expanded text: where it begins in the lent texts, and its bytes.
#[derive(Clone, Debug, PartialEq, Eq)]
pub struct Piece {
    pub place: Place,
    pub bytes: Vec<u8>,
}

/// Version string and implementation name of lent texts: "These hold in Q-7 too."
pub fn heading(texts: &[Lent]) -> Result<[Piece; 2], Refused> {
    let joined = join(texts)?;
    let found = heading::heading(&joined.text).map_err(|refusal| joined.refused(refusal))?;
    Ok([found.version, found.name].map(|part| Piece {
        place: joined.place(part.start),
        bytes: joined.text[part].to_vec(),
    }))
}

/// Masks checked for lent texts; the answer is no refusal.
pub fn check_masks(texts: &[Lent], masks: &[u64]) -> Result<Checked, Refused> {
    let joined = join(texts)?;
    match masks::check(&joined.text, masks) {
        Checked::Refused(refusal) => Err(joined.refused(refusal)),
        answer => Ok(answer),
    }
}

/// Masks planned for lent texts, and the list afterwards; the answer is no refusal.
pub fn plan_masks(texts: &[Lent], masks: &[u64]) -> Result<(Planned, Vec<u64>), Refused> {
    let joined = join(texts)?;
    match masks::plan(&joined.text, masks) {
        (Planned::Refused(refusal), _) => Err(joined.refused(refusal)),
        answer => Ok(answer),
    }
}

/// What differs from the standard: 25 or 26, its place, the attribute.
#[derive(Clone, Copy, Debug, PartialEq, Eq)]
pub struct Finding {
    pub number: u8,
    pub place: Place,
    pub attribute: usize,
}

/// The definitions of lent texts held to the standard.
pub fn check_standard(texts: &[Lent]) -> Result<Option<Finding>, Refused> {
    let joined = join(texts)?;
    match standard::check(&joined.text) {
        standard::Checked::Refused(refusal) => Err(joined.refused(refusal)),
        standard::Checked::NothingWrong => Ok(None),
        standard::Checked::Wrong(finding) => Ok(Some(Finding {
            number: finding.number,
            place: joined.place(finding.place),
            attribute: finding.attribute,
        })),
    }
}

/// The joined texts of two accepted releases, each with the texts that it includes; or which one
/// is refused, 1 or 2.
fn accepted(releases: [&[Lent]; 2]) -> Result<[Vec<u8>; 2], (usize, Refused)> {
    let accepted = |side: usize| {
        let joined = join(releases[side - 1]).map_err(|refused| (side, refused))?;
        joined.read().map_err(|refused| (side, refused))?;
        Ok(joined.text)
    };
    Ok([accepted(1)?, accepted(2)?])
}

/// All differences of two releases.
pub fn compare(releases: [&[Lent]; 2]) -> Result<Vec<Difference>, (usize, Refused)> {
    let [first, second] = accepted(releases)?;
    let found = comparing_releases::compare([&first, &second]);
    Ok(found.expect("two accepted texts"))
}

/// What the program prints for two releases.
pub fn report(releases: [&[Lent]; 2]) -> Vec<u8> {
    match accepted(releases) {
        Ok([first, second]) => comparing_releases::report([&first, &second]),
        Err((side, Refused { number, place })) => {
            let Place { text, byte } = place;
            format!("refused\t{side}\t{number}\t{text}\t{byte}\n").into_bytes()
        }
    }
}
