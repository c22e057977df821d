//! Document 02, Q-11, written from the paper: lent texts mended, with a line for each drop; and
//! texts with statements at fault.

use crate::answered;
use crate::including::{join, Joined, Lent, Place, Refused, START};
use crate::meaning::{self, Drop, Refusal};
use crate::parts;
use crate::random::Random;
use crate::tree::{self, Part, Statement};

/// The mended text, and the lines of what was dropped.
#[derive(Clone, Debug, PartialEq, Eq)]
pub struct Mended {
    pub text: Vec<u8>,
    pub lines: Vec<u8>,
    /// How many statements were dropped.
    pub count: usize,
    /// The dropped statements.
    pub dropped: Vec<Vec<u8>>,
}

/// The places of a text that no drop covers.
fn kept(text: &[u8], drops: &[Drop]) -> Vec<usize> {
    let mut kept = Vec::new();
    let mut from = 0;
    for Drop { part, .. } in drops {
        kept.extend(from..part.place);
        from = part.place + part.length;
    }
    kept.extend(from..text.len());
    kept
}

/// "one line for each drop in text order (place, length, number, by tabs)"; "A place becomes a
/// text number, from 0, and a byte".
fn lines(joined: &Joined, drops: &[Drop]) -> Vec<u8> {
    let line = |Drop { part, number }: &Drop| {
        let Place { text, byte } = joined.place(part.place);
        format!("{text}\t{byte}\t{}\t{number}\n", part.length)
    };
    drops.iter().map(line).collect::<String>().into_bytes()
}

/// Lent texts mended, "expanded first". "Otherwise give the refusal of the mended text, with its
/// place in the original".
pub fn mend(texts: &[Lent]) -> Result<Mended, Refused> {
    let joined = join(texts)?;
    let drops = meaning::drops(&joined.text).map_err(|refusal| joined.refused(refusal))?;
    let kept = kept(&joined.text, &drops);
    let text: Vec<u8> = kept.iter().map(|&place| joined.text[place]).collect();
    if let Err(Refusal { number, place }) = meaning::read(&text) {
        let place = kept.get(place).copied().unwrap_or(joined.text.len());
        return Err(joined.refused(Refusal { number, place }));
    }
    let words = drops.iter().map(|drop| drop.part.of(&joined.text));
    Ok(Mended {
        text,
        lines: lines(&joined, &drops),
        count: drops.len(),
        dropped: words.map(<[u8]>::to_vec).collect(),
    })
}

/// The same where so many bytes are lent for the text and for the lines: "Either too short gets 20
/// and leaves both."
pub fn mend_within(texts: &[Lent], outputs: [usize; 2]) -> Result<Mended, Refused> {
    let mended = mend(texts)?;
    match mended.text.len() > outputs[0] || mended.lines.len() > outputs[1] {
        true => Err(Refused {
            number: 20,
            place: START,
        }),
        false => Ok(mended),
    }
}

/// What the corpus has as an answer.
pub fn report(texts: &[Lent]) -> Vec<u8> {
    match mend(texts) {
        Ok(mended) => {
            let first = format!("mended\t{}\t{}\n", mended.text.len(), mended.count);
            [first.as_bytes(), &mended.lines, &mended.text].concat()
        }
        Err(refused) => refused.line().into_bytes(),
    }
}

// Texts --------------------------------------------------------------------------------------

/// A statement of a text, nested ones too: its span, and the span of its value.
fn gather(statements: &[Statement], all: &mut Vec<(Part, Part)>) {
    for statement in statements {
        all.push((statement.whole, statement.value.word));
        gather(&statement.statements, all);
    }
}

/// Statements of no definition, with what may stand in a statement.
const UNKNOWN: [&str; 8] = [
    "nix = 1;",
    "nix = -7 : \"a; } b\";",
    "nix = nobody { nix = 2; x = 3; };",
    "nix /* ; */ = \"};\" // ;\n ;",
    "nix = AUTO;",
    "nix=TRUE{nix=FALSE{nix=1;};nix=2;};",
    "nix = 1.5e-3;",
    "nix = y {\n nix = 0x10 : \"d\"; } : \"\" ;",
];

/// A text with some statements more than it had: unknown ones, others stated again, values of
/// another sort, statements left out.
pub fn text(random: &mut Random) -> Vec<u8> {
    let seed = random.number();
    let mut text = match random.below(3) {
        0 => parts::parted(seed).text,
        1 => answered::accepted(answered::float_seed(seed >> 8)).text,
        _ => answered::accepted(seed >> 8).text,
    };
    for _ in 0..random.below(6) {
        change(random, &mut text);
    }
    text
}

/// One change at a statement of a text, if it has one.
fn change(random: &mut Random, text: &mut Vec<u8>) {
    if meaning::drops(text).is_err() {
        return;
    }
    let mut all = Vec::new();
    for object in &tree::file(text).objects {
        gather(&object.statements, &mut all);
    }
    if all.is_empty() {
        return;
    }
    let (whole, value) = all[random.below(all.len())];
    let after = whole.place + whole.length;
    let (other, _) = all[random.below(all.len())];
    match random.below(10) {
        0..=3 => {
            let place = [whole.place, after][random.below(2)];
            let more = UNKNOWN[random.below(UNKNOWN.len())];
            text.splice(place..place, more.bytes());
        }
        4..=6 => {
            let again = whole.of(text).to_vec();
            text.splice(after..after, again);
        }
        7 => {
            let stranger = other.of(text).to_vec();
            text.splice(after..after, stranger);
        }
        8 => {
            const VALUES: [&str; 6] = ["nobody", "AUTO", "\"s\"", "-1", "0.5", "TRUE"];
            let wrong = VALUES[random.below(VALUES.len())];
            text.splice(value.place..value.place + value.length, wrong.bytes());
        }
        _ => {
            text.drain(whole.place..after);
        }
    }
}

/// Texts of as many statements as there may be, each of them dropped: unknown ones, one attribute
/// stated again, nested ones in one that is dropped, ones after a long list of numbers.
pub fn long_texts() -> Vec<Vec<u8>> {
    let front = |definitions: &str| {
        format!(
            "OIL_VERSION=\"2.5\";IMPLEMENTATION m{{OS{{{definitions}}};}};CPU c{{APPMODE a;OS o{{"
        )
    };
    let text = |definitions: &str, statements: String| {
        format!("{}{statements}}};}};", front(definitions)).into_bytes()
    };
    let numbers: Vec<String> = (0..7_000).map(|number| number.to_string()).collect();
    let listed = format!("UINT32 [{}] n[];", numbers.join(","));
    let sought = "n=6999;x=1;".repeat(1_024);
    vec![
        text("", "nix=1;".repeat(2_048)),
        text("UINT32 n;", "n=1;".repeat(2_048)),
        text("", format!("nix=y{{{}}};", "x=1;".repeat(2_047))),
        text(&listed, sought),
        text(
            "ENUM [A { UINT32 n[]; }] e[];",
            "e=A{n=1;x=2;};".repeat(682),
        ),
        text("UINT32 n[];", format!("nix={}1;", " ".repeat(60_000))),
    ]
}
