//! Document 02, Q-8, written from the paper: two accepted texts compared object by object and
//! path by path.

use crate::amount::Amount;
use crate::meaning::{read, Owner, Reading, Refusal, Resolved};
use crate::token::{step, Sort, Step, Token};
use crate::tree::Type;

/// "at most 64"
pub const MOST_RECORDS: usize = 64;

/// One difference, by rows; what a text has not is `None`.
#[derive(Clone, Copy, Debug, PartialEq, Eq)]
pub struct Difference {
    pub objects: [Option<usize>; 2],
    pub values: [Option<usize>; 2],
}

/// All differences of two texts, or which text is refused (1 or 2) and how.
pub type Compared = Result<Vec<Difference>, (usize, Refusal)>;

/// A value with its path: "attribute names from the object down, parted by dots, each list's
/// name followed by its position from 0".
struct Value {
    row: usize,
    path: Vec<u8>,
    counts: Counts,
}

/// What a value counts as: "a reference counts by kind and name, an enumerator by name, a float
/// by amount, and values of two sorts differ".
#[derive(PartialEq)]
enum Counts {
    Number(i128),
    Float(Amount),
    Truth(bool),
    Auto,
    String(Vec<u8>),
    Enumerator(Vec<u8>),
    Reference(usize, Vec<u8>),
}

struct Release<'a> {
    text: &'a [u8],
    reading: Reading,
    values: Vec<Vec<Value>>,
}

impl<'a> Release<'a> {
    fn new(text: &'a [u8], reading: Reading) -> Self {
        let mut release = Release {
            text,
            values: reading.objects.iter().map(|_| Vec::new()).collect(),
            reading,
        };
        release.fill();
        release
    }

    /// The object, the path above and how often each name was met under each owner, as the rows
    /// come: "each followed by what is under it".
    fn fill(&mut self) {
        let mut homes: Vec<(usize, Vec<u8>)> = Vec::new();
        let mut met: Vec<(Owner, &[u8])> = Vec::new();
        for (row, value) in self.reading.values.iter().enumerate() {
            let definition = &self.reading.definitions[value.definition];
            let name = definition.name.of(self.text);
            let position = met
                .iter()
                .filter(|&&(owner, other)| owner == value.owner && other == name)
                .count();
            met.push((value.owner, name));
            let (object, mut path) = match value.owner {
                Owner::Object(object) => (object, Vec::new()),
                Owner::Value(above) => {
                    let (object, path) = homes[above].clone();
                    (object, [&path[..], b"."].concat())
                }
            };
            path.extend(name);
            if definition.is_list {
                path.extend(format!("[{position}]").bytes());
            }
            homes.push((object, path.clone()));
            let counts = self.counts(row);
            self.values[object].push(Value { row, path, counts });
        }
    }

    fn counts(&self, row: usize) -> Counts {
        let value = &self.reading.values[row];
        let word = value.word.of(self.text);
        match value.value {
            Resolved::Number(number) => Counts::Number(number),
            Resolved::Float => Counts::Float(float(word)),
            Resolved::True => Counts::Truth(true),
            Resolved::False => Counts::Truth(false),
            Resolved::Auto => Counts::Auto,
            Resolved::String => Counts::String(word.to_vec()),
            Resolved::Enumerator(_) => Counts::Enumerator(word.to_vec()),
            Resolved::Object(_) => match self.reading.definitions[value.definition].sort {
                Type::Reference(kind) => Counts::Reference(kind, word.to_vec()),
                _ => unreachable!("an object is the value of a reference"),
            },
        }
    }

    /// "match objects by kind and name"
    fn find(&self, other: &Release, object: usize) -> Option<usize> {
        let wanted = &other.reading.objects[object];
        self.reading.objects.iter().position(|own| {
            own.kind == wanted.kind && own.name.of(self.text) == wanted.name.of(other.text)
        })
    }

    /// "each side's value as normal text writes it", "strings as lower-case hex of the bytes inside"
    fn shown(&self, row: usize) -> Vec<u8> {
        let value = &self.reading.values[row];
        let word = value.word.of(self.text);
        match value.value {
            Resolved::Number(number) => number.to_string().into_bytes(),
            Resolved::String => word[1..word.len() - 1]
                .iter()
                .flat_map(|byte| format!("{byte:02x}").into_bytes())
                .collect(),
            _ => word.to_vec(),
        }
    }

    fn path(&self, object: usize, row: usize) -> &[u8] {
        let values = &self.values[object];
        &values
            .iter()
            .find(|value| value.row == row)
            .expect("a value of the object")
            .path
    }
}

fn float(word: &[u8]) -> Amount {
    match step(word, 0) {
        Step::Token(
            Token {
                sort: Sort::Float(float),
                ..
            },
            _,
        ) => float.into(),
        _ => unreachable!("a float's word"),
    }
}

/// The differences, "in the first text's object order and then the second's".
fn differences(releases: [&Release; 2]) -> Vec<Difference> {
    let [first, second] = releases;
    let mut found = Vec::new();
    for object in 0..first.reading.objects.len() {
        match second.find(first, object) {
            None => found.push(Difference {
                objects: [Some(object), None],
                values: [None, None],
            }),
            Some(other) => pair(releases, [object, other], &mut found),
        }
    }
    for object in 0..second.reading.objects.len() {
        if first.find(second, object).is_none() {
            found.push(Difference {
                objects: [None, Some(object)],
                values: [None, None],
            });
        }
    }
    found
}

/// "Inside a pair: the first text's resolved order, then what only the second has."
fn pair(releases: [&Release; 2], objects: [usize; 2], found: &mut Vec<Difference>) {
    let [own, others] = [0, 1].map(|side| &releases[side].values[objects[side]]);
    let mut push = |values| {
        found.push(Difference {
            objects: objects.map(Some),
            values,
        })
    };
    for value in own {
        match others.iter().find(|other| other.path == value.path) {
            None => push([Some(value.row), None]),
            Some(other) if other.counts != value.counts => push([Some(value.row), Some(other.row)]),
            Some(_) => {}
        }
    }
    for other in others {
        if !own.iter().any(|value| value.path == other.path) {
            push([None, Some(other.row)]);
        }
    }
}

/// "if both are only the first's"
fn releases<'a>(texts: [&'a [u8]; 2]) -> Result<[Release<'a>; 2], (usize, Refusal)> {
    let first = read(texts[0]).map_err(|refusal| (1, refusal))?;
    let second = read(texts[1]).map_err(|refusal| (2, refusal))?;
    Ok([
        Release::new(texts[0], first),
        Release::new(texts[1], second),
    ])
}

/// A record of the lent list: each number is one more than the row of an object or value in that
/// text's tables, or 0 where that text has none.
#[repr(C)]
#[derive(Clone, Copy, Debug, PartialEq, Eq)]
pub struct Record {
    pub first_object: usize,
    pub second_object: usize,
    pub first_value: usize,
    pub second_value: usize,
}

/// What the call tells beside the list: which text is refused, 1 or 2, with number and place, else
/// three times 0; "The true total is always told".
#[repr(C)]
#[derive(Clone, Copy, Debug, PartialEq, Eq)]
pub struct Answer {
    pub which: usize,
    pub number: usize,
    pub place: usize,
    pub total: usize,
}

impl From<&Difference> for Record {
    fn from(difference: &Difference) -> Record {
        let number = |row: Option<usize>| row.map_or(0, |row| row + 1);
        Record {
            first_object: number(difference.objects[0]),
            second_object: number(difference.objects[1]),
            first_value: number(difference.values[0]),
            second_value: number(difference.values[1]),
        }
    }
}

/// The call: "Differences go into a lent list of records, as many as it holds, at most 64 .. Entries
/// past those used stay"; of a refused text "leave the list".
pub fn lend(compared: &Compared, list: &mut [Record]) -> Answer {
    match compared {
        Ok(found) => {
            for (entry, difference) in list.iter_mut().zip(found.iter().take(MOST_RECORDS)) {
                *entry = difference.into();
            }
            Answer {
                which: 0,
                number: 0,
                place: 0,
                total: found.len(),
            }
        }
        Err((which, refusal)) => Answer {
            which: *which,
            number: usize::from(refusal.number),
            place: refusal.place,
            total: 0,
        },
    }
}

/// All differences of two texts.
pub fn compare(texts: [&[u8]; 2]) -> Compared {
    let [first, second] = releases(texts)?;
    Ok(differences([&first, &second]))
}

/// What the program prints.
pub fn report(texts: [&[u8]; 2]) -> Vec<u8> {
    let [first, second] = match releases(texts) {
        Ok(both) => both,
        Err((which, refusal)) => {
            return format!("refused\t{which}\t{}\t{}\n", refusal.number, refusal.place)
                .into_bytes()
        }
    };
    let found = differences([&first, &second]);
    let mut lines: Vec<u8> = Vec::new();
    for difference in found.iter().take(MOST_RECORDS) {
        lines.extend(line([&first, &second], difference));
    }
    lines.extend(format!("total\t{}\n", found.len()).bytes());
    lines
}

fn line(releases: [&Release; 2], difference: &Difference) -> Vec<u8> {
    let own = match difference.objects {
        [Some(_), Some(_)] => difference.values,
        alone => alone,
    };
    let (who, side): (&[u8], usize) = match own {
        [Some(_), Some(_)] => (b"both", 0),
        [Some(_), None] => (b"first", 0),
        _ => (b"second", 1),
    };
    let release = releases[side];
    let object = difference.objects[side].expect("that side's object");
    let row = &release.reading.objects[object];
    let path = match difference.values[side] {
        Some(value) => release.path(object, value),
        None => b"",
    };
    let shown = [0, 1].map(|side| {
        difference.values[side].map_or(Vec::new(), |value| releases[side].shown(value))
    });
    let fields: [&[u8]; 6] = [
        who,
        row.kind_word.of(release.text),
        row.name.of(release.text),
        path,
        &shown[0],
        &shown[1],
    ];
    [&fields.join(&b'\t')[..], b"\n"].concat()
}
