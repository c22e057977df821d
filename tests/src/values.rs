//! Document 02, Q-13, written from the paper: the value of one attribute by kind, object name and
//! dotted path.

use crate::including::{join, Lent, Refused, START};
use crate::meaning::{Owner, Reading, Resolved};
use crate::random::Random;
use crate::token::KINDS;

/// The answer, with the bytes that are copied.
#[derive(Clone, Debug, PartialEq, Eq)]
pub enum Valued {
    Refused(Refused),
    NotFound,
    Copied(Vec<u8>),
}

/// A name, and the number in `[n]` after it, where that stands there.
struct Step<'p> {
    name: &'p [u8],
    entry: Option<usize>,
}

/// A path of another form has no steps.
fn steps(path: &[u8]) -> Option<Vec<Step<'_>>> {
    path.split(|&byte| byte == b'.').map(step).collect()
}

fn is_name(name: &[u8]) -> bool {
    let letter = |byte: u8| byte.is_ascii_alphabetic() || byte == b'_';
    matches!(name, [first, rest @ ..] if letter(*first)
        && rest.iter().all(|&byte| letter(byte) || byte.is_ascii_digit()))
}

fn step(step: &[u8]) -> Option<Step<'_>> {
    let (name, entry) = match step.strip_suffix(b"]") {
        None => (step, None),
        Some(front) => {
            let open = front.iter().rposition(|&byte| byte == b'[')?;
            (&front[..open], Some(number(&front[open + 1..])?))
        }
    };
    is_name(name).then_some(Step { name, entry })
}

/// "decimal without leading zeros"; one that no list reaches is as good as any other.
fn number(digits: &[u8]) -> Option<usize> {
    match digits {
        [] => None,
        [b'0', _, ..] => None,
        _ if !digits.iter().all(u8::is_ascii_digit) => None,
        _ if digits.len() > 9 => Some(usize::MAX),
        _ => std::str::from_utf8(digits).ok()?.parse().ok(),
    }
}

/// The rows that an owner has of the attribute of a name, in their order.
fn entries(text: &[u8], reading: &Reading, owner: Owner, name: &[u8]) -> Vec<usize> {
    let is_entry = |&row: &usize| {
        let value = &reading.values[row];
        value.owner == owner && reading.definitions[value.definition].name.of(text) == name
    };
    (0..reading.values.len()).filter(is_entry).collect()
}

/// The row of the value, if there is one.
fn find(text: &[u8], reading: &Reading, kind: &[u8], name: &[u8], path: &[u8]) -> Option<usize> {
    let steps = steps(path)?;
    let object = reading
        .objects
        .iter()
        .position(|object| KINDS[object.kind].as_bytes() == kind && object.name.of(text) == name)?;
    let mut owner = Owner::Object(object);
    let mut found = None;
    for step in steps {
        let rows = entries(text, reading, owner, step.name);
        let &first = rows.first()?;
        let is_list = reading.definitions[reading.values[first].definition].is_list;
        let row = match step.entry {
            None => first,
            Some(_) if !is_list => return None,
            Some(entry) => *rows.get(entry)?,
        };
        owner = Owner::Value(row);
        found = Some(row);
    }
    found
}

/// "copied as normal text writes it, without what is under it"
pub fn written(text: &[u8], reading: &Reading, row: usize) -> Vec<u8> {
    let value = &reading.values[row];
    match value.value {
        Resolved::Number(number) => number.to_string().into_bytes(),
        Resolved::True => b"TRUE".to_vec(),
        Resolved::False => b"FALSE".to_vec(),
        Resolved::Auto => b"AUTO".to_vec(),
        Resolved::Enumerator(row) => reading.enumerators[row].name.of(text).to_vec(),
        Resolved::Object(row) => reading.objects[row].name.of(text).to_vec(),
        Resolved::String | Resolved::Float => value.word.of(text).to_vec(),
    }
}

/// What comes of a text that was read: "or not found", "A buffer too short gets refusal 20".
pub fn value_of(text: &[u8], reading: &Reading, question: &Question, room: usize) -> Valued {
    let Question { kind, name, path } = question;
    match find(text, reading, kind, name, path) {
        None => Valued::NotFound,
        Some(row) => {
            let written = written(text, reading, row);
            if written.len() > room {
                return Valued::Refused(Refused {
                    number: 20,
                    place: START,
                });
            }
            Valued::Copied(written)
        }
    }
}

/// What is asked of a text.
#[derive(Clone, Debug)]
pub struct Question {
    pub kind: Vec<u8>,
    pub name: Vec<u8>,
    pub path: Vec<u8>,
}

/// "Both calls take the text alone, with an empty name."
pub fn alone(text: &[u8]) -> [Lent; 1] {
    [Lent::new("", text)]
}

/// What is read of a text alone; where it is accepted, places are its own.
pub fn read(text: &[u8]) -> Result<Reading, Refused> {
    join(&alone(text))?.read()
}

/// "A refused text gives its refusal."
pub fn value(text: &[u8], question: &Question, room: usize) -> Valued {
    match read(text) {
        Err(refused) => Valued::Refused(refused),
        Ok(reading) => value_of(text, &reading, question, room),
    }
}

// Questions -----------------------------------------------------------------------------------

/// The object of a value, and its path with `[n]` after each list's name.
fn home(text: &[u8], reading: &Reading, row: usize) -> (usize, Vec<Vec<u8>>) {
    let value = &reading.values[row];
    let definition = &reading.definitions[value.definition];
    let name = definition.name.of(text);
    let mut step = name.to_vec();
    if definition.is_list {
        let rows = entries(text, reading, value.owner, name);
        let position = rows.iter().position(|&other| other == row);
        step.extend(format!("[{}]", position.expect("its own entry")).bytes());
    }
    let (object, mut path) = match value.owner {
        Owner::Object(object) => (object, Vec::new()),
        Owner::Value(above) => home(text, reading, above),
    };
    path.push(step);
    (object, path)
}

/// What asks for the value of a row, with `[n]` after each list's name.
pub fn asking(text: &[u8], reading: &Reading, row: usize) -> Question {
    let (object, steps) = home(text, reading, row);
    let object = &reading.objects[object];
    Question {
        kind: KINDS[object.kind].as_bytes().to_vec(),
        name: object.name.of(text).to_vec(),
        path: steps.join(&b'.'),
    }
}

/// A step as a person may write it, rightly or not.
fn rewritten(random: &mut Random, step: &[u8]) -> Vec<u8> {
    let open = step.iter().position(|&byte| byte == b'[');
    let name = &step[..open.unwrap_or(step.len())];
    let mark = match random.below(16) {
        0 => "[0]",
        1 => "[1]",
        2 => "[00]",
        3 => "[]",
        4 => "[ 0]",
        5 => "[0][0]",
        6 => "[0",
        7 => "[18446744073709551616]",
        8 => "[99999999999999999999999999999999]",
        9 => "]",
        10 => "[-0]",
        11 => "[2047]",
        12 => "[10]",
        _ => "",
    };
    [name, mark.as_bytes()].concat()
}

fn damaged(random: &mut Random, path: &mut Vec<u8>) {
    let place = random.below(path.len() + 1);
    let byte = random.pick_byte(b".[]0129 a_\0\xff-");
    match random.below(3) {
        0 => path.insert(place, byte),
        1 if place < path.len() => path[place] = byte,
        _ => path.truncate(place),
    }
}

/// Questions about a text that was read: true paths, with and without `[0]`, damaged ones, and
/// those of other objects and kinds.
pub fn questions(
    random: &mut Random,
    text: &[u8],
    reading: &Reading,
    count: usize,
) -> Vec<Question> {
    let mut questions = Vec::new();
    while questions.len() < count && !reading.values.is_empty() {
        let row = random.below(reading.values.len());
        let (mut object, mut steps) = home(text, reading, row);
        for step in &mut steps {
            if random.once_in(3) {
                *step = rewritten(random, step);
            } else if random.once_in(2) {
                let open = step.iter().position(|&byte| byte == b'[');
                step.truncate(open.unwrap_or(step.len()));
            }
        }
        if random.once_in(12) {
            steps.push(random.pick(&["x", "", "A", "STATE"]).as_bytes().to_vec());
        }
        let mut path = steps.join(&b'.');
        if random.once_in(8) {
            damaged(random, &mut path);
        }
        if random.once_in(10) {
            object = random.below(reading.objects.len());
        }
        let object = &reading.objects[object];
        let mut kind = KINDS[object.kind].as_bytes().to_vec();
        let mut name = object.name.of(text).to_vec();
        if random.once_in(20) {
            kind = random
                .pick(&["TASK", "OS", "task", "", "OS_TYPE", "CPU"])
                .as_bytes()
                .to_vec();
        }
        if random.once_in(20) {
            damaged(random, &mut name);
        }
        questions.push(Question { kind, name, path });
    }
    questions
}
