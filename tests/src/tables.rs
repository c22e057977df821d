//! The four lent tables as docs/TABLES.md fixes them: rooms, rows and columns, and the
//! numbers that are told beside them, for what the reference reads.

use crate::meaning::{DefinitionRow, EnumeratorRow, ObjectRow, Owner, Reading, Refusal};
use crate::meaning::{Resolved, ValueRow};
use crate::meaning::{MOST_DEFINITIONS, MOST_ENUMERATORS, MOST_OBJECTS, MOST_VALUES};
use crate::tree::{Part, Type};

/// The names of the tables, in the order in which they are lent.
pub const NAMES: [&str; 4] = ["definitions", "enumerators", "objects", "values"];

/// The cells of a row of each table.
pub const WIDTHS: [usize; 4] = [13, 3, 8, 9];

/// The cells of each room.
pub const ROOMS: [usize; 4] = [
    MOST_DEFINITIONS * WIDTHS[0],
    MOST_ENUMERATORS * WIDTHS[1],
    MOST_OBJECTS * WIDTHS[2],
    MOST_VALUES * WIDTHS[3],
];

/// How many numbers are told beside the tables: the place, four sizes, thirteen counts.
pub const TOLD: usize = 18;

/// All that a call answers.
#[derive(Clone, Debug, PartialEq, Eq)]
pub struct Answer {
    /// The number of the refusal, 0 where the text is accepted.
    pub number: u8,
    pub told: [usize; TOLD],
    /// The cells of the used rows of each table. All cells after them, up to the end of the
    /// room, are 0; after refusal 1 all cells are as before.
    pub rows: [Vec<usize>; 4],
}

/// The answer for what the reference reads.
pub fn answer(read: &Result<Reading, Refusal>) -> Answer {
    match read {
        Ok(reading) => accepted(reading),
        Err(refusal) => refused(refusal.number, refusal.place),
    }
}

/// The answer that refuses a text.
pub fn refused(number: u8, place: usize) -> Answer {
    let mut told = [0; TOLD];
    told[0] = place;
    Answer {
        number,
        told,
        rows: Default::default(),
    }
}

fn accepted(reading: &Reading) -> Answer {
    let mut told = [0; TOLD];
    told[1] = reading.definitions.len();
    told[2] = reading.enumerators.len();
    told[3] = reading.objects.len();
    told[4] = reading.values.len();
    told[5..].copy_from_slice(&reading.counts);
    Answer {
        number: 0,
        told,
        rows: [
            reading.definitions.iter().flat_map(definition).collect(),
            reading.enumerators.iter().flat_map(enumerator).collect(),
            reading.objects.iter().flat_map(object).collect(),
            reading.values.iter().flat_map(value).collect(),
        ],
    }
}

/// under, name, type, list mark, WITH_AUTO, range, default, the type's code
fn definition(row: &DefinitionRow) -> [usize; 13] {
    let [under, name, type_word] = [row.under, row.name, row.type_word].map(cells);
    let [range, default] = [row.range, row.default].map(cells);
    [
        under[0],
        under[1],
        name[0],
        name[1],
        type_word[0],
        type_word[1],
        usize::from(row.is_list),
        usize::from(row.with_auto),
        range[0],
        range[1],
        default[0],
        default[1],
        code(row.sort),
    ]
}

/// attribute, name
fn enumerator(row: &EnumeratorRow) -> [usize; 3] {
    let name = cells(row.name);
    [row.attribute, name[0], name[1]]
}

/// kind, the kind's word, name, block, number of parts
fn object(row: &ObjectRow) -> [usize; 8] {
    let [word, name, block] = [row.kind_word, row.name, row.block].map(cells);
    [
        row.kind, word[0], word[1], name[0], name[1], block[0], block[1], row.parts,
    ]
}

/// definition, owner, value, stated, word
fn value(row: &ValueRow) -> [usize; 9] {
    let owner = match row.owner {
        Owner::Object(object) => [0, object],
        Owner::Value(value) => [1, value],
    };
    let amount = |number: i128| {
        let amount = u64::try_from(number.unsigned_abs()).expect("a number of the token rules");
        usize::try_from(amount).expect("cells of 64 bits")
    };
    let [sort, sign, amount] = match row.value {
        Resolved::Number(number) => [0, usize::from(number < 0), amount(number)],
        Resolved::True => [1, 0, 1],
        Resolved::False => [1, 0, 0],
        Resolved::Auto => [2, 0, 0],
        Resolved::String => [3, 0, 0],
        Resolved::Enumerator(enumerator) => [4, 0, enumerator],
        Resolved::Object(object) => [5, 0, object],
        Resolved::Float => [6, 0, 0],
    };
    let word = cells(row.word);
    [
        row.definition,
        owner[0],
        owner[1],
        sort,
        sign,
        amount,
        usize::from(row.stated),
        word[0],
        word[1],
    ]
}

/// Place and length; both 0 where there is nothing.
fn cells(part: Part) -> [usize; 2] {
    [part.place, part.length]
}

/// The code of a type's word.
fn code(sort: Type) -> usize {
    match sort {
        Type::Reference(kind) => 22 + kind,
        Type::Uint32 => 35,
        Type::Int32 => 36,
        Type::Uint64 => 37,
        Type::Int64 => 38,
        Type::String => 39,
        Type::Boolean => 40,
        Type::Enum => 41,
        Type::Float => 42,
    }
}
