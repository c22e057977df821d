//! Document 02, Q-13, written from the paper: what the calls of include/kaukslini.h answer, and
//! what the lent output holds afterwards.

use crate::explaining::explained;
use crate::including::{self, normal_within, Refused};
use crate::values::{alone, value, Question, Valued};

/// `struct kaukslini_answer`.
#[repr(C)]
#[derive(Clone, Copy, Debug, PartialEq, Eq)]
pub struct Answer {
    pub number: usize,
    pub place: usize,
    pub length: usize,
}

/// `KAUKSLINI_NOT_FOUND`
pub const NOT_FOUND: usize = 255;

/// The answer, and the output with the bytes at its front.
fn told(answer: Valued, output: &[u8]) -> (Answer, Vec<u8>) {
    let mut after = output.to_vec();
    let (number, place, length) = match answer {
        Valued::Refused(Refused { number, place }) => {
            assert_eq!(place.text, 0, "the text is alone");
            (number.into(), place.byte, 0)
        }
        Valued::NotFound => (NOT_FOUND, 0, 0),
        Valued::Copied(bytes) => {
            after[..bytes.len()].copy_from_slice(&bytes);
            (0, 0, bytes.len())
        }
    };
    let answer = Answer {
        number,
        place,
        length,
    };
    (answer, after)
}

/// What `kaukslini_normal_text` gives.
pub fn normal_text(text: &[u8], output: &[u8]) -> (Answer, Vec<u8>) {
    match normal_within(&alone(text), output.len()) {
        Ok(written) => told(Valued::Copied(written), output),
        Err(refused) => told(Valued::Refused(refused), output),
    }
}

/// What `kaukslini_value` gives.
pub fn value_of(text: &[u8], question: &Question, output: &[u8]) -> (Answer, Vec<u8>) {
    told(value(text, question, output.len()), output)
}

/// `struct kaukslini_version_and_name`.
#[repr(C)]
#[derive(Clone, Copy, Debug, Default, PartialEq, Eq)]
pub struct Heading {
    pub number: usize,
    pub place: usize,
    pub version: usize,
    pub version_length: usize,
    pub name: usize,
    pub name_length: usize,
}

/// What `kaukslini_heading` gives.
pub fn heading(text: &[u8]) -> Heading {
    match including::heading(&alone(text)) {
        Ok([version, name]) => Heading {
            version: version.place.byte,
            version_length: version.bytes.len(),
            name: name.place.byte,
            name_length: name.bytes.len(),
            ..Heading::default()
        },
        Err(Refused { number, place }) => Heading {
            number: number.into(),
            place: place.byte,
            ..Heading::default()
        },
    }
}

/// `struct kaukslini_position`.
#[repr(C)]
#[derive(Clone, Copy, Debug, PartialEq, Eq)]
pub struct Position {
    pub line: usize,
    pub column: usize,
    pub length: usize,
}

/// What `kaukslini_explain` gives.
pub fn explain(text: &[u8], place: usize, output: &[u8]) -> (Position, Vec<u8>) {
    let shown = explained(text, place);
    let picture = shown.picture.concat();
    let mut after = output.to_vec();
    for (cell, &byte) in after.iter_mut().zip(&picture) {
        *cell = byte;
    }
    let position = Position {
        line: shown.line,
        column: shown.column,
        length: picture.len(),
    };
    (position, after)
}
