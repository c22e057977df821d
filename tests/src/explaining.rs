//! Line and column of a place of a text, and the two lines that show it to a person.

use crate::token::{step, Step};

/// The most bytes of a line that are shown, and those before the place where more follow.
const SHOWN: usize = 72;
const BEFORE: usize = 36;

/// Line and column, counted from 1, and the two lines, each with LF.
#[derive(Clone, Debug, PartialEq, Eq)]
pub struct Explained {
    pub line: usize,
    pub column: usize,
    pub picture: [Vec<u8>; 2],
}

/// How many bytes are marked at a place: those of the token that begins there, else one.
fn marked(text: &[u8], place: usize) -> usize {
    match step(text, place) {
        Step::Token(token, _) if token.place == place => token.length,
        _ => 1,
    }
}

/// The two lines that show a column, counted from 0, with so many bytes marked. Of the bytes of the
/// line so many are shown; the mark may stand after them.
fn picture(line: &[u8], length: usize, column: usize, marked: usize) -> [Vec<u8>; 2] {
    let mut over = Vec::new();
    let mut under = Vec::new();
    let first = column
        .saturating_sub(BEFORE)
        .min(length.saturating_sub(SHOWN));
    let last = length.min(first + SHOWN);
    if first > 0 {
        over.extend(b"...");
        under.extend(b"   ");
    }
    for &byte in &line[first..last] {
        over.push(match byte {
            b'\t' | b' '..=b'~' => byte,
            _ => b'?',
        });
    }
    for &byte in &line[first..column] {
        under.push(if byte == b'\t' { b'\t' } else { b' ' });
    }
    under.push(b'^');
    for &byte in line[..last].iter().take(column + marked).skip(column + 1) {
        under.push(if byte == b'\t' { b'\t' } else { b'~' });
    }
    if last < length {
        over.extend(b"...");
    }
    over.push(b'\n');
    under.push(b'\n');
    [over, under]
}

/// The column, counted from 0, after some bytes of a line: in characters where they are UTF-8.
fn column_of(front: &[u8]) -> usize {
    match std::str::from_utf8(front) {
        Ok(front) => front.chars().count(),
        Err(_) => front.len(),
    }
}

/// What is told of a place; one past the text is its end.
pub fn explained(text: &[u8], place: usize) -> Explained {
    let place = place.min(text.len());
    // The line of the place is that of the last LF before it; all lines but the last may
    // end in CR, which belongs to the line's end.
    let lines: Vec<&[u8]> = text.split(|&byte| byte == b'\n').collect();
    let mut start = 0;
    let mut above = 0;
    while place > start + lines[above].len() {
        start += lines[above].len() + 1;
        above += 1;
    }
    let line = lines[above];
    let length = match above + 1 < lines.len() {
        true => line.strip_suffix(b"\r").unwrap_or(line).len(),
        false => line.len(),
    };
    let column = place - start;
    Explained {
        line: above + 1,
        column: column_of(&text[start..place]) + 1,
        picture: picture(line, length, column, marked(text, place)),
    }
}
