//! The proved calls `read` and `write` on lent memory full of noise, compared with an answer
//! of the reference cell by cell and byte by byte.

use crate::families::{Family, Known};
use crate::meaning::{read, Reading, Refusal};
use crate::proved;
use crate::random::Random;
use crate::tables::{self, Answer, NAMES, ROOMS, TOLD, WIDTHS};
use std::collections::HashSet;
use std::hash::{DefaultHasher, Hash, Hasher};

/// What is kept past each room, past what is told and past the lent output.
pub const PAST: usize = 40;

/// The lengths of tables with more than their room.
pub const LONGER: [usize; 4] = [
    ROOMS[0] + PAST,
    ROOMS[1] + PAST,
    ROOMS[2] + PAST,
    ROOMS[3] + PAST,
];

/// Lent memory, and the noise that it is full of before a call.
pub struct Lent {
    tables: [Vec<usize>; 4],
    told: Vec<usize>,
    output: Vec<u8>,
    noise: Vec<usize>,
    byte_noise: Vec<u8>,
    random: Random,
}

impl Default for Lent {
    fn default() -> Lent {
        let mut random = Random::new(31);
        let longest = *LONGER.iter().max().expect("four tables");
        let noise = (0..longest).map(|_| random.number() as usize | 1).collect();
        Lent {
            tables: Default::default(),
            told: Vec::new(),
            output: Vec::new(),
            noise,
            byte_noise: Vec::new(),
            random,
        }
    }
}

impl Lent {
    /// Calls `read` with tables of these lengths; what differs from the answer.
    pub fn read(
        &mut self,
        text: &[u8],
        lengths: [usize; 4],
        answer: &Answer,
    ) -> Result<(), String> {
        self.fill(lengths);
        let number = call_read(text, &mut self.tables, &mut self.told);
        self.answers(number, answer, &answer.told)
    }

    /// Calls `write` with tables and an output of these lengths; what differs from the answer
    /// and from what is to be written.
    pub fn write(
        &mut self,
        text: &[u8],
        lengths: [usize; 4],
        output: usize,
        answer: &Answer,
        written: &[u8],
    ) -> Result<(), String> {
        self.fill(lengths);
        while self.byte_noise.len() < output + PAST {
            self.byte_noise.push(self.random.byte());
        }
        self.output.clear();
        self.output.extend(&self.byte_noise[..output + PAST]);
        let lent = &mut self.output[..output];
        let number = call_write(text, &mut self.tables, lent, &mut self.told);
        self.answers(number, answer, &[answer.told[0], written.len()])?;
        let (found, past) = self.output.split_at(written.len());
        if found != written {
            let mut pairs = found.iter().zip(written);
            let place = pairs.position(|(found, expected)| found != expected);
            return Err(format!("output: byte {}", place.expect("one differs")));
        }
        match past == &self.byte_noise[found.len()..output + PAST] {
            true => Ok(()),
            false => Err("output: past what is written".into()),
        }
    }

    fn fill(&mut self, lengths: [usize; 4]) {
        for (table, length) in self.tables.iter_mut().zip(lengths) {
            table.clear();
            table.extend(&self.noise[..length]);
        }
        self.told.clear();
        self.told.extend(&self.noise[..TOLD + PAST]);
    }

    fn answers(&self, number: u8, answer: &Answer, told: &[usize]) -> Result<(), String> {
        if number != answer.number {
            return Err(format!("number {number} for {}", answer.number));
        }
        let (found, past) = self.told.split_at(told.len());
        if found != told {
            return Err(format!("told {found:?} for {told:?}"));
        }
        if *past != self.noise[told.len()..self.told.len()] {
            return Err("past what is told".into());
        }
        (0..4).try_for_each(|index| self.table(index, answer))
    }

    fn table(&self, index: usize, answer: &Answer) -> Result<(), String> {
        let (name, table, rows) = (NAMES[index], &self.tables[index], &answer.rows[index]);
        // The room is touched by any answer but refusal 1.
        let room = match answer.number {
            1 => 0,
            _ => ROOMS[index],
        };
        if table[room..] != self.noise[room..table.len()] {
            return Err(format!("{name}: past the room"));
        }
        let (used, unused) = table[..room].split_at(rows.len());
        if used != rows {
            let mut pairs = used.iter().zip(rows);
            let cell = pairs.position(|(found, expected)| found != expected);
            let cell = cell.expect("a cell that differs");
            return Err(format!(
                "{name}: row {}, cell {}: {} for {}",
                cell / WIDTHS[index],
                cell % WIDTHS[index],
                used[cell],
                rows[cell]
            ));
        }
        if unused.iter().fold(0, |all, cell| all | cell) != 0 {
            let cell = unused.iter().position(|cell| *cell != 0);
            let cell = used.len() + cell.expect("a cell that is not zero");
            return Err(format!("{name}: unused cell {cell} is {}", table[cell]));
        }
        Ok(())
    }
}

#[cfg(proved_reading)]
fn call_read(text: &[u8], tables: &mut [Vec<usize>; 4], told: &mut [usize]) -> u8 {
    proved::reading::read(text, tables.each_mut().map(Vec::as_mut_slice), told)
}

#[cfg(not(proved_reading))]
fn call_read(_: &[u8], _: &mut [Vec<usize>; 4], _: &mut [usize]) -> u8 {
    unreachable!("only asked where it is linked")
}

#[cfg(proved_writing)]
fn call_write(
    text: &[u8],
    tables: &mut [Vec<usize>; 4],
    output: &mut [u8],
    told: &mut [usize],
) -> u8 {
    let tables = tables.each_mut().map(Vec::as_mut_slice);
    proved::writing::write(text, tables, output, told)
}

#[cfg(not(proved_writing))]
fn call_write(_: &[u8], _: &mut [Vec<usize>; 4], _: &mut [u8], _: &mut [usize]) -> u8 {
    unreachable!("only asked where it is linked")
}

/// How many texts were compared, and what the answers were.
#[derive(Default)]
pub struct Counts {
    texts: HashSet<u64>,
    accepted: usize,
    values: usize,
    pub refused: [usize; 25],
}

impl Counts {
    fn count(&mut self, text: &[u8], read: &Result<Reading, Refusal>) {
        if !self.texts.insert(hash(text)) {
            return;
        }
        match read {
            Ok(reading) => {
                self.accepted += 1;
                self.values += reading.values.len();
            }
            Err(refusal) => self.refused[refusal.number as usize] += 1,
        }
    }

    fn report(&self, family: &Family, is_linked: bool) {
        println!(
            "{}: {} {} different texts, {} accepted with {} values, refused by number {}",
            family.name,
            verb(is_linked),
            self.texts.len(),
            self.accepted,
            self.values,
            by_number(&self.refused)
        );
        assert!(self.texts.len() >= family.least);
        for (numbers, passed) in family.refused {
            for number in *numbers {
                let count = self.refused[usize::from(*number)];
                assert!(count > *passed, "{count} texts refused with {number}");
            }
        }
    }
}

/// What is said of texts: that the proved library agrees on them, or that it is not linked.
pub fn verb(is_linked: bool) -> &'static str {
    match is_linked {
        true => "agree on",
        false => "the reference alone on",
    }
}

/// How often each number was given, of those that were.
pub fn by_number(counts: &[usize]) -> String {
    let counts = counts.iter().enumerate();
    let counts: Vec<String> = counts
        .filter(|(_, count)| **count > 0)
        .map(|(number, count)| format!("{number}: {count}"))
        .collect();
    counts.join(", ")
}

/// A number that is the same for the same bytes, and hardly ever for others.
pub fn hash(text: &[u8]) -> u64 {
    let mut hasher = DefaultHasher::new();
    text.hash(&mut hasher);
    hasher.finish()
}

/// What the reference reads.
pub type Read = Result<Reading, Refusal>;

/// Asks the reference for each text of a family, holds it to what is known, and asks `agrees`
/// where the layer's functions are linked.
pub fn compare(
    family: &Family,
    layer: &str,
    agrees: fn(&mut Lent, &[u8], &Read) -> Result<(), String>,
) -> Counts {
    let is_linked = proved::is_linked(layer);
    let mut lent = Lent::default();
    let mut counts = Counts::default();
    (family.texts)(&mut |case| {
        let read = read(&case.text);
        match case.known {
            Known::Nothing => (),
            Known::Accepted => assert!(read.is_ok(), "{}: {:?}", case.name, read.err()),
            Known::Refused(refusal) => {
                assert_eq!(read.as_ref().err(), Some(&refusal), "{}", case.name);
            }
        }
        if is_linked {
            if let Err(difference) = agrees(&mut lent, &case.text, &read) {
                let text = case.text.escape_ascii();
                panic!("{}: {}: {difference}\ntext: {text}", family.name, case.name);
            }
        }
        counts.count(&case.text, &read);
    });
    counts.report(family, is_linked);
    counts
}

/// Asks `agrees` for some texts with lent tables of which one or more are too short, where the
/// layer's functions are linked; it tells how many calls it made.
pub fn compare_short(
    layer: &str,
    agrees: fn(&mut Lent, &[u8], &Read, [usize; 4]) -> Result<usize, String>,
) {
    if !proved::is_linked(layer) {
        return;
    }
    let mut lent = Lent::default();
    let mut calls = 0;
    for text in some_texts() {
        let read = read(&text);
        for lengths in short_tables() {
            match agrees(&mut lent, &text, &read, lengths) {
                Ok(more) => calls += more,
                Err(fault) => panic!("{} bytes, {lengths:?}: {fault}", text.len()),
            }
        }
    }
    println!("tables too short: agree on {calls} calls");
}

/// The texts that refusal 1 is tried with.
fn some_texts() -> [Vec<u8>; 5] {
    [
        crate::answered::accepted(7).text,
        crate::configuration::configuration(51_000).into_bytes(),
        b"#".to_vec(),
        b"".to_vec(),
        b" ".repeat(70_000),
    ]
}

/// Lengths of lent tables, one or more of them too short, and last those of the rooms.
fn short_tables() -> Vec<[usize; 4]> {
    let mut all = vec![[0; 4]];
    for table in 0..4 {
        for length in [ROOMS[table] - 1, ROOMS[table] / 2, 1, 0] {
            for others in [ROOMS, LONGER] {
                let mut lengths = others;
                lengths[table] = length;
                all.push(lengths);
            }
        }
    }
    // Each choice of tables that are one cell too short.
    let short = |choice: usize| [0, 1, 2, 3].map(|table| ROOMS[table] - (choice >> table & 1));
    all.extend((0..16).rev().map(short));
    all
}

/// The answer with tables of these lengths: refusal 1 comes before all others.
pub fn answer_within(lengths: [usize; 4], read: &Read) -> Answer {
    match lengths.iter().zip(ROOMS).any(|(lent, room)| *lent < room) {
        true => tables::refused(1, 0),
        false => tables::answer(read),
    }
}
