//! The proved calls over lent texts on memory full of noise, compared with the reference cell by
//! cell and byte by byte.

use crate::comparing::{LONGER, PAST};
use crate::including::{self, Buffer, Expanded, Joined, Lent, Refused, Told};
use crate::including::{LONGEST, START, TOO_MUCH};
use crate::masks::{Checked, Planned};
use crate::meaning::{Reading, Refusal};
use crate::mending::mend_within;
use crate::normal;
use crate::proved;
use crate::random::Random;
use crate::tables::{self, Answer, NAMES, ROOMS, TOLD};

/// How much of each memory is lent.
#[derive(Clone, Copy, Debug, PartialEq, Eq)]
pub struct Rooms {
    pub expanded: usize,
    pub origins: usize,
    pub tables: [usize; 4],
}

/// No more than is asked for.
pub const EXACT: Rooms = Rooms {
    expanded: LONGEST,
    origins: LONGEST,
    tables: ROOMS,
};

/// More than is asked for.
pub const MORE: Rooms = Rooms {
    expanded: LONGEST + PAST,
    origins: LONGEST + PAST,
    tables: LONGER,
};

/// Memory for the expanded text and its origins: what is asked for, more, and less of each.
pub const LENT: [[usize; 2]; 4] = [
    [LONGEST, LONGEST],
    [LONGEST + 5, LONGEST + 40],
    [LONGEST - 1, LONGEST],
    [LONGEST, LONGEST - 1],
];

/// So much that it is enough, but for two of `times` seeds.
pub fn lent(seed: u64, times: u64) -> [usize; 2] {
    match seed % times {
        0 => LENT[2],
        1 => LENT[3],
        seed => LENT[seed as usize % 2],
    }
}

/// What is asked about: lent texts, so much memory for the expanded text and its origins, and the
/// reference's answers.
pub struct Asked<'a> {
    pub buffer: &'a Buffer,
    pub lent: [usize; 2],
    pub answers: &'a Answers,
}

/// Whether less is lent for the expanded text or its origins than is asked for.
fn are_short(lent: [usize; 2]) -> bool {
    lent.iter().any(|length| *length < LONGEST)
}

impl Rooms {
    fn are_short(&self) -> bool {
        let mut tables = self.tables.iter().zip(ROOMS);
        are_short([self.expanded, self.origins]) || tables.any(|(lent, room)| *lent < room)
    }
}

/// What the reference answers to what is lent.
pub struct Answers {
    /// Nothing where the texts are not lent as they have to be.
    pub texts: Option<Vec<Lent>>,
    expanded: Option<Expanded>,
    joined: Result<Joined, Refused>,
    /// Rows with places in the joined text.
    pub read: Result<Reading, Refused>,
}

impl Answers {
    pub fn new(buffer: &Buffer) -> Answers {
        let texts = buffer.texts();
        let expanded = texts.as_deref().map(including::expanded);
        let joined = texts.as_deref().map_or(Err(TOO_MUCH), including::join);
        let read = match &joined {
            Ok(joined) => joined.read(),
            Err(refused) => Err(*refused),
        };
        Answers {
            texts,
            expanded,
            joined,
            read,
        }
    }

    pub fn joined(&self) -> &Joined {
        self.joined.as_ref().unwrap_or_else(|_| panic!("refused"))
    }

    /// The answer of `read` with these rooms.
    pub fn reading(&self, rooms: &Rooms) -> Answer {
        match &self.read {
            _ if rooms.are_short() => tables::refused(1, 0),
            Ok(reading) => {
                let placed = self.joined().placed_rows(reading.clone());
                tables::answer(&Ok(placed))
            }
            Err(Refused { number, place }) => tables::answer(&Err(Refusal {
                number: *number,
                place: place.cell(),
            })),
        }
    }

    /// The normal text of accepted texts.
    pub fn normal(&self) -> Option<Vec<u8>> {
        let reading = self.read.as_ref().ok()?;
        Some(normal::write(&self.joined().text, reading))
    }

    /// What `expand` tells: the number of the first of 3 and 27 to 29, 0 for none, or 30; its
    /// place, that of the end where there is none; and how long the text is, through the end of
    /// the text that has the fault.
    fn expansion(&self) -> (u8, [usize; 2]) {
        let expanded = match (&self.joined, &self.expanded) {
            (Ok(_), Some(expanded)) => expanded,
            _ => return (30, [0, 0]),
        };
        match &expanded.fault {
            Some(fault) => (fault.number, [fault.place, expanded.end]),
            None => (0, [expanded.end, expanded.end]),
        }
    }

    /// The bytes and origins that are stored where there is room for 65,535.
    fn stored(&self) -> (Vec<u8>, Vec<usize>) {
        let Some(expanded) = &self.expanded else {
            return Default::default();
        };
        let length = expanded.end.min(LONGEST).min(expanded.bytes.len());
        let origins = expanded.origins[..length].iter();
        (
            expanded.bytes[..length].to_vec(),
            origins.map(|place| place.cell()).collect(),
        )
    }
}

impl Asked<'_> {
    /// The answer to a question: first 1, then 30 where the texts are not lent as they have to be.
    fn question<T>(&self, ask: impl Fn(&[Lent]) -> Result<T, Refused>) -> Result<T, Refused> {
        if are_short(self.lent) {
            return Err(Refused {
                number: 1,
                place: START,
            });
        }
        self.answers.texts.as_deref().map_or(Err(TOO_MUCH), ask)
    }
}

/// Memory that is full of noise before each call.
struct Noisy<T> {
    name: &'static str,
    cells: Vec<T>,
    noise: Vec<T>,
}

impl<T: Copy + PartialEq + std::fmt::Debug> Noisy<T> {
    fn new(name: &'static str, length: usize, noise: impl FnMut() -> T) -> Noisy<T> {
        let noise: Vec<T> = std::iter::repeat_with(noise).take(length + PAST).collect();
        Noisy {
            name,
            cells: noise.clone(),
            noise,
        }
    }

    /// So many of them, lent; what is there of the noise stays past them.
    fn lend(&mut self, length: usize) -> &mut [T] {
        &mut self.cells[..length]
    }

    /// The first of them are as expected, and all others as before; then all are as before.
    fn holds(&mut self, expected: &[T]) -> Result<(), String> {
        let (found, rest) = self.cells.split_at(expected.len());
        if found != expected {
            let mut pairs = found.iter().zip(expected);
            let cell = pairs.position(|(found, expected)| found != expected);
            let cell = cell.expect("one differs");
            let (found, expected) = (found[cell], expected[cell]);
            return Err(format!("{} {cell}: {found:?} for {expected:?}", self.name));
        }
        if *rest != self.noise[expected.len()..] {
            return Err(format!("{}: past {}", self.name, expected.len()));
        }
        self.cells[..expected.len()].copy_from_slice(&self.noise[..expected.len()]);
        Ok(())
    }
}

pub struct Memory {
    expanded: Noisy<u8>,
    origins: Noisy<usize>,
    tables: [Noisy<usize>; 4],
    told: Noisy<usize>,
    output: Noisy<u8>,
    lines: Noisy<u8>,
}

/// As much output as is ever lent.
const OUTPUT: usize = 300_000;

/// As much for the lines of what is dropped: more than 2,048 of them take.
const LINES: usize = 65_536;

impl Default for Memory {
    fn default() -> Memory {
        let random = &mut Random::new(10);
        let mut cells = |name, length| Noisy::new(name, length, || random.number() as usize | 1);
        let origins = cells("origin", MORE.origins);
        let told = cells("told", TOLD);
        let tables = [0, 1, 2, 3].map(|table| cells(NAMES[table], LONGER[table]));
        Memory {
            expanded: Noisy::new("expanded byte", MORE.expanded, || random.byte()),
            output: Noisy::new("output byte", OUTPUT, || random.byte()),
            lines: Noisy::new("byte of a line", LINES, || random.byte()),
            origins,
            tables,
            told,
        }
    }
}

impl Memory {
    /// Calls `expand` with this much memory; what differs from the answers.
    pub fn expand(
        &mut self,
        buffer: &Buffer,
        lent: [usize; 2],
        answers: &Answers,
    ) -> Result<(), String> {
        let number = proved::including::expand(
            buffer,
            self.expanded.lend(lent[0]),
            self.origins.lend(lent[1]),
            self.told.lend(2),
        );
        let (expected, told) = answers.expansion();
        is_number(number, usize::from(expected))?;
        self.told.holds(&told)?;
        let (bytes, origins) = answers.stored();
        self.expanded.holds(&bytes[..bytes.len().min(lent[0])])?;
        self.origins.holds(&origins[..origins.len().min(lent[1])])
    }

    /// Calls `read` with this much memory; what differs from the answers.
    pub fn read(
        &mut self,
        buffer: &Buffer,
        rooms: &Rooms,
        answers: &Answers,
    ) -> Result<(), String> {
        let answer = answers.reading(rooms);
        let tables = self.tables.each_mut();
        let number = proved::including::read(
            buffer,
            self.expanded.lend(rooms.expanded),
            self.origins.lend(rooms.origins),
            lend(tables, &rooms.tables),
            self.told.lend(TOLD),
        );
        is_number(usize::from(number), usize::from(answer.number))?;
        self.told.holds(&answer.told)?;
        self.holds(&answer, answers)
    }

    /// Calls `write` with this much memory and an output; what differs from the answers.
    pub fn write(
        &mut self,
        buffer: &Buffer,
        rooms: &Rooms,
        output: usize,
        answers: &Answers,
        normal: Option<&[u8]>,
    ) -> Result<(), String> {
        let mut answer = answers.reading(rooms);
        let written = match normal {
            Some(normal) if answer.number == 0 && normal.len() <= output => normal,
            _ => b"",
        };
        if answer.number == 0 && written.is_empty() {
            answer = tables::refused(20, 0);
        }
        let tables = self.tables.each_mut();
        let told = proved::including::write(
            buffer,
            self.expanded.lend(rooms.expanded),
            self.origins.lend(rooms.origins),
            lend(tables, &rooms.tables),
            self.output.lend(output),
        );
        let expected = Told {
            number: usize::from(answer.number),
            place: answer.told[0],
            length: written.len(),
        };
        if told != expected {
            return Err(format!("{told:?} for {expected:?}"));
        }
        self.output.holds(written)?;
        self.holds(&answer, answers)
    }

    /// Asks for the heading; what differs from the answer.
    pub fn heading(&mut self, asked: &Asked) -> Result<(), String> {
        let (number, cells) = match asked.question(including::heading) {
            Ok(parts) => {
                let cells = parts.map(|part| [part.place.cell(), part.bytes.len()]);
                (0, cells.concat())
            }
            Err(Refused { number, place }) => (number, vec![place.cell()]),
        };
        let memory = [self.origins.lend(asked.lent[1]), self.told.lend(TOLD)];
        let found =
            proved::questions::heading(asked.buffer, memory, self.expanded.lend(asked.lent[0]));
        is_number(usize::from(found), usize::from(number))?;
        self.answered(asked, &cells)
    }

    /// Asks whether masks are accepted; what differs from the answer.
    pub fn check_masks(&mut self, asked: &Asked, masks: &[u64]) -> Result<(), String> {
        let answer = asked.question(|texts| including::check_masks(texts, masks));
        let (case, cells) = match answer {
            Err(Refused { number, place }) => (0, [usize::from(number), place.cell()]),
            Ok(Checked::NotPlannable) => (1, [0, 0]),
            Ok(Checked::WrongLength) => (2, [0, 0]),
            Ok(Checked::Breaks(event)) => (3, [event, 0]),
            Ok(Checked::Accepted) => (4, [0, 0]),
            Ok(Checked::Refused(refusal)) => panic!("{refusal:?}"),
        };
        let memory = [self.origins.lend(asked.lent[1]), self.told.lend(TOLD)];
        let expanded = self.expanded.lend(asked.lent[0]);
        let found = proved::questions::check_masks(asked.buffer, memory, expanded, masks);
        is_number(usize::from(found), case)?;
        self.answered(asked, &cells)
    }

    /// Asks for masks, in a list that is lent; what differs from the answer.
    pub fn plan_masks(&mut self, asked: &Asked, masks: &[u64]) -> Result<(), String> {
        let answer = asked.question(|texts| including::plan_masks(texts, masks));
        let (case, cells) = match &answer {
            Err(Refused { number, place }) => (0, [usize::from(*number), place.cell()]),
            Ok((Planned::NotPlannable, _)) => (1, [0, 0]),
            Ok((Planned::WrongLength, _)) => (2, [0, 0]),
            Ok((Planned::Full(event), _)) => (3, [*event, 0]),
            Ok((Planned::Made(count), _)) => (4, [*count, 0]),
            Ok((Planned::Refused(refusal), _)) => panic!("{refusal:?}"),
        };
        let memory = [self.origins.lend(asked.lent[1]), self.told.lend(TOLD)];
        let expanded = self.expanded.lend(asked.lent[0]);
        let mut list = masks.to_vec();
        let found = proved::questions::plan_masks(asked.buffer, memory, expanded, &mut list);
        is_number(usize::from(found), case)?;
        if list != answer.map_or(masks.to_vec(), |(_, list)| list) {
            return Err("another list".into());
        }
        self.answered(asked, &cells)
    }

    /// Asks whether the standard attributes are defined; what differs from the answer.
    pub fn check_standard(&mut self, asked: &Asked) -> Result<(), String> {
        let (case, cells) = match asked.question(including::check_standard) {
            Err(Refused { number, place }) => (0, [usize::from(number), place.cell(), 0]),
            Ok(None) => (1, [0, 0, 0]),
            Ok(Some(found)) => {
                let number = usize::from(found.number);
                (2, [number, found.place.cell(), found.attribute])
            }
        };
        let memory = [self.origins.lend(asked.lent[1]), self.told.lend(TOLD)];
        let found = proved::questions::check_standard(
            asked.buffer,
            memory,
            self.expanded.lend(asked.lent[0]),
        );
        is_number(usize::from(found), case)?;
        self.answered(asked, &cells)
    }

    /// Mends the texts with outputs of these lengths; what differs from the answer.
    pub fn mend(&mut self, asked: &Asked, outputs: [usize; 2]) -> Result<(), String> {
        let answer = asked.question(|texts| mend_within(texts, outputs));
        let memory = [self.origins.lend(asked.lent[1]), self.told.lend(TOLD)];
        let bytes = [
            self.expanded.lend(asked.lent[0]),
            self.output.lend(outputs[0]),
            self.lines.lend(outputs[1]),
        ];
        let found = proved::mending::mend(asked.buffer, memory, bytes);
        let (number, told, mended) = match answer {
            Err(Refused { number, place }) => (number, [place.cell(), 0, 0], None),
            Ok(mended) => (0, [0, mended.text.len(), mended.lines.len()], Some(mended)),
        };
        is_number(usize::from(found), usize::from(number))?;
        let (text, lines) =
            mended.map_or_else(Default::default, |mended| (mended.text, mended.lines));
        self.output.holds(&text)?;
        self.lines.holds(&lines)?;
        self.answered(asked, &told)
    }

    /// What is told of a question, and what the memory for the expanded text holds.
    fn answered(&mut self, asked: &Asked, told: &[usize]) -> Result<(), String> {
        self.told.holds(told)?;
        let (bytes, origins) = match are_short(asked.lent) {
            true => Default::default(),
            false => asked.answers.stored(),
        };
        self.expanded.holds(&bytes)?;
        self.origins.holds(&origins)
    }

    /// What the memory for the expanded text and the tables holds after an answer. Refusal 1
    /// leaves it.
    fn holds(&mut self, answer: &Answer, answers: &Answers) -> Result<(), String> {
        let (bytes, origins) = match answer.number {
            1 => Default::default(),
            _ => answers.stored(),
        };
        self.expanded.holds(&bytes)?;
        self.origins.holds(&origins)?;
        for (table, rows) in answer.rows.iter().enumerate() {
            let mut cells = rows.clone();
            if answer.number != 1 {
                cells.resize(ROOMS[table], 0);
            }
            self.tables[table].holds(&cells)?;
        }
        Ok(())
    }
}

fn lend<'a>(tables: [&'a mut Noisy<usize>; 4], lengths: &[usize; 4]) -> [&'a mut [usize]; 4] {
    let mut lengths = lengths.iter();
    tables.map(|table| table.lend(*lengths.next().expect("four tables")))
}

fn is_number(found: usize, expected: usize) -> Result<(), String> {
    match found == expected {
        true => Ok(()),
        false => Err(format!("number {found} for {expected}")),
    }
}
