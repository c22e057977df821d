//! The proved call `read` against the reference: number, place, sizes, counts and every cell
//! of the four lent tables, and of the memory past them.

use tests::comparing::{answer_within, compare, compare_short};
use tests::comparing::{Counts, Lent, Read, LONGER};
use tests::families::{self, Family, PLANTED};
use tests::tables;

fn reads(family: &Family) -> Counts {
    compare(family, "reading", agrees)
}

fn agrees(lent: &mut Lent, text: &[u8], read: &Read) -> Result<(), String> {
    lent.read(text, LONGER, &tables::answer(read))
}

#[test]
fn corpus_texts() {
    reads(&families::CORPUS);
    reads(&families::CASES);
}

#[test]
fn tempting_but_wrong() {
    reads(&families::TEMPTING);
}

#[test]
fn accepted_texts() {
    reads(&families::ACCEPTED);
}

#[test]
fn one_fault() {
    let counts = reads(&families::ONE_FAULT);
    let counts = PLANTED.map(|number| counts.refused[number as usize]);
    assert!(counts.iter().all(|count| *count > 500));
}

#[test]
fn two_faults() {
    reads(&families::ONE_STAGE);
    reads(&families::TWO_STAGES);
}

#[test]
fn floats() {
    reads(&families::FLOATS);
}

#[test]
fn limit_texts() {
    reads(&families::LIMITS);
    reads(&families::DAMAGED_LIMITS);
}

#[test]
fn tokens_exchanged() {
    reads(&families::EXCHANGED);
    reads(&families::ONE_OFF);
}

#[test]
fn damaged_texts() {
    reads(&families::DAMAGED);
}

#[test]
fn truncations() {
    reads(&families::TRUNCATIONS);
}

#[test]
fn bytes_and_token_soup() {
    reads(&families::BYTES);
}

#[test]
fn derived_texts() {
    reads(&families::DERIVED);
}

#[test]
fn heavy_texts() {
    reads(&families::HEAVY);
}

#[test]
fn ranges_and_defaults() {
    let counts = reads(&families::RANGES);
    assert!(counts.refused[21..=23].iter().all(|count| *count > 1_000));
}

#[test]
fn objects_in_parts() {
    let counts = reads(&families::PARTS);
    assert!([11, 13, 14, 15, 16, 17, 18]
        .iter()
        .all(|number| counts.refused[*number] > 50));
}

#[test]
fn names_in_several_kinds() {
    let counts = reads(&families::NAMES);
    assert!(counts.refused[24] > 1_000 && counts.refused[18] > 50);
}

/// Refusal 1 comes before all others and touches no cell.
#[test]
fn tables_too_short() {
    compare_short("reading", |lent, text, read, lengths| {
        lent.read(text, lengths, &answer_within(lengths, read))?;
        Ok(1)
    });
}
