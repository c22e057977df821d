//! The proved call `write` against the reference: number, place, length, every byte of the lent
//! output, every cell of the four lent tables, and the memory past them. What is written is
//! read and written again.

use tests::comparing::{answer_within, compare, compare_short};
use tests::comparing::{Counts, Lent, Read, LONGER};
use tests::families::{self, Family};
use tests::meaning::{self, Reading, Refusal, LONGEST_TEXT};
use tests::normal::{self, normal_within, without_places};
use tests::{corpus, limits, proved, tables};

fn writes(family: &Family) -> Counts {
    compare(family, "writing", agrees)
}

fn agrees(lent: &mut Lent, text: &[u8], read: &Read) -> Result<(), String> {
    let answer = tables::answer(read);
    let Ok(reading) = read else {
        let output = match text.len() % 16 {
            0 => LONGEST_TEXT,
            _ => text.len() % 400,
        };
        return lent.write(text, LONGER, output, &answer, b"");
    };
    let written = normal::write(text, reading);
    let needed = written.len();
    for output in [needed, needed + 1 + text.len() % 400] {
        lent.write(text, LONGER, output, &answer, &written)?;
    }
    for output in [needed - 1, 0] {
        lent.write(text, LONGER, output, &tables::refused(20, 0), b"")?;
    }
    reads_back(lent, text, reading, &written).map_err(|fault| format!("back: {fault}"))
}

/// "Read back, all is the same but places, lengths and the stated mark", and what is written
/// of it is itself. Where it is too long for a text, it is refused by 2.
fn reads_back(
    lent: &mut Lent,
    text: &[u8],
    reading: &Reading,
    written: &[u8],
) -> Result<(), String> {
    let back = meaning::read(written);
    let answer = tables::answer(&back);
    lent.read(written, LONGER, &answer)?;
    if written.len() > LONGEST_TEXT {
        assert_eq!((answer.number, answer.told[0]), (2, 0));
        return lent.write(written, LONGER, written.len(), &answer, b"");
    }
    let back = back.map_err(|refusal| format!("{refusal:?}"))?;
    if without_places(text, reading) != without_places(written, &back) {
        return Err("other rows".into());
    }
    if !back.values.iter().all(|value| value.stated) {
        return Err("a value that is not stated".into());
    }
    if back.objects.iter().any(|object| object.parts != 1) {
        return Err("an object in parts".into());
    }
    lent.write(written, LONGER, written.len(), &answer, written)
}

#[test]
fn corpus_texts() {
    writes(&families::CORPUS);
    writes(&families::CASES);
}

#[test]
fn tempting_but_wrong() {
    writes(&families::TEMPTING);
}

#[test]
fn accepted_texts() {
    writes(&families::ACCEPTED);
}

#[test]
fn one_fault() {
    writes(&families::ONE_FAULT);
}

#[test]
fn two_faults() {
    writes(&families::ONE_STAGE);
    writes(&families::TWO_STAGES);
}

#[test]
fn floats() {
    writes(&families::FLOATS);
}

#[test]
fn limit_texts() {
    writes(&families::LIMITS);
    writes(&families::DAMAGED_LIMITS);
}

#[test]
fn tokens_exchanged() {
    writes(&families::EXCHANGED);
    writes(&families::ONE_OFF);
}

#[test]
fn damaged_texts() {
    writes(&families::DAMAGED);
}

#[test]
fn truncations() {
    writes(&families::TRUNCATIONS);
}

#[test]
fn bytes_and_token_soup() {
    writes(&families::BYTES);
}

#[test]
fn derived_texts() {
    writes(&families::DERIVED);
}

#[test]
fn ranges_and_defaults() {
    writes(&families::RANGES);
}

#[test]
fn objects_in_parts() {
    writes(&families::PARTS);
}

#[test]
fn names_in_several_kinds() {
    writes(&families::NAMES);
}

/// Each by one call only.
#[test]
fn heavy_texts() {
    compare(&families::HEAVY, "writing", |lent, text, read| {
        let answer = tables::answer(read);
        let written = read.as_ref().map(|reading| normal::write(text, reading));
        let written = written.unwrap_or_default();
        lent.write(text, LONGER, written.len(), &answer, &written)
    });
}

/// With an output of as many bytes as the program lends, the corpus' expected answers.
#[test]
fn corpus_answers() {
    if !proved::is_linked("writing") {
        return;
    }
    let mut lent = Lent::default();
    let mut too_long = 0;
    for sample in corpus::all() {
        let read = meaning::read(&sample.text);
        let (answer, written) = match sample.refusal() {
            None => (tables::answer(&read), &sample.expected[..]),
            Some((number, place)) => (tables::refused(number, place), &b""[..]),
        };
        too_long += usize::from(answer.number == 20);
        let agrees = lent.write(&sample.text, LONGER, 65_535, &answer, written);
        assert_eq!(agrees, Ok(()), "{}", sample.name);
    }
    assert!(too_long > 0);
}

/// Normal texts about as long as the longest text, and outputs about as long.
#[test]
fn long_normal_texts() {
    let is_linked = proved::is_linked("writing");
    let mut lent = Lent::default();
    let mut texts = 0;
    for length in [65_534, 65_535, 65_536, 65_537] {
        for limit in limits::written(length) {
            let read = meaning::read(&limit.text);
            let written = normal::write(&limit.text, read.as_ref().expect("an accepted text"));
            assert_eq!(written.len(), length, "{}", limit.name);
            assert!(limit.text.len() < length.min(LONGEST_TEXT));
            if is_linked {
                assert_eq!(agrees(&mut lent, &limit.text, &read), Ok(()));
            }
            for output in [65_534, 65_535, 65_536, 65_537, 200_000] {
                let (answer, written) = match normal_within(&limit.text, output) {
                    Ok(written) => (tables::answer(&read), written),
                    Err(Refusal { number, place }) => (tables::refused(number, place), Vec::new()),
                };
                assert_eq!(answer.number == 20, length > output);
                if is_linked {
                    let agrees = lent.write(&limit.text, LONGER, output, &answer, &written);
                    assert_eq!(agrees, Ok(()), "{}, {output} lent", limit.name);
                }
            }
            texts += 1;
        }
    }
    println!("long normal texts: {texts}");
}

/// Refusal 1 comes before all others and touches neither a cell nor a byte.
#[test]
fn tables_too_short() {
    compare_short("writing", |lent, text, read, lengths| {
        for output in [0, 65_535] {
            let mut answer = answer_within(lengths, read);
            let mut written = Vec::new();
            if answer.number == 0 {
                match normal_within(text, output) {
                    Ok(normal) => written = normal,
                    Err(refusal) => answer = tables::refused(refusal.number, refusal.place),
                }
            }
            let agrees = lent.write(text, lengths, output, &answer, &written);
            agrees.map_err(|fault| format!("{output}: {fault}"))?;
        }
        Ok(2)
    });
}
