//! Document 02, Q-10: the reference and the corpus; the proved calls `expand`, `read` and `write`
//! over lent texts against the reference.

use tests::comparing::{by_number, verb};
use tests::comparing_texts::{Answers, Memory, EXACT, MORE};
use tests::corpus::{self, Case};
use tests::families::{self, times};
use tests::including::{self, gather, Buffer, Lent, Place, Refused, LONGEST};
use tests::lent_texts::{self, Known, Set};
use tests::masks::{check_line, listed, plan_line, Checked, Planned};
use tests::meaning::Reading;
use tests::{meaning, normal, proved};

/// The texts of a case as the program gathers them. Where the main text has no `#`, the others
/// are lent all the same: such a case is about what is lent.
fn texts(case: &Case) -> Vec<Lent> {
    let (main, others) = case.texts.split_first().expect("a main text");
    let main = main.bytes();
    let others: Vec<Lent> = others
        .iter()
        .map(|text| Lent::new(text.name.clone().expect("its name"), text.bytes()))
        .collect();
    if !main.contains(&b'#') {
        return [&[Lent::new("", main)], &others[..]].concat();
    }
    gather(&main, |name| {
        let found = others.iter().find(|lent| lent.name == name)?;
        Some(found.text.clone())
    })
}

/// The texts of a case of document 01, and of those of the requests whose question is `word`.
fn cases(word: &str) -> Vec<Case> {
    let mut cases = corpus::asking(word);
    if word == "normal" {
        cases.extend(corpus::list(corpus::DOCUMENT_01));
    }
    cases
}

fn answers(word: &str, count: usize, answer: impl Fn(&Case, &[Lent]) -> Vec<u8>) {
    let cases = cases(word);
    for case in &cases {
        assert_eq!(
            answer(case, &texts(case)).escape_ascii().to_string(),
            case.answer().escape_ascii().to_string(),
            "{}",
            case.name
        );
    }
    assert_eq!(cases.len(), count, "{word}");
}

#[test]
fn normal_texts_of_the_corpus() {
    answers("normal", 1_464, |_, texts| including::program(texts));
}

#[test]
fn headings_of_the_corpus() {
    answers("heading", 59, |_, texts| {
        let [version, name] = match including::heading(texts) {
            Ok(parts) => parts.map(|part| part.bytes),
            Err(refused) => return refused.line().into_bytes(),
        };
        let hex: String = version.iter().map(|byte| format!("{byte:02x}")).collect();
        [b"heading\t", hex.as_bytes(), b"\t", &name[..], b"\n"].concat()
    });
}

#[test]
fn masks_of_the_corpus() {
    answers("masks-check", 110, |case, texts| {
        let line = match including::check_masks(texts, &listed(&case.ask)) {
            Err(refused) => refused.line(),
            Ok(Checked::Refused(refusal)) => panic!("{refusal:?}"),
            Ok(checked) => check_line(checked),
        };
        line.into_bytes()
    });
    answers("masks-plan", 99, |case, texts| {
        let length = case.ask.strip_prefix("masks-plan ").expect("a length");
        let lent = vec![0x5a5a; length.parse().expect("a length")];
        let line = match including::plan_masks(texts, &lent) {
            Err(refused) => refused.line(),
            Ok((Planned::Refused(refusal), _)) => panic!("{refusal:?}"),
            Ok(planned) => plan_line(planned, &lent),
        };
        line.into_bytes()
    });
}

#[test]
fn standards_of_the_corpus() {
    answers("standard", 127, |_, texts| {
        let line = match including::check_standard(texts) {
            Err(refused) => refused.line(),
            Ok(None) => "standard\n".into(),
            Ok(Some(found)) => {
                let (number, place, attribute) = (found.number, found.place, found.attribute);
                let (text, byte) = (place.text, place.byte);
                format!("standard\t{number}\t{text}\t{byte}\t{attribute}\n")
            }
        };
        line.into_bytes()
    });
}

#[test]
fn comparisons_of_the_corpus() {
    let cases = cases("compare");
    for case in &cases {
        let releases = case.pair().map(|text| gather(&text.bytes(), |_| None));
        let report = including::report([&releases[0], &releases[1]]);
        assert_eq!(report, case.answer(), "{}", case.name);
    }
    assert_eq!(cases.len(), 84);
}

/// Asks the reference for sets of lent texts, holds it to what is known, and the proved calls to
/// it where they are linked.
struct Comparison {
    is_linked: bool,
    memory: Memory,
    sets: usize,
    accepted: usize,
    refused: [usize; 31],
}

impl Comparison {
    fn new() -> Comparison {
        Comparison {
            is_linked: proved::is_linked("including"),
            memory: Memory::default(),
            sets: 0,
            accepted: 0,
            refused: [0; 31],
        }
    }

    fn ask(&mut self, set: &Set) -> Answers {
        let answers = Answers::new(&set.buffer);
        match set.known {
            Known::Nothing => (),
            Known::Accepted => assert_eq!(answers.read.as_ref().err(), None, "{}", set.name),
            Known::Refused(refused) => {
                assert_eq!(answers.read.as_ref().err(), Some(&refused), "{}", set.name);
            }
        }
        if self.is_linked {
            if let Err(difference) = self.agree(set, &answers) {
                panic!("{}: {difference}\n{}", set.name, shown(&set.buffer));
            }
        }
        self.sets += 1;
        match &answers.read {
            Ok(_) => self.accepted += 1,
            Err(refused) => self.refused[usize::from(refused.number)] += 1,
        }
        answers
    }

    fn agree(&mut self, set: &Set, answers: &Answers) -> Result<(), String> {
        let (buffer, memory) = (&set.buffer, &mut self.memory);
        let rooms = match self.sets % 2 {
            0 => EXACT,
            _ => MORE,
        };
        let short = [self.sets % 300, LONGEST - self.sets % 300];
        for lent in [[rooms.expanded, rooms.origins], short, [0, 0]] {
            let expands = memory.expand(buffer, lent, answers);
            expands.map_err(|fault| format!("expand {lent:?}: {fault}"))?;
        }
        let reads = memory.read(buffer, &rooms, answers);
        reads.map_err(|fault| format!("read: {fault}"))?;
        let normal = answers.normal();
        let outputs = match &normal {
            Some(normal) => vec![normal.len(), normal.len() - 1],
            None => vec![self.sets % 400],
        };
        for output in outputs {
            let writes = memory.write(buffer, &rooms, output, answers, normal.as_deref());
            writes.map_err(|fault| format!("write {output}: {fault}"))?;
        }
        Ok(())
    }

    fn report(&self, what: &str) {
        let verb = verb(self.is_linked);
        let (sets, accepted) = (self.sets, self.accepted);
        let refused = by_number(&self.refused);
        println!("{what}: {verb} {sets} sets, {accepted} accepted, refused by number {refused}");
    }
}

fn shown(buffer: &Buffer) -> String {
    let length = buffer.bytes.len().min(3_000);
    let bytes = buffer.bytes[..length].escape_ascii();
    format!("lengths {:?}\nbuffer: {bytes}", buffer.lengths)
}

/// A text alone, with an empty name.
fn alone(name: &str, text: &[u8], known: Known) -> Set {
    Set {
        name: name.into(),
        buffer: Buffer::of(&[Lent::new("", text)]),
        known,
    }
}

#[test]
fn the_corpus() {
    let mut comparison = Comparison::new();
    for case in cases("normal") {
        let mut set = alone(&case.name, b"", Known::Nothing);
        set.buffer = Buffer::of(&texts(&case));
        comparison.ask(&set);
    }
    comparison.report("the corpus");
    assert!(comparison.refused[27..=30].iter().all(|count| *count > 0));
}

/// A text without `#` is read alone as it is read by itself: each refusal but 2, which is 30 now,
/// and each row, since the main text's number is 0.
#[test]
fn one_text() {
    let mut comparison = Comparison::new();
    let mut count = 0;
    for family in [
        families::CORPUS,
        families::CASES,
        families::TEMPTING,
        families::LIMITS,
    ] {
        (family.texts)(&mut |case| {
            let answers = comparison.ask(&alone(&case.name, &case.text, Known::Nothing));
            let plain = meaning::read(&case.text);
            match (&answers.read, &plain) {
                (Ok(reading), Ok(plain)) => assert_eq!(reading, plain, "{}", case.name),
                (Err(refused), Err(plain)) => {
                    let number = match plain.number {
                        2 => 30,
                        3 if case.text[plain.place] == b'#' => refused.number,
                        number => number,
                    };
                    let place = Place {
                        text: 0,
                        byte: plain.place,
                    };
                    assert_eq!(*refused, Refused { number, place }, "{}", case.name);
                }
                _ => panic!("{}", case.name),
            }
            count += 1;
        });
    }
    comparison.report("texts alone");
    assert!(count > 1_200);
}

/// Divided among texts, a text gives the same values, and a normal text of the same tokens.
#[test]
fn divided_texts() {
    let mut comparison = Comparison::new();
    let mut lent = 0;
    for seed in 0..6_000 * times() {
        let (text, set) = lent_texts::accepted(seed);
        let answers = comparison.ask(&set);
        lent += set.buffer.lengths.len() / 2;
        let whole = meaning::read(&text).expect("an accepted text");
        let divided = answers.read.as_ref().expect("an accepted text");
        let values = |reading: &Reading| {
            let values = reading.values.iter();
            let values = values.map(|row| (row.definition, row.owner, row.value, row.stated));
            (reading.counts, values.collect::<Vec<_>>())
        };
        assert_eq!(values(divided), values(&whole), "{}", set.name);
        let words = |text: &[u8]| -> Vec<Vec<u8>> {
            let tokens = families::tokens_of(text);
            tokens
                .iter()
                .map(|token| families::word(text, token))
                .collect()
        };
        let normal = answers.normal().expect("an accepted text");
        assert_eq!(
            words(&normal),
            words(&normal::write(&text, &whole)),
            "{}",
            set.name
        );
    }
    comparison.report("divided texts");
    assert!(lent > 20_000);
}

/// Normal text is one text without include lines: read alone it gives itself again.
#[test]
fn normal_texts_alone() {
    let mut comparison = Comparison::new();
    for seed in 0..1_000 * times() {
        let (_, set) = lent_texts::accepted(seed);
        let answers = Answers::new(&set.buffer);
        let normal = answers.normal().expect("an accepted text");
        let back = comparison.ask(&alone(&set.name, &normal, Known::Accepted));
        assert_eq!(back.normal(), Some(normal), "{}", set.name);
    }
    comparison.report("normal texts");
}

#[test]
fn planted_faults() {
    let mut comparison = Comparison::new();
    for seed in 0..6_000 * times() {
        comparison.ask(&lent_texts::with_fault(seed));
    }
    comparison.report("planted faults");
    assert!([3, 27, 28, 29]
        .iter()
        .all(|number| comparison.refused[*number] > 500));
    let mut comparison = Comparison::new();
    for seed in 0..3_000 * times() {
        comparison.ask(&lent_texts::with_later_fault(seed));
    }
    comparison.report("faults of later stages");
}

#[test]
fn lines_and_damage() {
    let mut comparison = Comparison::new();
    for seed in 0..6_000 * times() {
        comparison.ask(&lent_texts::lines(seed));
    }
    comparison.report("lines of every sort");
    assert!([3, 4, 27, 28, 29]
        .iter()
        .all(|number| comparison.refused[*number] > 50));
    let mut comparison = Comparison::new();
    for seed in 0..4_000 * times() {
        comparison.ask(&lent_texts::damaged(seed));
    }
    comparison.report("damaged sets");
}

#[test]
fn told_lengths() {
    let mut comparison = Comparison::new();
    for seed in 0..4_000 * times() {
        comparison.ask(&lent_texts::told(seed));
    }
    comparison.report("told lengths");
    assert!(comparison.refused[30] > 1_000);
}

#[test]
fn limits_and_heavy_sets() {
    let mut comparison = Comparison::new();
    for set in lent_texts::limits() {
        comparison.ask(&set);
    }
    comparison.report("limits and heavy sets");
}

/// Refusal 1 comes before all others and touches nothing.
#[test]
fn rooms_too_short() {
    if !proved::is_linked("including") {
        return;
    }
    let mut memory = Memory::default();
    let mut calls = 0;
    let sets = [
        lent_texts::accepted(7).1,
        lent_texts::with_fault(8),
        alone("no text", b"", Known::Nothing),
        alone("too long", &[b' '; 70_000], Known::Nothing),
        lent_texts::told(9),
    ];
    for set in sets {
        let answers = Answers::new(&set.buffer);
        let normal = answers.normal();
        for lent in 0..6 {
            for short in [1, 2, usize::MAX] {
                let mut rooms = EXACT;
                let [definitions, enumerators, objects, values] = &mut rooms.tables;
                let lengths = [
                    &mut rooms.expanded,
                    &mut rooms.origins,
                    definitions,
                    enumerators,
                    objects,
                    values,
                ];
                for (room, length) in lengths.into_iter().enumerate() {
                    if room == lent {
                        *length = length.saturating_sub(short);
                    }
                }
                assert_eq!(
                    memory.read(&set.buffer, &rooms, &answers),
                    Ok(()),
                    "{}",
                    set.name
                );
                for output in [0, 65_535] {
                    let writes =
                        memory.write(&set.buffer, &rooms, output, &answers, normal.as_deref());
                    assert_eq!(writes, Ok(()), "{}", set.name);
                    calls += 2;
                }
            }
        }
    }
    println!("rooms too short: agree on {calls} calls");
}
