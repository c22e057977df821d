//! The reference itself on texts whose answer is known: the corpus, texts made together with
//! their answer, texts at the limits.

use std::collections::BTreeMap;
use tests::answered::{self, Answered};
use tests::families::PLANTED;
use tests::meaning::{read, Owner, Reading, Refusal, Resolved, LONGEST_TEXT};
use tests::normal::{normal, normal_within, program, without_places};
use tests::random::Random;
use tests::texts;
use tests::tree::Part;
use tests::{corpus, limits};

#[track_caller]
fn answers(name: &str, made: &Answered) {
    let found = normal(&made.text);
    assert!(
        found == made.answer,
        "{name}\ntext: {}\nmade:  {}\nfound: {}",
        made.text.escape_ascii(),
        shown(&made.answer),
        shown(&found)
    );
}

fn shown(answer: &Result<Vec<u8>, Refusal>) -> String {
    match answer {
        Ok(text) => text.escape_ascii().to_string(),
        Err(refusal) => format!("{refusal:?}"),
    }
}

/// "Read back, all is the same but places, lengths and the stated mark", provided that the
/// written text is not too long.
fn reads_back(name: &str, text: &[u8]) {
    let written = normal(text).expect("an accepted text");
    if written.len() > LONGEST_TEXT {
        return;
    }
    let first = read(text).expect("an accepted text");
    let second = read(&written).unwrap_or_else(|refusal| panic!("{name}: {refusal:?}"));
    assert!(
        without_places(text, &first) == without_places(&written, &second),
        "{name}"
    );
    assert!(second.values.iter().all(|value| value.stated), "{name}");
    assert!(second.objects.iter().all(|row| row.parts == 1), "{name}");
    assert!(normal(&written).as_ref() == Ok(&written), "{name}");
}

/// What must hold of the rows of any accepted text.
fn rows_hold(name: &str, text: &[u8], reading: &Reading) {
    let inside = |inner: Part, outer: Part| {
        outer.place <= inner.place && inner.place + inner.length <= outer.place + outer.length
    };
    let names: Vec<usize> = reading
        .definitions
        .iter()
        .map(|row| row.name.place)
        .collect();
    assert!(names.is_sorted(), "{name}");
    let names: Vec<usize> = reading
        .enumerators
        .iter()
        .map(|row| row.name.place)
        .collect();
    assert!(names.is_sorted(), "{name}");
    for row in &reading.enumerators {
        let attribute = &reading.definitions[row.attribute];
        assert!(inside(row.name, attribute.range), "{name}");
        assert_eq!(attribute.type_word.of(text), b"ENUM", "{name}");
    }
    let total: usize = reading.counts.iter().sum();
    assert_eq!(total, reading.objects.len(), "{name}");
    for (index, row) in reading.values.iter().enumerate() {
        let definition = &reading.definitions[row.definition];
        let mut owner = row.owner;
        while let Owner::Value(above) = owner {
            assert!(above < index, "{name}");
            owner = reading.values[above].owner;
        }
        let Owner::Object(object) = owner else {
            unreachable!("owners end at an object");
        };
        // A default lies in the implementation, before all objects.
        let object = &reading.objects[object];
        assert_eq!(row.stated, row.word.place > object.name.place, "{name}");
        let is_inside = inside(row.word, object.block);
        assert!(object.parts > 1 || row.stated == is_inside, "{name}");
        assert_eq!(row.stated, row.word != definition.default, "{name}");
        match row.value {
            Resolved::Enumerator(enumerator) => {
                let enumerator = &reading.enumerators[enumerator];
                assert_eq!(enumerator.attribute, row.definition, "{name}");
                assert_eq!(enumerator.name.of(text), row.word.of(text), "{name}");
            }
            Resolved::Object(object) => {
                let object = &reading.objects[object];
                let type_word = [object.kind_word.of(text), b"_TYPE"].concat();
                assert_eq!(object.name.of(text), row.word.of(text), "{name}");
                assert_eq!(definition.type_word.of(text), type_word, "{name}");
            }
            _ => (),
        }
    }
}

#[test]
fn corpus_answers() {
    let samples = corpus::all();
    let mut accepted = 0;
    for sample in &samples {
        let found = program(&sample.text);
        assert!(found == sample.expected, "{}", sample.name);
        if sample.refusal().is_none() {
            accepted += 1;
            let reading = read(&sample.text).expect("an accepted text");
            rows_hold(&sample.name, &sample.text, &reading);
            reads_back(&sample.name, &sample.text);
        }
    }
    println!("corpus: {} texts, {accepted} accepted", samples.len());
}

/// The rows of a small text, each part given by its words.
#[test]
fn rows_of_a_small_text() {
    let text: &[u8] = b"OIL_VERSION = \"2.5\";
IMPLEMENTATION m { TASK {
  ENUM [A { UINT32 WITH_AUTO [1..0xff] s = 0x10; }, B {}] e = A;
  BOOLEAN [TRUE { TASK_TYPE r; }, FALSE] b;
  STRING l[] = NO_DEFAULT;
}; };
CPU c { TASK t { b = TRUE { r = u; }; l = \"x\"; l = \"y\"; }; OS o; APPMODE p {};
  TASK u { b = FALSE; e = A { s = AUTO; }; };
};";
    let reading = read(text).expect("an accepted text");
    let word = |part: Part| String::from_utf8_lossy(part.of(text)).into_owned();

    let definitions: Vec<String> = reading
        .definitions
        .iter()
        .map(|row| {
            let words = [row.under, row.type_word, row.range, row.name, row.default].map(word);
            format!("{} {} {}", words.join(" | "), row.is_list, row.with_auto)
        })
        .collect();
    let expected = [
        "A | UINT32 | [1..0xff] | s | 0x10 false true",
        "TASK | ENUM | [A { UINT32 WITH_AUTO [1..0xff] s = 0x10; }, B {}] | e | A false false",
        "TRUE | TASK_TYPE |  | r |  false false",
        "TASK | BOOLEAN | [TRUE { TASK_TYPE r; }, FALSE] | b |  false false",
        "TASK | STRING |  | l | NO_DEFAULT true false",
    ];
    assert_eq!(definitions, expected);

    let enumerators = reading.enumerators.iter();
    let enumerators: Vec<_> = enumerators
        .map(|row| (row.attribute, word(row.name)))
        .collect();
    assert_eq!(enumerators, [(1, "A".to_string()), (1, "B".to_string())]);

    let objects = reading.objects.iter();
    let objects: Vec<_> = objects
        .map(|row| {
            (
                row.kind,
                word(row.kind_word),
                word(row.name),
                word(row.block),
            )
        })
        .collect();
    let block = "{ b = TRUE { r = u; }; l = \"x\"; l = \"y\"; }";
    let row = |kind, words: [&str; 3]| {
        let [kind_word, name, block] = words.map(str::to_string);
        (kind, kind_word, name, block)
    };
    let expected = [
        row(2, ["TASK", "t", block]),
        row(0, ["OS", "o", ""]),
        row(1, ["APPMODE", "p", "{}"]),
        row(2, ["TASK", "u", "{ b = FALSE; e = A { s = AUTO; }; }"]),
    ];
    assert_eq!(objects, expected);
    assert_eq!(reading.objects[1].block, Part::default());
    assert!(reading.objects.iter().all(|row| row.parts == 1));
    assert_eq!(reading.counts, [1, 1, 2, 0, 0, 0, 0, 0, 0, 0, 0, 0, 0]);

    let values = reading.values.iter();
    let values: Vec<_> = values
        .map(|row| {
            (
                row.definition,
                row.owner,
                row.value,
                row.stated,
                word(row.word),
            )
        })
        .collect();
    let row = |definition, owner, value, stated, word: &str| {
        (definition, owner, value, stated, word.to_string())
    };
    let (task_t, task_u) = (Owner::Object(0), Owner::Object(3));
    let expected = [
        row(1, task_t, Resolved::Enumerator(0), false, "A"),
        row(0, Owner::Value(0), Resolved::Number(16), false, "0x10"),
        row(3, task_t, Resolved::True, true, "TRUE"),
        row(2, Owner::Value(2), Resolved::Object(3), true, "u"),
        row(4, task_t, Resolved::String, true, "\"x\""),
        row(4, task_t, Resolved::String, true, "\"y\""),
        row(1, task_u, Resolved::Enumerator(0), true, "A"),
        row(0, Owner::Value(6), Resolved::Auto, true, "AUTO"),
        row(3, task_u, Resolved::False, true, "FALSE"),
    ];
    assert_eq!(values, expected);
    assert_eq!(reading.values[0].word, reading.definitions[1].default);
}

#[test]
fn accepted_texts() {
    const SEEDS: u64 = 1_500;
    let mut values = 0;
    for seed in 0..SEEDS {
        let name = format!("seed {seed}");
        let made = answered::accepted(seed);
        answers(&name, &made);
        let reading = read(&made.text).expect("an accepted text");
        values += reading.values.len();
        rows_hold(&name, &made.text, &reading);
        reads_back(&name, &made.text);
        let needed = normal(&made.text).expect("an accepted text").len();
        assert!(normal_within(&made.text, needed).is_ok(), "{name}");
        let refusal = normal_within(&made.text, needed - 1);
        assert_eq!(
            refusal,
            Err(Refusal {
                number: 20,
                place: 0
            }),
            "{name}"
        );
    }
    println!("accepted texts: {SEEDS}, with {values} resolved values");
}

#[test]
fn one_fault() {
    let mut found: BTreeMap<u8, usize> = BTreeMap::new();
    for number in PLANTED {
        for seed in 0..600 {
            if let Some(made) = answered::with_faults(seed, &[number]) {
                answers(&format!("fault {number}, seed {seed}"), &made);
                assert_eq!(made.answer.map_err(|refusal| refusal.number), Err(number));
                *found.entry(number).or_default() += 1;
            }
        }
    }
    println!("one fault planted: {found:?}");
    assert!(found.len() == PLANTED.len() && found.values().all(|count| *count > 200));
}

#[test]
fn two_faults() {
    let mut found = 0;
    for first in PLANTED {
        for second in PLANTED {
            for seed in 0..100 {
                if let Some(made) = answered::with_faults(seed, &[first, second]) {
                    answers(&format!("faults {first} and {second}, seed {seed}"), &made);
                    found += 1;
                }
            }
        }
    }
    println!("two faults planted: {found} texts");
    assert!(found > 5_000);
}

#[test]
fn limit_texts() {
    let limits = limits::limits();
    for limit in &limits {
        assert_eq!(read(&limit.text).err(), limit.refusal, "{}", limit.name);
        if limit.refusal.is_none() {
            let reading = read(&limit.text).expect("an accepted text");
            rows_hold(&limit.name, &limit.text, &reading);
            reads_back(&limit.name, &limit.text);
        }
    }
    println!("texts at the limits: {}", limits.len());
}

#[test]
fn truncations() {
    let mut cuts = 0;
    for seed in 0..30 {
        let text = answered::accepted(seed).text;
        let whole = read(&text).expect("an accepted text");
        for end in 0..text.len() {
            match read(&text[..end]) {
                Err(Refusal { number: 3, place }) => assert!(place < end, "seed {seed}"),
                Err(Refusal { number: 4, place }) => {
                    // The end, or the last word, which is cut short, or a float's sign, digits
                    // and dot, of which only a number is read.
                    let run = |byte: &u8| byte.is_ascii_alphanumeric() || *byte == b'_';
                    let last = &text[place..end];
                    let last = last.strip_suffix(b".").unwrap_or(last);
                    let unsigned = last.strip_prefix(b"-").or(last.strip_prefix(b"+"));
                    let is_cut = unsigned.unwrap_or(last).iter().all(run);
                    assert!(is_cut, "seed {seed}, cut at {end}");
                }
                found => assert!(found.as_ref() == Ok(&whole), "seed {seed}, cut at {end}"),
            }
            cuts += 1;
        }
    }
    println!("truncations: {cuts}");
}

#[test]
fn damaged_texts() {
    let mut accepted = 0;
    let mut refused: BTreeMap<u8, usize> = BTreeMap::new();
    let samples = corpus::all();
    for seed in 0..9_000 {
        let random = &mut Random::new(seed);
        let text = match random.below(3) {
            0 => samples[random.below(samples.len())].text.clone(),
            _ => answered::accepted(seed % 500).text,
        };
        let text = texts::damaged(random, &text);
        let name = format!("seed {seed}");
        match read(&text) {
            Ok(reading) => {
                accepted += 1;
                rows_hold(&name, &text, &reading);
                reads_back(&name, &text);
            }
            Err(refusal) => {
                assert!(refusal.place <= text.len(), "{name}");
                *refused.entry(refusal.number).or_default() += 1;
            }
        }
    }
    println!("damaged texts: {accepted} accepted, refused by number {refused:?}");
}
