//! The proved call `check_standard` against the reference (document 02, Q-9), the cases of the
//! corpus, and the program.

use std::fs;
use tests::corpus::asking;
use tests::including;
use tests::masks::damaged;
use tests::programs::{self, example_text, repository};
use tests::random::Random;
use tests::standard::{self, check, full_text, paths, Checked, Finding, STANDARD};

#[cfg(proved_standard)]
use tests::proved::standard::check_standard;

#[cfg(not(proved_standard))]
fn check_standard(_: &[u8]) -> Checked {
    panic!("the proved library is not linked")
}

fn is_linked() -> bool {
    tests::proved::is_linked("standard")
}

/// The answers on one text; `seen` counts refusals, texts with nothing wrong, and each of 25
/// and 26 for each attribute.
fn compare(text: &[u8], seen: &mut Seen) {
    let expected = check(text);
    if is_linked() {
        let found = check_standard(text);
        assert_eq!(found, expected, "{}", String::from_utf8_lossy(text));
    }
    match expected {
        Checked::Refused(_) => seen.refused += 1,
        Checked::NothingWrong => seen.nothing += 1,
        Checked::Wrong(finding) => {
            let column = usize::from(finding.number - 25);
            seen.wrong[finding.attribute][column] += 1;
        }
    }
}

struct Seen {
    refused: usize,
    nothing: usize,
    wrong: [[usize; 2]; 36],
}

impl Seen {
    fn nothing() -> Seen {
        Seen {
            refused: 0,
            nothing: 0,
            wrong: [[0; 2]; 36],
        }
    }
}

#[test]
fn generated_texts() {
    let mut random = Random::new(9);
    let mut seen = Seen::nothing();
    for turn in 0..24_000 {
        let changes = match turn % 8 {
            0 => 0,
            1..=5 => 1,
            6 => 2,
            _ => 3 + random.below(6),
        };
        let text = standard::text(&mut random, changes);
        compare(&text, &mut seen);
    }
    println!("{} {} {:?}", seen.refused, seen.nothing, seen.wrong);
    assert!(seen.nothing > 3_000 && seen.refused < 6_000);
    for (attribute, [absent, different]) in seen.wrong.iter().enumerate() {
        assert!(*absent > 0 && *different > 0, "{attribute}");
    }
}

#[test]
fn damaged_texts() {
    let mut random = Random::new(99);
    let mut seen = Seen::nothing();
    for _ in 0..6_000 {
        let changes = random.below(3);
        let whole = standard::text(&mut random, changes);
        let text = damaged(&mut random, &whole);
        compare(&text, &mut seen);
    }
    println!("{} {} {:?}", seen.refused, seen.nothing, seen.wrong);
    assert!(seen.refused > 2_000 && seen.nothing > 300);
}

/// 512 definitions and 1,024 enumerators, and one more of each, before and after the standard's.
#[test]
fn limit_texts() {
    let mut seen = Seen::nothing();
    for (more, under) in [
        (475, 1_014),
        (476, 1_014),
        (475, 1_015),
        (474, 1_013),
        (0, 1_014),
        (476, 0),
        (477, 0),
    ] {
        for is_before in [true, false] {
            let text = full_text(more, under, is_before);
            for (old, new) in [
                ("\u{0}", ""),
                ("INTERNAL\n", "INTERNAL2\n"),
                ("MASK;", "MASK = AUTO;"),
                ("[1, 2] CATEGORY", "CATEGORY"),
                ("EVENT_TYPE EVENT;", ""),
            ] {
                compare(text.replace(old, new).as_bytes(), &mut seen);
            }
        }
    }
    println!("{} {} {:?}", seen.refused, seen.nothing, seen.wrong);
    assert!(seen.refused > 0 && seen.nothing > 0);
    for attribute in [17, 33, 35] {
        assert!(seen.wrong[attribute][1] > 0, "{attribute}");
    }
    assert!(seen.wrong[26][0] > 0);
}

/// The cases of Q-9 in the corpus, whose answers two implementations gave.
#[test]
fn corpus_cases() {
    let cases = asking("standard");
    assert_eq!(cases.len(), 127);
    for case in cases {
        let answer = case.plain_answer().expect("the answer to one text");
        let answer = String::from_utf8(answer).expect("a line of words");
        let text = case.text();
        assert_eq!(line(check(&text)), answer, "{}", case.name);
        if is_linked() {
            assert_eq!(line(check_standard(&text)), answer, "{}", case.name);
        }
    }
}

fn line(answer: Checked) -> String {
    match answer {
        Checked::Refused(refusal) => format!("refused\t{}\t{}\n", refusal.number, refusal.place),
        Checked::NothingWrong => "standard\n".into(),
        Checked::Wrong(Finding {
            place,
            number,
            attribute,
        }) => format!("standard\t{number}\t{place}\t{attribute}\n"),
    }
}

/// The text of section 5.2 stands in examples/, in specs/ and in src/: the same bytes.
#[test]
fn one_standard() {
    let escaped = String::from_utf8(STANDARD.to_vec())
        .expect("a text of ASCII")
        .replace('"', "\\\"")
        .replace('\n', "\\n");
    for file in ["specs/Section.antt", "src/constants.rt"] {
        let file = repository().join("crates/standard").join(file);
        let words = fs::read_to_string(&file).expect("a file of the crate");
        assert_eq!(
            words.matches(&format!("\"{escaped}\"")).count(),
            1,
            "{}",
            file.display()
        );
    }
}

/// The paths of the 36 attributes, as docs/TABLES.md lists them.
#[test]
fn thirty_six_attributes() {
    let paths = paths();
    assert_eq!(paths.len(), 36);
    assert_eq!(paths[26], "ALARM.ACTION=SETEVENT.EVENT");
    let tables = fs::read_to_string(repository().join("docs/TABLES.md")).expect("docs/TABLES.md");
    for (number, path) in paths.iter().enumerate() {
        assert!(
            tables.contains(&format!("| {number} | `{path}` |")),
            "{number} {path}"
        );
    }
}

/// What the program `oil_standard` writes for a text on standard input.
fn written(text: &[u8]) -> String {
    String::from_utf8(programs::written("oil_standard", text)).expect("lines of words")
}

/// The line that the program writes by the reference's answer, where no file can be opened that the
/// text includes.
fn told(text: &[u8]) -> String {
    let position = |place: usize| {
        let front = &text[..place];
        let lines = front.iter().filter(|byte| **byte == b'\n').count();
        let start = front.iter().rposition(|byte| *byte == b'\n');
        let column = place - start.map_or(0, |start| start + 1) + 1;
        format!("{}:{column}", lines + 1)
    };
    match including::check_standard(&including::alone(text)) {
        Err(refused) => refused.line(),
        Ok(None) => "nothing wrong\n".into(),
        Ok(Some(finding)) => {
            let what = match finding.number {
                25 => "the standard attribute is not defined in the scope of this word",
                _ => "the attribute differs from the standard in type, list mark, values, WITH_AUTO or default",
            };
            let path = &paths()[finding.attribute];
            let position = position(finding.place.byte);
            format!("-:{position}: {}, {path}: {what}\n", finding.number)
        }
    }
}

/// The example that README.md names, and generated texts.
#[test]
fn program_tells() {
    let example = example_text("supplier.oil");
    let answer = "-:36:7: 25, ALARM.ACTION=SETEVENT.EVENT: the standard attribute is not defined in the scope of this word\n";
    assert_eq!(told(&example), answer);
    assert_eq!(written(&example), answer);
    let mut random = Random::new(90);
    for turn in 0..300 {
        let text = standard::text(&mut random, turn % 4);
        assert_eq!(
            written(&text),
            told(&text),
            "{}",
            String::from_utf8_lossy(&text)
        );
    }
    assert_eq!(written(b""), "refused\t4\t0\t0\n");
    assert_eq!(written(&[b' '; 70_000]), "refused\t30\t0\t0\n");
}
