//! The programs `tokens` and `oil`, run as README.md says, against the reference.

use tests::configuration::configuration;
use tests::including::{self, alone};
use tests::normal::normal;
use tests::programs::{example_text, written};
use tests::random::Random;
use tests::token::{step, Sort, Step};
use tests::{answered, corpus, limits, tempting, texts};

/// What document 01's token rules give for a text.
fn tokens(text: &[u8]) -> Vec<u8> {
    if text.len() > 65_535 {
        return b"refused\t2\t0\n".to_vec();
    }
    let mut lines = Vec::new();
    let mut place = 0;
    loop {
        match step(text, place) {
            Step::Token(token, next) => {
                let sort = match token.sort {
                    Sort::Word(_) => "word",
                    Sort::Number { .. } => "number",
                    Sort::Float(_) => "float",
                    Sort::Quoted => "string",
                    Sort::Punctuator(_) => "punctuator",
                };
                lines.extend(format!("{}\t{}\t{sort}\t", token.place, token.length).bytes());
                lines.extend(&text[token.place..next]);
                lines.push(b'\n');
                place = next;
            }
            Step::Refused(place) => {
                lines.extend(format!("refused\t3\t{place}\n").bytes());
                return lines;
            }
            Step::End(place) => {
                lines.extend(format!("end\t{place}\n").bytes());
                return lines;
            }
        }
    }
}

#[test]
fn writes_the_tokens() {
    let agrees = |name: &str, text: &[u8]| {
        assert_eq!(written("tokens", text), tokens(text), "{name}");
    };
    for name in ["worked.oil", "broken.oil"] {
        agrees(name, &example_text(name));
    }
    for sample in corpus::all() {
        agrees(&sample.name, &sample.text);
    }
    for length in [0, 65_534, 65_535, 65_536, 65_537, 200_000] {
        let text = b"a ".repeat(length)[..length].to_vec();
        agrees(&format!("{length} bytes"), &text);
    }
}

/// The program `oil` on a text, and what is to be written.
#[track_caller]
fn oil(name: &str, text: &[u8], expected: &[u8]) {
    let found = written("oil", text);
    assert!(
        found == expected,
        "{name}\ntext: {}\nfound: {}\nexpected: {}",
        text.escape_ascii(),
        found.escape_ascii(),
        expected.escape_ascii()
    );
}

/// The same with what the reference's program writes where no file can be opened.
#[track_caller]
fn oil_as_reference(name: &str, text: &[u8]) {
    oil(name, text, &including::program(&alone(text)));
}

/// The refused line of a place of the main text.
fn refused(number: u8, byte: usize) -> Vec<u8> {
    format!("refused\t{number}\t0\t{byte}\n").into_bytes()
}

#[test]
fn oil_on_the_corpus() {
    let samples = corpus::all();
    for sample in &samples {
        oil(&sample.name, &sample.text, &sample.by_program);
    }
    println!("oil: {} texts of the corpus", samples.len());
}

#[test]
fn oil_on_long_texts() {
    for length in [65_535, 65_536, 70_000, 200_000] {
        let accepted = configuration(65_535).into_bytes();
        let short = answered::accepted(3).text;
        for (text, pad) in [(accepted, b'\n'), (short, b' '), (Vec::new(), b'#')] {
            let answer = match text.is_empty() {
                true => refused(29, 0),
                false => normal(&text).expect("an accepted text"),
            };
            let answer = match length > 65_535 {
                true => refused(30, 0),
                false => answer,
            };
            let mut text = text;
            text.resize(length, pad);
            oil(&format!("{length} bytes"), &text, &answer);
        }
    }
    for limit in limits::limits() {
        oil_as_reference(&limit.name, &limit.text);
    }
}

/// "The program lends 65,535 bytes for the output."
#[test]
fn oil_writes_much() {
    for length in [65_534, 65_535, 65_536, 65_537] {
        for limit in limits::written(length) {
            let answer = match length > 65_535 {
                true => refused(20, 0),
                false => normal(&limit.text).expect("an accepted text"),
            };
            oil(&limit.name, &limit.text, &answer);
        }
    }
}

#[test]
fn oil_on_any_bytes() {
    oil("no byte", b"", &refused(4, 0));
    for seed in 0..400 {
        let name = format!("seed {seed}");
        let random = &mut Random::new(seed);
        let bytes: Vec<u8> = (0..random.below(300)).map(|_| random.byte()).collect();
        oil_as_reference(&name, &bytes);
        oil_as_reference(&name, &texts::any(seed));
        let text = answered::accepted(seed).text;
        oil_as_reference(&name, &text);
        oil_as_reference(&name, &texts::damaged(random, &text));
    }
    for tempting in tempting::tempting() {
        oil_as_reference(tempting.name, &tempting.text);
    }
}

#[test]
fn oil_on_truncations() {
    let worked = example_text("worked.oil");
    for end in 0..=worked.len() {
        oil_as_reference(&format!("worked, cut at {end}"), &worked[..end]);
    }
    for seed in 0..10 {
        let text = answered::accepted(seed).text;
        for end in (seed as usize..text.len()).step_by(11) {
            oil_as_reference(&format!("seed {seed}, cut at {end}"), &text[..end]);
        }
    }
}

/// Document 01, "Normal text, given whole".
const WORKED: &str = r#"OIL_VERSION = "2.5";
IMPLEMENTATION m { OS { BOOLEAN H = FALSE; }; TASK { UINT32 [1..0xff] STACKSIZE = 16; }; };
CPU c { OS o; APPMODE a {}; TASK t { STACKSIZE = 0x20; }; };
"#;

const WORKED_WRITTEN: &str = r#"OIL_VERSION = "2.5";
IMPLEMENTATION m { OS { BOOLEAN H = FALSE; }; TASK { UINT32 [1..0xff] STACKSIZE = 16; }; };
CPU c {
OS o {
H = FALSE;
};
APPMODE a {
};
TASK t {
STACKSIZE = 32;
};
};
"#;

/// Document 01, "Edges to try".
#[test]
fn oil_on_the_edges() {
    assert_eq!(example_text("worked.oil"), WORKED.as_bytes());
    oil("worked", WORKED.as_bytes(), WORKED_WRITTEN.as_bytes());
    oil(
        "worked again",
        WORKED_WRITTEN.as_bytes(),
        WORKED_WRITTEN.as_bytes(),
    );

    let edges: [(&str, u8, usize); 8] = [
        ("", 4, 0),
        ("}", 4, 0),
        ("007", 3, 0),
        ("#", 29, 0),
        ("/* x", 3, 0),
        ("OIL_VERSION = 2;", 4, 14),
        ("OIL_VERSION = \"2.5\"", 4, 19),
        ("OIL_VERSION = AUTO", 4, 14),
    ];
    for (text, number, place) in edges {
        oil(text, text.as_bytes(), &refused(number, place));
    }

    let place = WORKED.find("0x20").expect("the stated value");
    for (size, passes) in [("0", false), ("1", true), ("255", true), ("256", false)] {
        let text = WORKED.replace("0x20", size);
        let answer = match passes {
            true => WORKED_WRITTEN
                .replace("= 32;", &format!("= {size};"))
                .into_bytes(),
            false => refused(15, place),
        };
        oil(&format!("STACKSIZE {size}"), text.as_bytes(), &answer);
    }

    // Two braces are open where the definitions of a kind stand, and two where statements do.
    let attribute = "UINT32 [1..0xff]";
    let statement = "STACKSIZE = 0x20;";
    for braces in [15, 16, 17] {
        let name = format!("{braces} braces");
        let deep = "ENUM [A { ".repeat(braces - 2) + &"}] e = A; ".repeat(braces - 2);
        let text = WORKED.replace(attribute, &format!("{deep}{attribute}"));
        let answer = match braces > 16 {
            true => refused(5, text.rfind("A { }").expect("the innermost brace") + 2),
            false => {
                let values =
                    "e = A {\n".repeat(braces - 3) + "e = A;\n" + &"};\n".repeat(braces - 3);
                WORKED_WRITTEN
                    .replace(attribute, &format!("{deep}{attribute}"))
                    .replace("TASK t {\n", &format!("TASK t {{\n{values}"))
                    .into_bytes()
            }
        };
        oil(&name, text.as_bytes(), &answer);

        // No scope is so deep unless its definitions are: the stated blocks follow them.
        let definitions = "ENUM [A { ".repeat(braces - 3) + "ENUM [A] e = A; ";
        let definitions = definitions + &"}] e = A; ".repeat(braces - 3);
        let blocks = "e = A { ".repeat(braces - 2) + &"}; ".repeat(braces - 2);
        let text = WORKED
            .replace(attribute, &format!("{definitions}{attribute}"))
            .replace(statement, &format!("{blocks}{statement}"));
        let answer = match braces > 16 {
            true => refused(5, text.rfind("A { }").expect("the innermost brace") + 2),
            false => normal(text.as_bytes()).expect("an accepted text"),
        };
        oil(&format!("{name} in statements"), text.as_bytes(), &answer);
    }
}
