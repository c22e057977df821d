//! Document 02, Q-7: the reference on texts whose answer is known, the proved call against the
//! reference on generated texts, and the program `oil_heading`.

use std::ffi::OsStr;
use std::fs;
use std::os::unix::ffi::OsStrExt;
use std::path::Path;
use tests::comparing::verb;
use tests::heading::{self, heading, Heading};
use tests::meaning::Refusal;
use tests::programs::{command, repository, waited, Folder};
use tests::random::Random;
use tests::{corpus, proved, texts};

/// Asks the reference and, where it is linked, the proved call, and counts the texts.
struct Comparison {
    is_linked: bool,
    answered: usize,
    refused: [usize; 6],
}

impl Comparison {
    fn new() -> Comparison {
        Comparison {
            is_linked: proved::is_linked("heading"),
            answered: 0,
            refused: [0; 6],
        }
    }

    fn ask(&mut self, name: &str, text: &[u8]) -> Result<Heading, Refusal> {
        let reference = heading(text);
        if self.is_linked {
            agree(name, text, &reference);
        }
        match &reference {
            Ok(_) => self.answered += 1,
            Err(refusal) => self.refused[refusal.number as usize] += 1,
        }
        reference
    }

    fn texts(&self) -> usize {
        self.answered + self.refused.iter().sum::<usize>()
    }

    fn report(&self, what: &str) {
        println!(
            "{what}: {} {} texts, {} answered, refusals 2 to 5: {:?}",
            verb(self.is_linked),
            self.texts(),
            self.answered,
            &self.refused[2..]
        );
    }
}

#[cfg(not(proved_heading))]
fn agree(_: &str, _: &[u8], _: &Result<Heading, Refusal>) {}

/// The proved call tells the same number and cells; cells that it does not tell stay, and so
/// does what stands before and after the lent ones.
#[cfg(proved_heading)]
fn agree(name: &str, text: &[u8], reference: &Result<Heading, Refusal>) {
    const GUARD: usize = 3;
    let (number, cells) = match reference {
        Ok(Heading { version, name }) => {
            let parts = [version, name].map(|part| [part.start, part.len()]);
            (0, parts.concat())
        }
        Err(Refusal { number, place }) => (*number, vec![*place]),
    };
    for lent in [4, 6, text.len() % 4] {
        let noise = |cell: usize| cell.wrapping_mul(0x9e37_79b9_7f4a_7c15) | 1;
        let mut told: Vec<usize> = (0..lent + 2 * GUARD).map(noise).collect();
        let mut expected = told.clone();
        for (cell, lent) in cells.iter().zip(&mut expected[GUARD..GUARD + lent]) {
            *lent = *cell;
        }
        let found = proved::heading::heading(text, &mut told[GUARD..GUARD + lent]);
        assert!(
            found == number && told == expected,
            "{name}\ntext: {}\nreference: {reference:?}\nproved:    {found}, {told:?}",
            text.escape_ascii()
        );
    }
}

/// The answer of a case: `heading`, the version in hex and the name; or the refused line.
fn case_answer(text: &[u8], answer: &Result<Heading, Refusal>) -> Vec<u8> {
    match answer {
        Ok(Heading { version, name }) => {
            let hex: String = text[version.clone()]
                .iter()
                .map(|byte| format!("{byte:02x}"))
                .collect();
            let mut line = format!("heading\t{hex}\t").into_bytes();
            line.extend(&text[name.clone()]);
            line.push(b'\n');
            line
        }
        Err(Refusal { number, place }) => format!("refused\t{number}\t{place}\n").into_bytes(),
    }
}

#[test]
fn cases_of_the_corpus() {
    let mut comparison = Comparison::new();
    let cases = corpus::asking("heading");
    assert_eq!(cases.len(), 59);
    for case in cases {
        let text = case.text();
        let answer = comparison.ask(&case.name, &text);
        let found = case_answer(&text, &answer);
        assert_eq!(Some(found), case.plain_answer(), "{}", case.name);
    }
    comparison.report("cases of Q-7");
    let mut comparison = Comparison::new();
    for sample in corpus::samples() {
        let _ = comparison.ask(&sample.name, &sample.text);
    }
    comparison.report("the corpus of document 01");
}

#[test]
fn generated_texts() {
    let mut all = 0;
    type Make = fn(u64) -> Vec<u8>;
    let families: [(&str, Make, u64); 4] = [
        ("a front and anything behind it", heading::with_front, 9_000),
        ("a fault in the front", heading::with_faulty_front, 12_000),
        ("derived by the grammar", heading::derived, 1_000),
        ("any bytes and tokens", texts::any, 3_000),
    ];
    for (what, make, count) in families {
        let mut comparison = Comparison::new();
        for seed in 0..count {
            let _ = comparison.ask(&format!("{what}, seed {seed}"), &make(seed));
        }
        comparison.report(what);
        all += comparison.texts();
    }
    println!("{all} generated texts");
    assert!(all >= 20_000);
}

/// "it never gives 6", and no token after the brace is asked: the answer is that of the front
/// alone, and its parts are the bytes that were put there.
#[test]
fn the_answer_of_a_front() {
    let mut comparison = Comparison::new();
    for seed in 0..2_000 {
        let random = &mut Random::new(seed);
        let tokens = heading::front_tokens(random);
        let front = texts::spaced(random, &tokens);
        let name = format!("front {seed}");
        let alone = comparison.ask(&name, &front).expect("an answer");
        let quoted = alone.version.start - 1..alone.version.end + 1;
        assert_eq!(front[quoted], tokens[2], "{name}");
        assert_eq!(
            front[alone.name.clone()],
            tokens[tokens.len() - 2],
            "{name}"
        );
        for _ in 0..3 {
            let text = [&front[..], &heading::behind(random)].concat();
            assert_eq!(comparison.ask(&name, &text), Ok(alone.clone()), "{name}");
        }
        for end in (0..front.len()).step_by(1 + seed as usize % 7) {
            let answer = comparison.ask(&name, &front[..end]);
            assert!(answer.is_err(), "{name}, cut at {end}");
        }
    }
    comparison.report("fronts, with anything behind them, and cut");
}

/// Every change of one byte of some fronts.
#[test]
fn changes_of_a_byte() {
    let mut comparison = Comparison::new();
    for front in [
        "OIL_VERSION = \"2.5\"; IMPLEMENTATION m {",
        "OIL_VERSION=\"\":\"d\";IMPLEMENTATION/**/CPU//\n{#",
        " OIL_VERSION = \"2.5\" ;IMPLEMENTATION a1 { }; CPU c { };",
    ] {
        for place in 0..front.len() {
            for byte in 0..=255 {
                let mut text = front.as_bytes().to_vec();
                text[place] = byte;
                let _ = comparison.ask(&format!("{front}: {byte} at {place}"), &text);
            }
        }
    }
    comparison.report("changes of a byte");
}

#[test]
fn limits() {
    let mut comparison = Comparison::new();
    for length in [65_534, 65_535, 65_536, 65_537, 70_000] {
        for (index, text) in heading::of_length(length).iter().enumerate() {
            assert_eq!(text.len(), length);
            let name = format!("text {index} of {length} bytes");
            let answer = comparison.ask(&name, text);
            let is_long = Err(Refusal {
                number: 2,
                place: 0,
            });
            assert_eq!(answer == is_long, length > 65_535, "{name}");
        }
    }
    comparison.report("limits");
}

/// What `oil_heading` writes for arguments, or for a file as standard input where there are none.
fn written(folder: &Path, arguments: &[&[u8]], input: Option<&Path>) -> Vec<u8> {
    let mut command = command("oil_heading");
    if let Some(file) = input {
        command.stdin(fs::File::open(file).expect("a text"));
    }
    let arguments = arguments.iter().map(|word| OsStr::from_bytes(word));
    let child = command.current_dir(folder).args(arguments).spawn();
    waited(child.expect("oil_heading")).written()
}

#[test]
fn program_on_the_cases() {
    let cases = corpus::asking("heading");
    let folder = corpus::folder();
    let names: Vec<&[u8]> = cases
        .iter()
        .map(|case| case.texts[0].file.as_bytes())
        .collect();
    let mut lines = Vec::new();
    for (case, name) in cases.iter().zip(&names) {
        let text = case.text();
        let found = case_answer(&text, &heading(&text));
        assert_eq!(Some(found), case.plain_answer(), "{}", case.name);
        lines.extend(heading::line(name, &text));
        let alone = written(&folder, &[], Some(&case.texts[0].path()));
        assert_eq!(alone, heading::line(b"-", &text), "{}", case.name);
    }
    assert_eq!(written(&folder, &names, None), lines);
}

/// README.md's line, and what it says of it.
#[test]
fn program_on_the_examples() {
    let files: [&[u8]; 3] = [
        b"examples/worked.oil",
        b"examples/broken.oil",
        b"examples/older.oil",
    ];
    let expected = b"examples/worked.oil\t2.5\tm\n\
        examples/broken.oil\t2.5\tm\n\
        examples/older.oil\t2.4\treader\n";
    assert_eq!(
        written(&repository(), &files, None)
            .escape_ascii()
            .to_string(),
        expected.escape_ascii().to_string()
    );
}

/// Files that are not there, a folder, and names and versions of any bytes. A name that is not UTF-8
/// is shown, and cannot be opened.
#[test]
fn program_on_any_names() {
    let folder = Folder::new("heading");
    fs::create_dir_all(folder.path.join("folder")).expect("a folder");
    let every: Vec<u8> = (0..=255).filter(|&byte| byte != b'"').collect();
    let text = [
        b"OIL_VERSION = \"",
        &every[..],
        b"\"; IMPLEMENTATION m { # /* \" 007",
    ]
    .concat();
    let name: Vec<u8> = (1..=255).filter(|&byte| byte != b'/').collect();
    let (name, other) = name.split_at(120);
    for name in [name, other] {
        fs::write(folder.path.join(OsStr::from_bytes(name)), &text).expect("a file");
    }
    folder.with("empty", b"");
    folder.with("long", &heading::of_length(65_536).concat());
    let arguments: [&[u8]; 7] = [name, b"none", b"folder", b"", other, b"empty", b"long"];
    let mut lines = heading::line(name, &text);
    lines.extend(b"none\tcannot be opened\nfolder\tcannot be read\n\tcannot be opened\n");
    // Names are text: one that is not UTF-8 names no file.
    let shown = heading::line(other, &text);
    let end = shown.iter().position(|&byte| byte == b'\t');
    lines.extend(&shown[..end.expect("a tab")]);
    lines.extend(b"\tcannot be opened\n");
    lines.extend(b"empty\trefused\t4\t0\t0\nlong\trefused\t30\t0\t0\n");
    let found = written(&folder.path, &arguments, None);
    assert_eq!(
        found.escape_ascii().to_string(),
        lines.escape_ascii().to_string()
    );
    assert!(found
        .iter()
        .all(|byte| matches!(byte, b' '..=b'~' | b'\t' | b'\n')));
}
