//! Document 02, Q-10: the programs, which gather the files that a text includes, against the
//! reference, which gathers the same ones.

use std::ffi::OsStr;
use std::fs;
use std::os::unix::ffi::OsStrExt;
use std::path::PathBuf;
use tests::corpus;
use tests::heading::shown;
use tests::including::{self, gather, Lent, LONGEST};
use tests::lent_texts::{self, divided_text};
use tests::programs::{command, example, run, Folder};
use tests::random::Random;
use tests::{expecting, masks, release_texts, standard};

/// A folder with the files that texts include.
struct Files {
    folder: Folder,
}

impl Files {
    fn new(name: &str) -> Files {
        let folder = Folder::new(name);
        Files { folder }
    }

    fn path(&self, name: &str) -> PathBuf {
        self.folder.path.join(name)
    }

    /// The file of a name, if the name is one of a file below the folder.
    fn file(&self, name: &[u8]) -> Option<PathBuf> {
        let is_below = !name.is_empty() && name[0] != b'/' && !name.contains(&0);
        is_below.then(|| self.folder.path.join(OsStr::from_bytes(name)))
    }

    /// Puts the files of texts, as far as their names are names of files; of equal names the
    /// first.
    fn put(&self, texts: &[Lent]) {
        for lent in texts.iter().rev() {
            let Some(file) = self.file(&lent.name) else {
                continue;
            };
            fs::create_dir_all(file.parent().expect("its folder")).expect("a folder");
            fs::write(&file, &lent.text).ok();
        }
    }

    /// What the reference gathers for a main text; of a file no more than is looked at.
    fn gathered(&self, main: &[u8]) -> Vec<Lent> {
        let first = |mut text: Vec<u8>| {
            text.truncate(LONGEST + 1);
            text
        };
        gather(&first(main.to_vec()), |name| {
            fs::read(self.file(name)?).ok().map(first)
        })
    }

    /// What a program writes in the folder.
    fn run(&self, program: &str, arguments: &[&[u8]], input: &[u8]) -> Vec<u8> {
        let arguments = arguments.iter().map(|word| OsStr::from_bytes(word));
        let mut command = command(program);
        run(
            command.args(arguments).current_dir(&self.folder.path),
            input,
        )
        .written()
    }

    /// The program `oil` on a main text, held to the reference.
    #[track_caller]
    fn oil(&self, name: &str, main: &[u8]) -> Vec<Lent> {
        let texts = self.gathered(main);
        let expected = including::program(&texts);
        self.writes(name, "oil", &[], main, &expected);
        texts
    }

    #[track_caller]
    fn writes(&self, name: &str, program: &str, arguments: &[&[u8]], main: &[u8], bytes: &[u8]) {
        let found = self.run(program, arguments, main);
        assert!(
            found == bytes,
            "{name}, {program}\ntext: {}\nfound: {}\nexpected: {}",
            main[..main.len().min(2_000)].escape_ascii(),
            found.escape_ascii(),
            bytes.escape_ascii()
        );
    }
}

/// The cases of the corpus. Where the main text has no `#`, the case is about what is lent.
#[test]
fn oil_on_the_cases() {
    let files = Files::new("cases");
    let mut cases = 0;
    for case in corpus::list("q10") {
        let (main, others) = case.texts.split_first().expect("a main text");
        let main = main.bytes();
        if !others.is_empty() && !main.contains(&b'#') {
            continue;
        }
        let name = |text: &corpus::Text| text.name.clone().expect("its name");
        let others: Vec<Lent> = others
            .iter()
            .map(|text| Lent::new(name(text), text.bytes()))
            .collect();
        files.folder.clear();
        files.put(&others);
        files.writes(&case.name, "oil", &[], &main, &case.answer());
        cases += 1;
    }
    assert_eq!(cases, 270);
}

#[test]
fn oil_on_generated_sets() {
    let files = Files::new("sets");
    let mut gathered = 0;
    for seed in 0..500 {
        let set = match seed % 5 {
            0 => lent_texts::with_fault(seed),
            1 => lent_texts::damaged(seed),
            2 => lent_texts::lines(seed),
            _ => lent_texts::accepted(seed).1,
        };
        let Some(texts) = set.buffer.texts() else {
            continue;
        };
        files.folder.clear();
        files.put(&texts[1..]);
        gathered += files.oil(&set.name, &texts[0].text).len();
    }
    assert!(gathered > 1_000, "{gathered} texts gathered");
}

/// Sets at the limits, and those that take much work.
#[test]
fn oil_on_limits() {
    let files = Files::new("limits");
    for set in lent_texts::limits() {
        let Some(texts) = set.buffer.texts() else {
            continue;
        };
        files.folder.clear();
        files.put(&texts[1..]);
        files.oil(&set.name, &texts[0].text);
    }
}

/// "at most 8 texts": the ninth is not there. "each newly named file": each is opened once.
#[test]
fn oil_on_many_files() {
    let files = Files::new("many");
    let include = |number: usize| format!("#include \"f{number}\"\n");
    let texts: Vec<Lent> = (1..=9)
        .map(|number| Lent::new(format!("f{number}"), format!("/* {number} */")))
        .collect();
    files.put(&texts);
    for count in 1..=9 {
        let main: String = (1..=count).map(include).collect();
        let texts = files.oil("flat", main.as_bytes());
        assert_eq!(texts.len(), (count + 1).min(8));
        let twice: String = (1..=count)
            .flat_map(|number| [include(number), include(1)])
            .collect();
        files.oil("each with the first", twice.as_bytes());
    }
    for number in 1..9 {
        let text = format!("{}{}", include(number + 1), include(number + 1));
        fs::write(files.path(&format!("f{number}")), text).expect("a file");
    }
    files.oil("one inside the other", include(1).as_bytes());
}

/// A text may be too long while a file is missing, and short once it is there: wherever the
/// `#` stands on the line that names it.
#[test]
fn oil_where_a_file_makes_it_shorter() {
    let files = Files::new("shorter");
    let main = [&b" ".repeat(60_000)[..], b"\n#include \"a\""].concat();
    for before in [0, 1_000, 5_500, 5_535, 5_536, 6_000, 60_000] {
        let line = [
            &b" ".repeat(before)[..],
            b"#include \"b\"",
            &b" ".repeat(6_000_usize.saturating_sub(before)),
        ];
        files.folder.clear();
        files.put(&[Lent::new("a", line.concat()), Lent::new("b", "}")]);
        let texts = files.oil("shorter", &main);
        assert_eq!(texts.len(), 3, "{before} before the `#`");
        assert_eq!(including::program(&texts), b"refused\t4\t2\t0\n");
    }
    // Lines that begin about the last place: the text is too long, whatever is there.
    for blanks in 65_500..65_540 {
        let main = [&b" ".repeat(blanks)[..], b"\n#include \"b\""].concat();
        files.oil("at the end", &main);
    }
}

/// Names that are no files: a folder, nothing, a name with a zero byte, a very long one.
#[test]
fn oil_on_names_that_are_no_files() {
    let files = Files::new("names");
    fs::create_dir(files.path("folder")).expect("a folder");
    fs::write(files.path("long"), b" ".repeat(70_000)).expect("a file");
    fs::write(files.path("most"), b" ".repeat(65_534)).expect("a file");
    fs::write(files.path("more"), b" ".repeat(65_535)).expect("a file");
    let long = "n".repeat(60_000);
    let nul = "a\0b";
    for name in [
        "folder",
        ".",
        "..",
        "none",
        "folder/none",
        nul,
        &long,
        "",
        "long",
        "most",
        "more",
    ] {
        for main in [
            format!("#include \"{name}\""),
            format!("\n\n#include <{name}>\n}}"),
        ] {
            files.oil(name, main.as_bytes());
        }
    }
}

/// Two releases, each with files of its own.
#[test]
fn oil_on_two_releases() {
    let files = Files::new("releases");
    let mut random = Random::new(8);
    for seed in 0..60 {
        files.folder.clear();
        let mut mains = Vec::new();
        for (side, text) in release_texts::pair(seed).iter().enumerate() {
            let texts = divided_text(&mut random, text);
            files.put(&texts[1..]);
            let name = format!("main{side}.oil");
            fs::write(files.path(&name), &texts[0].text).expect("a file");
            mains.push((name, texts[0].text.clone()));
        }
        let releases: Vec<Vec<Lent>> = mains.iter().map(|(_, main)| files.gathered(main)).collect();
        let report = including::report([&releases[0], &releases[1]]);
        let names: Vec<&[u8]> = mains.iter().map(|(name, _)| name.as_bytes()).collect();
        files.writes(&format!("pair {seed}"), "oil", &names, b"", &report);
    }
}

/// The other programs on divided texts.
#[test]
fn other_programs() {
    let files = Files::new("others");
    let mut random = Random::new(10);
    for turn in 0..120 {
        let text = match turn % 3 {
            0 => standard::text(&mut random, turn % 4),
            _ => {
                let mix = masks::any_mix(&mut random);
                masks::text(&mut random, &mix)
            }
        };
        let lent = divided_text(&mut random, &text);
        files.folder.clear();
        files.put(&lent[1..]);
        let main = &lent[0].text;
        let texts = files.gathered(main);
        let name = format!("turn {turn}");
        files.writes(&name, "oil_heading", &[], main, &heading_line(&texts));
        fs::write(files.path("the main text"), main).expect("a file");
        let with_name = [b"the main text", &heading_line(&texts)[1..]].concat();
        files.writes(&name, "oil_heading", &[b"the main text"], b"", &with_name);
        let lines = files.run("oil_standard", &[], main);
        let standard = match including::check_standard(&texts) {
            Err(refused) => refused.line(),
            Ok(None) => "nothing wrong\n".into(),
            Ok(Some(finding)) => format!("{}: {}", position(&texts, finding.place), finding.number),
        };
        assert!(lines.starts_with(standard.as_bytes()), "{name}: {standard}");
        let planned = including::plan_masks(&texts, &[0; 256]);
        let lines = files.run("oil_masks", &[], main);
        match planned {
            Err(refused) => assert_eq!(lines, refused.line().as_bytes(), "{name}"),
            Ok((masks::Planned::Made(count), _)) => {
                let found = lines.split(|byte| *byte == b'\n').count() - 1;
                assert_eq!(found, count, "{name}");
            }
            Ok(_) => assert!(!lines.starts_with(b"refused"), "{name}"),
        }
    }
}

fn heading_line(texts: &[Lent]) -> Vec<u8> {
    match including::heading(texts) {
        Ok([version, name]) => {
            let fields = [b"-".to_vec(), shown(&version.bytes), shown(&name.bytes)];
            [&fields.join(&b'\t')[..], b"\n"].concat()
        }
        Err(refused) => [b"-\t", refused.line().as_bytes()].concat(),
    }
}

/// The file, line and column of a place.
fn position(texts: &[Lent], place: including::Place) -> String {
    let name = match place.text {
        0 => "-".into(),
        text => String::from_utf8(shown(&texts[text].name)).expect("plain characters"),
    };
    let front = &texts[place.text].text[..place.byte];
    let line = front.iter().filter(|byte| **byte == b'\n').count() + 1;
    let start = front
        .iter()
        .rposition(|byte| *byte == b'\n')
        .map_or(0, |lf| lf + 1);
    format!("{name}:{line}:{}", place.byte - start + 1)
}

/// Whether a refusal 4 is told; if so, its line ends in what is expected in the expanded text.
fn tells_the_expected(texts: &[Lent], lines: &[u8]) -> bool {
    let joined = including::join(texts).ok();
    let Some(told) = joined.and_then(|joined| expecting::told(&joined.text)) else {
        return false;
    };
    let first = lines.split(|byte| *byte == b'\n').next().expect("a line");
    let end = format!("; {told}");
    assert!(
        first.ends_with(end.as_bytes()),
        "{}{end}",
        first.escape_ascii()
    );
    true
}

/// `oil_explain` names the file and shows its line, and says what is expected at a refusal 4.
#[test]
fn explains_a_file() {
    let files = Files::new("explain");
    for seed in 0..120 {
        let set = match seed % 2 {
            0 => lent_texts::with_fault(seed),
            _ => lent_texts::with_later_fault(seed),
        };
        let lent = set.buffer.texts().expect("texts that are lent well");
        files.folder.clear();
        files.put(&lent[1..]);
        let texts = files.gathered(&lent[0].text);
        let lines = files.run("oil_explain", &[], &lent[0].text);
        let expected = match including::read(&texts) {
            Ok(_) => "accepted\n".into(),
            Err(refused) if [1, 19, 20, 30].contains(&refused.number) => {
                format!("refusal {}: ", refused.number)
            }
            Err(refused) => {
                let position = position(&texts, refused.place);
                format!("{position}: refusal {}: ", refused.number)
            }
        };
        assert!(
            lines.starts_with(expected.as_bytes()),
            "{}: {expected}\n{}",
            set.name,
            lines.escape_ascii()
        );
        tells_the_expected(&texts, &lines);
    }
    let lent = [
        Lent::new("", "#include \"front\"\nCPU c { };\n"),
        Lent::new("front", "OIL_VERSION = \"2.5\"\nIMPLEMENTATION i { };"),
    ];
    files.folder.clear();
    files.put(&lent[1..]);
    let texts = files.gathered(&lent[0].text);
    let lines = files.run("oil_explain", &[], &lent[0].text);
    assert!(
        lines.starts_with(b"front:2:1: refusal 4: "),
        "{}",
        lines.escape_ascii()
    );
    assert!(tells_the_expected(&texts, &lines));
}

/// README.md's example of includes, and what it says of it.
#[test]
fn the_example() {
    let examples = example("includes");
    let files = Files::new("example");
    for name in ["unit.oil", "implementation.oil", "channel.oil"] {
        fs::copy(examples.join(name), files.path(name)).expect("an example");
    }
    let main = fs::read(examples.join("unit.oil")).expect("the example");
    let texts = files.oil("unit.oil", &main);
    assert_eq!(texts.len(), 3);
    assert!(including::read(&texts).is_ok());
}
