//! The calls as a program in C makes them: include/kaukslini.h against the exported functions,
//! tests/c/calls.c compiled against it as C99 and as C++17, with sanitizers, in guarded memory, and
//! examples/editor.c.

use std::env;
use std::fs;
use std::path::{Path, PathBuf};
use std::process::Command;
use std::time::Duration;
use tests::explaining::explained;
use tests::exporting::{self, Answer, Heading, Position};
use tests::heavy::heavy;
use tests::programs::{repository as root, run_within};
use tests::random::Random;
use tests::values::{questions, read, Question};
use tests::{corpus, release_texts, texts};

/// The static library that `tools/build exporting_c` makes.
fn library() -> Option<PathBuf> {
    let folder = match env::var("KAUKSLINI_STATICLIB") {
        Ok(folder) => PathBuf::from(folder),
        Err(_) => root().join("target/staticlib"),
    };
    let library = folder.join("libexporting.a");
    let required = env::var("KAUKSLINI_REQUIRE_PROVED").is_ok_and(|value| value == "1");
    assert!(library.exists() || !required, "{}", library.display());
    if !library.exists() {
        eprintln!("NOT COMPARED: {} is not built", library.display());
        return None;
    }
    Some(library)
}

/// A compiler's own warnings are errors.
const STRICT: [&str; 4] = ["-Wall", "-Wextra", "-Werror", "-pedantic"];
const SANITIZED: [&str; 3] = [
    "-g",
    "-fsanitize=address,undefined",
    "-fno-sanitize-recover=all",
];
const C99: [&str; 1] = ["-std=c99"];
const CPP17: [&str; 3] = ["-x", "c++", "-std=c++17"];

/// Compiles a file of C with these flags and links it with the library.
fn compile(source: &str, flags: [&[&str]; 2], library: &Path, name: &str) -> PathBuf {
    let folder = Path::new(env!("CARGO_TARGET_TMPDIR"));
    let program = folder.join(name);
    let output = Command::new(env::var("CC").unwrap_or_else(|_| "cc".into()))
        .args(flags.concat())
        .args(STRICT)
        .arg("-I")
        .arg(root().join("include"))
        .arg(root().join(source))
        .args(["-x", "none", "-pthread"])
        .arg(library)
        .arg("-o")
        .arg(&program)
        .output()
        .expect("a C compiler");
    let said = String::from_utf8_lossy(&output.stderr);
    assert!(output.status.success(), "{source} {flags:?}\n{said}");
    program
}

/// What a program writes for this input.
fn run(program: &Path, words: &[&str], input: Vec<u8>) -> (Option<i32>, Vec<u8>, String) {
    let time = Duration::from_secs(600);
    let ran = run_within(time, Command::new(program).args(words), &input);
    let said = String::from_utf8_lossy(&ran.err).into_owned();
    (ran.status.code(), ran.out, said)
}

/// What is asked of a text.
#[derive(Clone)]
enum Asked {
    NormalText,
    Value(Question),
    Heading,
    Place(usize),
}

/// A question of calls.c, with the length of the output.
struct Call {
    text: Vec<u8>,
    asked: Asked,
    room: usize,
}

/// The byte that fills an output before a call.
const NOISE: u8 = 0x5a;

fn cell(number: usize) -> [u8; 8] {
    (number as u64).to_le_bytes()
}

impl Call {
    fn new(text: &[u8], asked: &Asked, room: usize) -> Call {
        Call {
            text: text.to_vec(),
            asked: asked.clone(),
            room,
        }
    }

    fn input(&self) -> Vec<u8> {
        let (which, place) = match &self.asked {
            Asked::NormalText => (b'n', 0),
            Asked::Value(_) => (b'v', 0),
            Asked::Heading => (b'h', 0),
            Asked::Place(place) => (b'e', *place),
        };
        let words: [&[u8]; 3] = match &self.asked {
            Asked::Value(Question { kind, name, path }) => [kind, name, path],
            _ => [b"", b"", b""],
        };
        let mut input = vec![which];
        input.extend(cell(place));
        for slice in [&[&self.text[..]], &words[..]].concat() {
            input.extend(cell(slice.len()));
            input.extend(slice);
        }
        input.extend(cell(self.room));
        input
    }

    /// What calls.c writes: the members of the struct, and the output.
    fn expected(&self) -> Vec<u8> {
        let noise = vec![NOISE; self.room];
        let three = |Answer {
                         number,
                         place,
                         length,
                     }| vec![number, place, length];
        let (told, after) = match &self.asked {
            Asked::NormalText => {
                let (answer, after) = exporting::normal_text(&self.text, &noise);
                (three(answer), after)
            }
            Asked::Value(question) => {
                let (answer, after) = exporting::value_of(&self.text, question, &noise);
                (three(answer), after)
            }
            Asked::Heading => {
                let Heading {
                    number,
                    place,
                    version,
                    version_length,
                    name,
                    name_length,
                } = exporting::heading(&self.text);
                let told = vec![number, place, version, version_length, name, name_length];
                (told, noise)
            }
            Asked::Place(place) => {
                let (told, after) = exporting::explain(&self.text, *place, &noise);
                let Position {
                    line,
                    column,
                    length,
                } = told;
                (vec![line, column, length], after)
            }
        };
        let mut output: Vec<u8> = told.into_iter().flat_map(cell).collect();
        output.extend(after);
        output
    }
}

/// All calls for a text, each with outputs of several lengths.
fn calls_for(random: &mut Random, text: &[u8]) -> Vec<Call> {
    let mut calls = Vec::new();
    let (answer, _) = exporting::normal_text(text, &[NOISE; 1 << 18]);
    for room in [answer.length, answer.length.saturating_sub(1)] {
        calls.push(Call::new(text, &Asked::NormalText, room));
    }
    let questions = match read(text) {
        Ok(reading) => questions(random, text, &reading, 2),
        Err(_) => vec![Question {
            kind: b"OS".to_vec(),
            name: b"o".to_vec(),
            path: Vec::new(),
        }],
    };
    for question in questions {
        let (answer, _) = exporting::value_of(text, &question, &[NOISE; 1 << 17]);
        for room in [answer.length, answer.length.saturating_sub(1), 100] {
            calls.push(Call::new(text, &Asked::Value(question.clone()), room));
        }
    }
    calls.push(Call::new(text, &Asked::Heading, 0));
    for place in [answer.place, random.below(text.len() + 2)] {
        for room in [PICTURE, random.below(PICTURE), 0] {
            calls.push(Call::new(text, &Asked::Place(place), room));
        }
    }
    calls
}

/// `KAUKSLINI_PICTURE`
const PICTURE: usize = 157;

/// The corpus, generated texts and limits.
fn all_calls() -> Vec<Call> {
    let mut random = Random::new(99);
    let mut given: Vec<Vec<u8>> = corpus::all()
        .into_iter()
        .map(|sample| sample.text)
        .collect();
    given.extend(corpus::asking("value").iter().map(|case| case.text()));
    given.push(vec![b' '; 65_535]);
    given.push(vec![b' '; 65_536]);
    given.push(Vec::new());
    for seed in 0..150 {
        let [first, second] = release_texts::pair(seed);
        given.push(texts::damaged(&mut random, &second));
        given.push(first);
    }
    let calls = given.iter().flat_map(|text| calls_for(&mut random, text));
    calls.collect()
}

#[test]
fn calls_from_c() {
    let Some(library) = library() else {
        return;
    };
    let calls = all_calls();
    assert!(calls.len() > 8_000, "{}", calls.len());
    let input: Vec<u8> = calls.iter().flat_map(Call::input).collect();
    let expected: Vec<Vec<u8>> = calls.iter().map(Call::expected).collect();
    for (language, name) in [(&C99[..], "calls-c99"), (&CPP17[..], "calls-c++17")] {
        let program = compile("tests/c/calls.c", [language, &SANITIZED], &library, name);
        let (status, output, said) = run(&program, &[], input.clone());
        assert_eq!(status, Some(0), "{name}: {said}");
        let mut rest = &output[..];
        for (call, expected) in calls.iter().zip(&expected) {
            let found = &rest[..expected.len().min(rest.len())];
            let text = || call.text.escape_ascii().to_string();
            assert!(found == expected, "{name}: {found:?}\n{}", text());
            rest = &rest[expected.len()..];
        }
        assert!(rest.is_empty(), "{name}");
    }
}

/// The most by which `KAUKSLINI_STACK` passes the stack that a call was seen to take.
const SPARE: usize = 1 << 17;

/// `KAUKSLINI_STACK` is enough for all texts, the heavy ones too, and not much more than that.
#[test]
fn the_stack() {
    let Some(library) = library() else {
        return;
    };
    let mut calls = all_calls();
    for heavy in heavy() {
        let question = Question {
            kind: b"OS".to_vec(),
            name: b"o".to_vec(),
            path: b"x".to_vec(),
        };
        calls.push(Call::new(&heavy.text, &Asked::NormalText, 1 << 18));
        calls.push(Call::new(&heavy.text, &Asked::Value(question), 1 << 16));
        calls.push(Call::new(&heavy.text, &Asked::Heading, 0));
    }
    let input: Vec<u8> = calls.iter().flat_map(Call::input).collect();
    let program = compile("tests/c/calls.c", [&C99, &["-O2"]], &library, "calls-stack");
    let (status, _, said) = run(&program, &[], input);
    assert_eq!(status, Some(0), "{said}");
    let taken = said.trim().strip_prefix("stack ").expect("the stack");
    let taken: usize = taken.parse().expect("a number");
    let stated = constant("KAUKSLINI_STACK");
    println!("{taken} bytes of stack are taken, {stated} stated");
    assert!(taken <= stated, "{taken} of {stated}");
    assert!(stated - taken <= SPARE, "{taken} of {stated}");
}

/// The example that a newcomer copies, for the cases of the corpus.
#[test]
fn the_editor() {
    let Some(library) = library() else {
        return;
    };
    let program = compile("examples/editor.c", [&C99, &SANITIZED], &library, "editor");
    let mut compared = 0;
    for case in corpus::asking("value") {
        let words = case.ask.strip_prefix("value ").expect("a question");
        let Some(words) = words.strip_suffix(" room 65535") else {
            continue;
        };
        let words: Vec<&str> = words.splitn(3, ' ').collect();
        let (_, written, said) = run(&program, &words, case.text());
        let answer = case.answer();
        let expected = match answer.strip_prefix(b"value\t") {
            Some(value) => value.to_vec(),
            None if answer.starts_with(b"not") => answer,
            None => {
                let line = String::from_utf8(answer).expect("a line");
                let fields: Vec<&str> = line.trim_end().split('\t').collect();
                let shown = explained(&case.text(), fields[3].parse().expect("a byte"));
                let front = format!("line {}, column {}", shown.line, shown.column);
                let front = format!("{front}: refusal {}\n", fields[1]);
                [front.as_bytes(), &shown.picture.concat()].concat()
            }
        };
        assert_eq!(written, expected, "{}: {said}", case.name);
        compared += 1;
    }
    assert!(compared > 60, "{compared}");
}

// The header -----------------------------------------------------------------------------------

/// Words and signs, one blank between two.
fn plain(code: &str) -> String {
    let mut spaced = String::new();
    for byte in code.chars() {
        match byte {
            '(' | ')' | ',' | '*' | '&' | '[' | ']' | ':' | '{' | '}' | ';' => {
                spaced += &format!(" {byte} ");
            }
            _ => spaced.push(byte),
        }
    }
    spaced.split_whitespace().collect::<Vec<_>>().join(" ")
}

/// The structs of the crate `exporting`, and their names in C.
const STRUCTS: [(&str, &str); 3] = [
    ("Told", "kaukslini_answer"),
    ("Heading", "kaukslini_version_and_name"),
    ("Position", "kaukslini_position"),
];

/// The prototype that a function of the crate `exporting_c` has in C.
fn prototype(signature: &str) -> String {
    let (name, rest) = signature.split_once('(').expect("parameters");
    let (parameters, result) = rest.rsplit_once(')').expect("parameters");
    let result = STRUCTS
        .iter()
        .find(|(own, _)| plain(result) == format!("-> {own}"));
    let (_, result) = result.expect("a struct");
    let mut own = Vec::new();
    for parameter in parameters
        .split(',')
        .map(str::trim)
        .filter(|word| !word.is_empty())
    {
        let (word, kind) = parameter.split_once(':').expect("a type");
        own.push(match kind.trim() {
            "&[u8]" => format!("const uint8_t *{word}, size_t {word}_length"),
            "&mut [u8]" => format!("uint8_t *{word}, size_t {word}_length"),
            "usize" => format!("size_t {word}"),
            kind => panic!("{name}: no rule for {kind}"),
        });
    }
    plain(&format!("struct {result} {name}({});", own.join(", ")))
}

/// What stands in the braces of a struct.
fn members<'a>(code: &'a str, front: &str) -> &'a str {
    let (_, rest) = code.split_once(front).unwrap_or_else(|| panic!("{front}"));
    rest.split_once('}').expect("a brace").0
}

/// A constant of the header.
fn constant(name: &str) -> usize {
    let header = fs::read_to_string(root().join("include/kaukslini.h")).expect("the header");
    let header = uncommented(&header);
    let (_, rest) = header.split_once(&format!("{name} = ")).expect("its name");
    let digits: String = rest.chars().take_while(char::is_ascii_digit).collect();
    digits.parse().expect("a number")
}

/// A text without its comments: `/* .. */` and `// ..`.
fn uncommented(text: &str) -> String {
    let mut bare = String::new();
    let mut rest = text;
    while let Some((front, comment)) = rest.split_once("/*") {
        bare += front;
        rest = comment.split_once("*/").expect("the comment ends").1;
    }
    bare += rest;
    let lines = bare
        .lines()
        .map(|line| line.split("//").next().unwrap_or(""));
    lines.collect::<Vec<_>>().join("\n")
}

/// Nothing else compares the declarations with what is exported.
#[test]
fn the_header() {
    let source = |name: &str| {
        let file = root().join("crates").join(name).join("src/lib.rt");
        uncommented(&fs::read_to_string(file).expect("the code"))
    };
    let header = fs::read_to_string(root().join("include/kaukslini.h")).expect("the header");
    let header = plain(&uncommented(&header));
    let code = source("exporting_c");
    let mut exported: Vec<&str> = Vec::new();
    for part in code.split("pub extern \"C\" fn ").skip(1) {
        let signature = part.split("ensures").next().expect("a contract");
        let prototype = prototype(signature);
        assert!(
            header.contains(&prototype),
            "not in the header: {prototype}"
        );
        exported.push(signature.split('(').next().expect("a name"));
    }
    assert_eq!(exported.len(), code.matches("#[unsafe(no_mangle)]").count());
    let declared =
        STRUCTS.map(|(_, name)| header.matches(&format!("struct {name} kaukslini_")).count());
    assert_eq!(exported.len(), declared.iter().sum::<usize>());
    let code = plain(&source("exporting"));
    let derives = plain("#[derive(Clone, Copy)]");
    for (own, name) in STRUCTS {
        let own = members(
            &code,
            &format!("# [ repr ( C ) ] {derives} pub struct {own} {{"),
        );
        let own: Vec<&str> = own.split(" : usize ,").map(str::trim).collect();
        let declared = members(&header, &format!("struct {name} {{"));
        let declared: Vec<&str> = declared.split(';').map(str::trim).collect();
        let own: Vec<String> = own
            .iter()
            .map(|word| word.replace("pub", "size_t"))
            .collect();
        assert_eq!(own, declared, "{name}");
    }
    assert_eq!(constant("KAUKSLINI_PICTURE"), PICTURE);
    assert_eq!(constant("KAUKSLINI_TEXT"), 65_535);
    if let Some(library) = library() {
        let output = Command::new("nm").arg(&library).output().expect("nm");
        let symbols = String::from_utf8_lossy(&output.stdout).into_owned();
        let mut defined: Vec<&str> = symbols
            .lines()
            .filter_map(|line| line.split_once(" T kaukslini_"))
            .map(|(_, name)| name)
            .collect();
        defined.sort_unstable();
        let mut expected: Vec<&str> = exported
            .iter()
            .map(|name| name.strip_prefix("kaukslini_").expect("the prefix"))
            .collect();
        expected.sort_unstable();
        assert_eq!(defined, expected);
    }
}

/// Each number of the enum is that of docs/REFUSALS.md, and each refusal that a call can give is there.
#[test]
fn the_numbers() {
    let header = fs::read_to_string(root().join("include/kaukslini.h")).expect("the header");
    let code = fs::read_to_string(root().join("crates/rows/src/refusals.rt")).expect("the numbers");
    let constants: Vec<(String, usize)> = code
        .lines()
        .filter_map(|line| line.strip_prefix("pub const ")?.strip_suffix(';'))
        .map(|line| {
            let (name, value) = line.split_once(": u8 = ").expect("a number");
            (name.to_string(), value.parse().expect("a number"))
        })
        .collect();
    let header = plain(&uncommented(&header));
    for (name, value) in constants {
        // What the calls never give: their own tables are long enough, and no standard is checked; 30 replaces 2 and takes its name.
        if [1, 2, 25, 26, 30].contains(&value) {
            continue;
        }
        let wanted = format!("KAUKSLINI_{name} = {value} ,");
        assert!(header.contains(&wanted), "{wanted}");
    }
    for (value, name) in [
        (0, "DONE"),
        (27, "OPEN_TEXT"),
        (28, "NO_TEXT"),
        (29, "NO_INCLUDE"),
        (30, "LONG_TEXT"),
    ] {
        assert!(
            header.contains(&format!("KAUKSLINI_{name} = {value} ,")),
            "{name}"
        );
    }
    assert!(header.contains(&format!(
        "KAUKSLINI_NOT_FOUND = {} }}",
        exporting::NOT_FOUND
    )));
}
