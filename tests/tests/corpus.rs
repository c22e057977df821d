//! The corpus itself: each text stands once, is named by a case, and each case is asked by a test.

use std::collections::{BTreeMap, BTreeSet, HashMap};
use std::fs;
use std::path::Path;
use tests::corpus::{self, answer_file, Case};

/// How many cases each list has.
const CASES: &[(&str, usize)] = &[
    ("document-01", 311),
    ("q01", 180),
    ("q02", 213),
    ("q04", 305),
    ("q05", 182),
    ("q06", 209),
    ("q07", 59),
    ("q08", 84),
    ("q09", 127),
    ("q10", 273),
    ("q11", 102),
    ("q13", 92),
];

/// The texts of document 01, from corpus/, where the program `vectors` finds them.
const DATA: &str = "../../crates/vectors/data";

fn all_cases() -> Vec<Case> {
    let lists = corpus::lists().into_iter();
    lists.flat_map(|name| corpus::list(&name)).collect()
}

fn read(path: &Path) -> Vec<u8> {
    fs::read(path).unwrap_or_else(|fault| panic!("{}: {fault}", path.display()))
}

/// The files below a folder of the corpus, as the lists name them.
fn files(folder: &str) -> BTreeSet<String> {
    let mut files = BTreeSet::new();
    for name in corpus::names(&corpus::folder().join(folder)) {
        let path = match folder {
            "" => name,
            folder => format!("{folder}/{name}"),
        };
        match corpus::folder().join(&path).is_dir() {
            true => files.extend(self::files(&path)),
            false => assert!(files.insert(path)),
        }
    }
    files
}

#[test]
fn each_list_has_its_cases() {
    let lists = corpus::lists();
    let found: Vec<(&str, usize)> = lists
        .iter()
        .map(|name| (&name[..], corpus::list(name).len()))
        .collect();
    assert_eq!(found, CASES);
}

/// In all of corpus/ and in the data of `vectors` no two files are the same.
#[test]
fn each_text_stands_once() {
    let mut seen: HashMap<Vec<u8>, String> = HashMap::new();
    for file in files("").into_iter().chain(files(DATA)) {
        if let Some(other) = seen.insert(read(&corpus::folder().join(&file)), file.clone()) {
            panic!("{file} is the same as {other}");
        }
    }
}

/// The lists name the files of texts and answers, each of them, and no others; nothing else is
/// there.
#[test]
fn each_file_is_named() {
    let mut named: BTreeSet<String> = ["README.md", "INDEX.md"].map(String::from).into();
    named.extend(
        corpus::lists()
            .iter()
            .map(|list| format!("cases/{list}.txt")),
    );
    for case in all_cases() {
        named.extend(case.texts.into_iter().map(|text| text.file));
        let files = case
            .answers
            .iter()
            .filter_map(|answer| answer_file(&answer.form));
        named.extend(files.map(String::from));
    }
    let mut there = files("");
    there.extend(files(DATA));
    let unnamed: Vec<&String> = there.difference(&named).collect();
    let missing: Vec<&String> = named.difference(&there).collect();
    assert!(unnamed.is_empty(), "named by no case: {unnamed:?}");
    assert!(missing.is_empty(), "named and not there: {missing:?}");
}

/// The words that the sources of the tests give to `corpus::asking`.
fn asked() -> BTreeSet<String> {
    let mut words = BTreeSet::new();
    for folder in ["src", "tests"] {
        let folder = Path::new(env!("CARGO_MANIFEST_DIR")).join(folder);
        for name in corpus::names(&folder) {
            if !name.ends_with(".rs") {
                continue;
            }
            let source = String::from_utf8(read(&folder.join(&name))).expect("a source in UTF-8");
            let code = source
                .lines()
                .filter(|line| !line.trim_start().starts_with("//"));
            for after in code.flat_map(|line| line.split("asking(\"").skip(1)) {
                words.extend(after.split_once('"').map(|(word, _)| word.to_string()));
            }
        }
    }
    words
}

/// A test asks each question of the lists. Document 01's texts are all asked for normal text.
#[test]
fn each_case_is_asked() {
    let asked = asked();
    let mut questions: BTreeMap<String, usize> = BTreeMap::new();
    for case in all_cases() {
        let word = case.ask.split(' ').next().expect("a question");
        assert!(asked.contains(word), "{}: no test asks {word}", case.name);
        *questions.entry(word.into()).or_default() += 1;
    }
    let base = corpus::list(corpus::DOCUMENT_01);
    assert!(base.iter().all(|case| case.ask == "normal"));
    let taken: usize = questions
        .keys()
        .map(|word| corpus::asking(word).len())
        .sum();
    assert_eq!(taken + base.len(), questions.values().sum());
    let includes = corpus::list("q10").len();
    assert_eq!(corpus::all().len() + includes, questions["normal"]);
    println!("cases of each question: {questions:?}");
}

/// A question about the same texts has one answer, in whatever list it stands.
#[test]
fn one_answer_for_a_question() {
    let mut answers: HashMap<(String, String), (String, Vec<u8>)> = HashMap::new();
    for case in all_cases() {
        let answer = (case.name.clone(), case.answer());
        let question = (case.ask, format!("{:?}", case.texts));
        if let Some((other, other_answer)) = answers.insert(question, answer.clone()) {
            assert_eq!(answer.1, other_answer, "{} and {other}", answer.0);
        }
    }
    println!("{} different questions", answers.len());
}

/// What `vectors` is held to are the answers of the list.
#[test]
fn vectors_writes_the_answers() {
    let checksum = |bytes: &[u8]| {
        let onward = |sum: u32, byte: &u8| sum.wrapping_mul(31).wrapping_add(u32::from(*byte));
        bytes.iter().fold(0, onward)
    };
    let mut expected: BTreeMap<usize, String> = BTreeMap::new();
    for case in corpus::list(corpus::DOCUMENT_01) {
        let file = &case.texts[0].file;
        let number = file
            .strip_prefix(DATA)
            .and_then(|name| name.strip_prefix('/'));
        let number = number.and_then(|name| name.strip_suffix(".oil"));
        let number = number
            .and_then(|number| number.parse().ok())
            .expect("a number");
        let answer = case.answer();
        let line = match answer.starts_with(b"refused\t") {
            true => String::from_utf8(answer).expect("a line"),
            false => format!("accepted\t{}\t{}\n", answer.len(), checksum(&answer)),
        };
        expected.insert(number, format!("{number}\t{line}"));
    }
    let expected: String = expected.into_values().collect();
    let file = corpus::folder().join("../../crates/vectors/stdout");
    let written = String::from_utf8(read(&file)).expect("lines");
    assert_eq!(written, expected);
}
