//! The corpus: cases, each a question about a text and the answer that was worked out for it.
//! corpus/README.md says in which form they stand there.

use std::fs;
use std::path::{Path, PathBuf};

/// The list of the texts of document 01; each other one is of a request of document 02.
pub const DOCUMENT_01: &str = "document-01";

/// The request from whose landing on a place is a text's number and a byte.
const INCLUDES: &str = "q10";

/// A text of the corpus and what is written for it.
pub struct Sample {
    pub name: String,
    pub text: Vec<u8>,
    /// By the calls that take one text, without includes: a refused line has number and place.
    pub expected: Vec<u8>,
    /// By the program, which reads it as the main text.
    pub by_program: Vec<u8>,
}

impl Sample {
    /// Number and place of the expected refusal; none where the text is accepted.
    pub fn refusal(&self) -> Option<(u8, usize)> {
        let expected = std::str::from_utf8(&self.expected).ok()?;
        let line = expected.strip_prefix("refused\t")?.strip_suffix('\n')?;
        let (number, place) = line.split_once('\t')?;
        Some((number.parse().ok()?, place.parse().ok()?))
    }
}

/// A text of a case.
#[derive(Debug, PartialEq)]
pub struct Text {
    /// The name by which another text of the case may include it.
    pub name: Option<String>,
    /// Its file, as the list has it.
    pub file: String,
}

impl Text {
    fn new(word: &str) -> Text {
        let (name, file) = match word.split_once('=') {
            Some((name, file)) => (Some(name.into()), file),
            None => (None, word),
        };
        Text {
            name,
            file: file.into(),
        }
    }

    pub fn path(&self) -> PathBuf {
        folder().join(&self.file)
    }

    pub fn bytes(&self) -> Vec<u8> {
        read(self.path())
    }
}

/// A case, as its list has it.
#[derive(Debug, PartialEq)]
pub struct Case {
    /// Its list and its name there; of a text of document 01 the name alone.
    pub name: String,
    /// The question, with what it is asked for.
    pub ask: String,
    pub texts: Vec<Text>,
    /// The first answer, then one for each request that changes it.
    pub answers: Vec<Answer>,
}

/// An answer of a case.
#[derive(Debug, PartialEq)]
pub struct Answer {
    /// The request from whose landing on it holds; of the first answer the case's own list.
    pub since: String,
    /// A line, or the file that holds it.
    pub form: String,
}

impl Answer {
    fn bytes(&self) -> Vec<u8> {
        match answer_file(&self.form) {
            Some(file) => read(folder().join(file)),
            None => format!("{}\n", self.form).into_bytes(),
        }
    }
}

impl Case {
    /// The text of a case that has one.
    pub fn text(&self) -> Vec<u8> {
        match &self.texts[..] {
            [text] => text.bytes(),
            texts => panic!("{}: {} texts", self.name, texts.len()),
        }
    }

    /// The first and the second text of a case that has two.
    pub fn pair(&self) -> [&Text; 2] {
        match &self.texts[..] {
            [first, second] => [first, second],
            texts => panic!("{}: {} texts", self.name, texts.len()),
        }
    }

    /// What comes out, byte for byte: the last answer.
    pub fn answer(&self) -> Vec<u8> {
        self.answers.last().expect("an answer").bytes()
    }

    /// What comes out of the calls that take one text, without includes; nothing for a case
    /// about includes.
    pub fn plain_answer(&self) -> Option<Vec<u8>> {
        let mut answers = self.answers.iter().rev();
        let answer = answers.find(|answer| *answer.since < *INCLUDES)?;
        Some(answer.bytes())
    }

    fn sample(self) -> Option<Sample> {
        Some(Sample {
            expected: self.plain_answer()?,
            by_program: self.answer(),
            text: self.text(),
            name: self.name,
        })
    }
}

/// The file that a list names for an answer; none where the answer is a line of the list.
pub fn answer_file(answer: &str) -> Option<&str> {
    answer.starts_with("answers/").then_some(answer)
}

pub fn folder() -> PathBuf {
    Path::new(env!("CARGO_MANIFEST_DIR")).join("corpus")
}

fn read(path: PathBuf) -> Vec<u8> {
    fs::read(&path).unwrap_or_else(|fault| panic!("{}: {fault}", path.display()))
}

/// The names in a folder, in their order; there is at least one.
pub fn names(folder: &Path) -> Vec<String> {
    let entries = fs::read_dir(folder)
        .unwrap_or_else(|fault| panic!("the corpus is not there: {}: {fault}", folder.display()));
    let mut names: Vec<String> = entries
        .map(|entry| entry.expect("an entry of the corpus").file_name())
        .map(|name| name.into_string().expect("a name in ASCII"))
        .collect();
    assert!(!names.is_empty(), "nothing in {}", folder.display());
    names.sort();
    names
}

/// The names of the lists, in their order.
pub fn lists() -> Vec<String> {
    let files = names(&folder().join("cases"));
    let name = |file: &String| file.strip_suffix(".txt").expect("a list").to_string();
    files.iter().map(name).collect()
}

/// The cases of a list, in its order.
pub fn list(name: &str) -> Vec<Case> {
    let file = folder().join("cases").join(format!("{name}.txt"));
    let lines = String::from_utf8(read(file)).expect("a list in ASCII");
    listed(name, &lines)
}

fn listed(list: &str, lines: &str) -> Vec<Case> {
    let mut cases: Vec<Case> = Vec::new();
    let mut after = String::new();
    for line in lines.lines() {
        let fields: Vec<&str> = line.splitn(3, '\t').collect();
        let [case, ask, rest] = fields[..] else {
            panic!("{list}: a line of too few fields: {line}");
        };
        let name = match list {
            DOCUMENT_01 => case.to_string(),
            request => format!("{request}/{case}"),
        };
        if ask.starts_with("after-q") {
            let case = cases.last_mut().filter(|case| case.name == name);
            let case = case.unwrap_or_else(|| panic!("{name}: {ask} is not below its case"));
            assert!(*after < *ask, "{name}: {ask} below {after}");
            case.answers.push(Answer {
                since: ask["after-".len()..].into(),
                form: rest.into(),
            });
            after = ask.into();
            continue;
        }
        let (texts, answer) = rest
            .split_once('\t')
            .unwrap_or_else(|| panic!("{name}: no answer"));
        let is_behind = cases.last().is_none_or(|last| last.name < name);
        assert!(is_behind, "{name}: out of order");
        cases.push(Case {
            name,
            ask: ask.into(),
            texts: texts.split(' ').map(Text::new).collect(),
            answers: vec![Answer {
                since: list.into(),
                form: answer.into(),
            }],
        });
        after.clear();
    }
    cases
}

/// The cases of the requests, in their order, whose question begins with a word.
pub fn asking(word: &str) -> Vec<Case> {
    let lists = lists().into_iter().filter(|list| list != DOCUMENT_01);
    lists
        .flat_map(|name| list(&name))
        .filter(|case| case.ask.split(' ').next() == Some(word))
        .collect()
}

/// The texts of document 01 in the order of their names.
pub fn samples() -> Vec<Sample> {
    let cases = list(DOCUMENT_01).into_iter();
    cases.filter_map(Case::sample).collect()
}

/// The cases of the requests that ask for the normal text of one text, in their order.
pub fn cases() -> Vec<Sample> {
    let cases = asking("normal").into_iter();
    cases.filter_map(Case::sample).collect()
}

/// The texts of document 01 and the cases of the requests that ask for normal text of one text.
pub fn all() -> Vec<Sample> {
    let mut all = samples();
    all.extend(cases());
    all
}

#[cfg(test)]
mod tests {
    use super::*;

    fn text(name: Option<&str>, file: &str) -> Text {
        Text {
            name: name.map(String::from),
            file: file.into(),
        }
    }

    #[test]
    fn forms_of_lines() {
        let lines = "\
001\tnormal\ttexts/a.oil\trefused\t4\t0
001\tafter-q04\trefused\t6\t1
001\tafter-q10\trefused\t4\t0\t0
002\tcompare\ttexts/a.oil texts/b.oil\ttotal\t0
003\tnormal\ttexts/a.oil b=texts/b.oil c.oil=texts/a.oil\tanswers/b.out
004\tvalue OS o s room 3\ttexts/a.oil\tvalue\t
";
        let answer = |(since, form): &(&str, &str)| Answer {
            since: since.to_string(),
            form: form.to_string(),
        };
        let case = |name: &str, ask: &str, texts, answers: &[(&str, &str)]| Case {
            name: format!("q02/{name}"),
            ask: ask.into(),
            texts,
            answers: answers.iter().map(answer).collect(),
        };
        let a = || text(None, "texts/a.oil");
        let b = || text(None, "texts/b.oil");
        let answers = [
            ("q02", "refused\t4\t0"),
            ("q04", "refused\t6\t1"),
            ("q10", "refused\t4\t0\t0"),
        ];
        let included = vec![
            a(),
            text(Some("b"), "texts/b.oil"),
            text(Some("c.oil"), "texts/a.oil"),
        ];
        let cases = listed("q02", lines);
        assert_eq!(
            cases,
            [
                case("001", "normal", vec![a()], &answers),
                case("002", "compare", vec![a(), b()], &[("q02", "total\t0")]),
                case("003", "normal", included, &[("q02", "answers/b.out")]),
                case(
                    "004",
                    "value OS o s room 3",
                    vec![a()],
                    &[("q02", "value\t")]
                ),
            ]
        );
        assert_eq!(cases[1].pair(), [&a(), &b()]);
        assert_eq!(cases[0].answer(), b"refused\t4\t0\t0\n");
        assert_eq!(cases[0].plain_answer().unwrap(), b"refused\t6\t1\n");
        assert_eq!(cases[3].answer(), b"value\t\n");
        let includes = listed("q10", "001\tnormal\ttexts/a.oil\trefused\t4\t0\t0\n");
        assert_eq!(includes[0].plain_answer(), None);
    }

    #[test]
    #[should_panic(expected = "q02/002: after-q04 is not below its case")]
    fn a_later_answer_without_its_case() {
        listed(
            "q02",
            "001\tnormal\ttexts/a.oil\ttotal\n002\tafter-q04\ttotal\n",
        );
    }

    #[test]
    #[should_panic(expected = "q02/001: out of order")]
    fn a_case_twice() {
        let line = "001\tnormal\ttexts/a.oil\trefused\t4\t0\n";
        listed("q02", &line.repeat(2));
    }
}
