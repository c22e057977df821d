//! The examples of docs/REFUSALS.md against the reference and, where they are linked, the proved
//! calls `read` and `write` over lent texts. What docs/STATEMENTS.md and docs/READING.md name is
//! there.

use std::collections::{HashMap, HashSet};
use std::fs;
use std::path::{Path, PathBuf};
use tests::comparing_texts::{Answers, Memory, EXACT};
use tests::expecting;
use tests::including::{join, normal_within, Buffer, Lent, Place, Refused, START};
use tests::proved;
use tests::tables::ROOMS;

/// An example of the document: a text with those that it may include, what is lent, and the answer
/// that stands below it.
struct Example {
    /// The number of the line on which it begins.
    line: usize,
    texts: Vec<Lent>,
    lent: [usize; 4],
    output: usize,
    answer: Option<Refused>,
    /// What stands at the place, where the document says so.
    at: Option<At>,
    /// What the grammar admits at the place of a refusal 4.
    expected: Option<String>,
}

enum At {
    Word(String),
    End,
}

/// The path of a file of the repository.
fn path(file: &str) -> PathBuf {
    Path::new(env!("CARGO_MANIFEST_DIR")).join("..").join(file)
}

fn document(file: &str) -> String {
    fs::read_to_string(path(file)).unwrap_or_else(|fault| panic!("{file}: {fault}"))
}

/// The examples, each from its line "```oil" through the line with its answer, and after a refusal 4
/// the line with what is expected; a text marked as a file has none, and goes to the next example.
fn examples(document: &str) -> Vec<Example> {
    let mut examples = Vec::new();
    let mut files = Vec::new();
    let mut lines = document.lines().enumerate();
    while let Some((index, line)) = lines.next() {
        let Some(marks) = line.strip_prefix("```oil") else {
            continue;
        };
        let mut text = Vec::new();
        loop {
            match lines.next().expect("a fence that ends the text").1 {
                "```" => break,
                line => text.push(line),
            }
        }
        let mut example = example(index + 1, marks, &text);
        if !example.texts[0].name.is_empty() {
            files.extend(example.texts);
            continue;
        }
        example.texts.append(&mut files);
        let mut below = lines.by_ref().map(|(_, line)| line);
        let answer = below.find(|line| !line.is_empty()).expect("an answer");
        (example.answer, example.at) = answered(answer, example.line);
        let mut further = lines.clone().map(|(_, line)| line);
        let next = further.find(|line| !line.is_empty()).unwrap_or("");
        example.expected = next.starts_with("expected ").then(|| next.to_string());
        examples.push(example);
    }
    assert!(files.is_empty(), "a file without its example");
    examples
}

/// An example without its answer.
fn example(line: usize, marks: &str, text: &[&str]) -> Example {
    let mut lent = ROOMS;
    let mut output = 65_535;
    let mut is_repeated = false;
    let mut name = "";
    let mut marks = marks.split_whitespace();
    while let Some(mark) = marks.next() {
        let mut cells = || number(marks.next().expect("how many cells or bytes"), line);
        match mark {
            "repeated" => is_repeated = true,
            "lent" => lent = [cells(), cells(), cells(), cells()],
            "output" => output = cells(),
            "file" => name = marks.next().expect("a name"),
            _ => panic!("line {line}: the mark {mark}"),
        }
    }
    let lines: Vec<String> = match is_repeated {
        true => text.iter().flat_map(|line| repeated(line)).collect(),
        false => text.iter().map(|line| line.to_string()).collect(),
    };
    Example {
        line,
        texts: vec![Lent::new(name, lines.join("\n"))],
        lent,
        output,
        answer: None,
        at: None,
        expected: None,
    }
}

fn number(digits: &str, line: usize) -> usize {
    let number = digits.parse();
    number.unwrap_or_else(|_| panic!("line {line}: {digits} is no number"))
}

/// `513 x TEXT` is 513 lines TEXT, in which `#` is the number of the line.
fn repeated(line: &str) -> Vec<String> {
    let times = line.split_once(" x ").and_then(|(times, text)| {
        let times: usize = times.parse().ok()?;
        Some((times, text))
    });
    match times {
        Some((times, text)) => (1..=times)
            .map(|copy| text.replace('#', &copy.to_string()))
            .collect(),
        None => vec![line.to_string()],
    }
}

/// `accepted`, or `refused N at B`, or `refused N at B of text T`, or the same and after a colon
/// what stands there.
fn answered(answer: &str, line: usize) -> (Option<Refused>, Option<At>) {
    if answer == "accepted" {
        return (None, None);
    }
    let (refused, at) = match answer.split_once(": ") {
        Some((refused, "the end of the text")) => (refused, Some(At::End)),
        Some((refused, at)) => (refused, Some(At::Word(at.trim_matches('`').to_string()))),
        None => (answer, None),
    };
    let refused = refused.strip_prefix("refused ").and_then(|refused| {
        let (number, place) = refused.split_once(" at ")?;
        let (byte, text) = place.split_once(" of text ").unwrap_or((place, "0"));
        Some(Refused {
            number: number.parse().ok()?,
            place: Place {
                text: text.parse().ok()?,
                byte: byte.parse().ok()?,
            },
        })
    });
    let refused = refused.unwrap_or_else(|| panic!("line {line}: the answer {answer}"));
    (Some(refused), at)
}

/// The reference's answer: refusal 1 by the lent tables, else that of normal text.
fn reference(example: &Example) -> Option<Refused> {
    let mut rooms = example.lent.iter().zip(ROOMS);
    if rooms.any(|(lent, room)| *lent < room) {
        return Some(Refused {
            number: 1,
            place: START,
        });
    }
    normal_within(&example.texts, example.output).err()
}

/// What the reference expects in the expanded text, where the answer is 4.
fn expected(example: &Example) -> Option<String> {
    example.answer.filter(|refused| refused.number == 4)?;
    expecting::told(&join(&example.texts).ok()?.text)
}

/// What the proved calls do otherwise than the reference, of what they answer and of the memory
/// that they are lent. Refusal 20 is of `write`: `read` asks for no output.
fn calls_agree(memory: &mut Memory, example: &Example) -> Result<(), String> {
    let buffer = Buffer::of(&example.texts);
    let answers = Answers::new(&buffer);
    let mut rooms = EXACT;
    rooms.tables = example.lent;
    memory.read(&buffer, &rooms, &answers)?;
    let normal = answers.normal();
    memory.write(&buffer, &rooms, example.output, &answers, normal.as_deref())
}

#[test]
fn refusals() {
    let examples = examples(&document("docs/REFUSALS.md"));
    let is_linked = proved::is_linked("including");
    let mut memory = Memory::default();
    for example in &examples {
        let (line, answer) = (example.line, example.answer);
        assert_eq!(reference(example), answer, "line {line}");
        if let (Some(refused), Some(at)) = (answer, &example.at) {
            let Place { text, byte } = refused.place;
            let behind = &example.texts[text].text[byte..];
            match at {
                At::Word(word) => assert!(behind.starts_with(word.as_bytes()), "line {line}"),
                At::End => assert!(behind.is_empty(), "line {line}"),
            }
        }
        assert_eq!(expected(example), example.expected, "line {line}");
        if is_linked {
            assert_eq!(calls_agree(&mut memory, example), Ok(()), "line {line}");
        }
    }
    // 2, 10 and 12 are no longer given, and 25 and 26 not by these calls.
    for number in (1..=30).filter(|number| ![2, 10, 12, 25, 26].contains(number)) {
        let mut answers = examples.iter().filter_map(|example| example.answer);
        assert!(
            answers.any(|refused| refused.number == number),
            "an example of {number}"
        );
    }
    println!("docs/REFUSALS.md: {} examples", examples.len());
}

/// The names before a colon: definitions, types, constructors, fields.
fn declared_by_definitions(source: &str) -> HashSet<String> {
    const MARKS: [&str; 5] = ["pub", "abbrev", "unfoldable", "data", "record"];
    let mut names = HashSet::new();
    for line in source.lines() {
        let code = line.split("--").next().unwrap_or_default();
        let Some((front, _)) = code.split_once(" : ") else {
            continue;
        };
        let words = front
            .split_whitespace()
            .filter(|word| !MARKS.contains(word));
        // Of a type with parameters only its own name.
        let count = match front.contains(['(', ')', '{', '}', '=', 'λ', '→']) {
            true => 1,
            false => usize::MAX,
        };
        names.extend(words.take(count).map(str::to_string));
    }
    names
}

/// The names of functions, types and constants; a method's also as `Type::method`.
fn declared_by_code(source: &str) -> HashSet<String> {
    let word = |text: &str| -> String {
        let is_in_word = |letter: &char| letter.is_alphanumeric() || *letter == '_';
        text.chars().take_while(is_in_word).collect()
    };
    let mut names = HashSet::new();
    let mut owner = None;
    for line in source.lines() {
        if let Some(behind) = line.strip_prefix("impl ") {
            owner = Some(word(behind));
        } else if line.starts_with('}') {
            owner = None;
        }
        let mut code = line.trim_start();
        for mark in ["pub ", "extern \"C\" "] {
            code = code.strip_prefix(mark).unwrap_or(code);
        }
        let marks = ["fn ", "struct ", "enum ", "const "];
        let Some(behind) = marks.iter().find_map(|mark| code.strip_prefix(mark)) else {
            continue;
        };
        let name = word(behind);
        names.extend(owner.as_ref().map(|owner| format!("{owner}::{name}")));
        names.insert(name);
    }
    names
}

/// What the documents name, and what of it is missing.
#[derive(Default)]
struct Named {
    names: usize,
    files: usize,
    edits: usize,
    blocks: usize,
    missing: Vec<String>,
    declared: HashMap<String, HashSet<String>>,
}

impl Named {
    /// A document's blocks whose fence names a file, and what stands in backquotes elsewhere.
    fn document(&mut self, name: &str) {
        let document = document(name);
        let mut lines = document.lines();
        while let Some(line) = lines.next() {
            if let Some(marks) = line.strip_prefix("```") {
                let block: Vec<&str> = lines.by_ref().take_while(|line| *line != "```").collect();
                if let Some((_, file)) = marks.split_once(' ') {
                    self.block(file, &block.join("\n"));
                }
                continue;
            }
            for quoted in line.split('`').skip(1).step_by(2) {
                if quoted.starts_with("crates/") && !quoted.contains('*') {
                    self.quoted(quoted);
                }
            }
        }
    }

    /// The block stands in the file as printed.
    fn block(&mut self, file: &str, block: &str) {
        self.blocks += 1;
        let source = fs::read_to_string(path(file)).unwrap_or_default();
        if !source.contains(block) {
            self.missing.push(format!("{file}: the block\n{block}"));
        }
    }

    /// `file` is there; of `file: name, name` each name is declared in the file.
    fn quoted(&mut self, quoted: &str) {
        let (file, names) = quoted.split_once(": ").unwrap_or((quoted, ""));
        self.files += 1;
        self.edits += usize::from(file.ends_with(".edit"));
        if !path(file).exists() {
            self.missing.push(file.to_string());
        }
        let declared = self.declared.entry(file.to_string()).or_insert_with(|| {
            let source = fs::read_to_string(path(file)).unwrap_or_default();
            match file.ends_with(".rt") {
                true => declared_by_code(&source),
                false => declared_by_definitions(&source),
            }
        });
        for name in names.split(", ").filter(|name| !name.is_empty()) {
            self.names += 1;
            if !declared.contains(name) {
                self.missing.push(format!("{file}: {name}"));
            }
        }
    }
}

#[test]
fn statements() {
    let mut named = Named::default();
    named.document("docs/STATEMENTS.md");
    named.document("docs/READING.md");
    assert!(named.missing.is_empty(), "{}", named.missing.join("\n"));
    assert!(named.names > 0 && named.edits > 0 && named.blocks > 0);
    println!(
        "docs: {} names, {} files, of them {} edits, {} blocks",
        named.names, named.files, named.edits, named.blocks
    );
}
