//! The calls of Q-13 on heavy texts, by the proved library and by the reference: `bench_values`
//! prints the instructions of each, as callgrind counts them; `bench_values WHAT NAME` runs one;
//! `bench_values stack` tells the smallest stack of a thread on which both calls pass.

use std::process::exit;
use tests::exporting;
use tests::heavy::{heavy, Heavy};
use tests::measuring::{not_known, smallest_stack, table, Job};
use tests::values::{read, Question};

const HEAD: &str = "| Text | value | normal text | value, reference | normal text, reference |";

const JOBS: [Job; 4] = [
    ("value-proved", "kaukslini_value"),
    ("normal-proved", "kaukslini_normal_text"),
    ("value-reference", "tests::exporting::value_of*"),
    ("normal-reference", "tests::exporting::normal_text*"),
];

/// A list of 2,040 entries beside one object, whose last entry is asked for.
fn long_list() -> Vec<u8> {
    let mut text = String::from("OIL_VERSION = \"2.5\";\nIMPLEMENTATION m { OS { UINT32 x[]; }; };\nCPU c { APPMODE a; OS o {\n");
    for entry in 0..2_040 {
        text += &format!("x = {entry};\n");
    }
    text += "}; };\n";
    text.into_bytes()
}

/// The texts of document 01's table whose readings take most, and a long list.
fn texts() -> Vec<Heavy> {
    let names = [
        "51 KB, 250 objects",
        "511 lists stated in turn, beside a long list",
        "511 attributes with defaults in four objects, beside a long list",
    ];
    let mut texts = heavy();
    texts.retain(|heavy| names.contains(&heavy.name));
    assert_eq!(texts.len(), names.len(), "a heavy text of each name");
    texts.push(Heavy {
        name: "a list of 2,040 entries",
        text: long_list(),
        number: 0,
    });
    texts
}

/// The last value of a text, by its whole path; of a refused text any.
fn question(text: &[u8]) -> Question {
    let reading = read(text).ok().filter(|reading| !reading.values.is_empty());
    match reading {
        Some(reading) => tests::values::asking(text, &reading, reading.values.len() - 1),
        None => Question {
            kind: b"OS".to_vec(),
            name: b"o".to_vec(),
            path: b"x".to_vec(),
        },
    }
}

fn main() {
    let arguments: Vec<String> = std::env::args().collect();
    let words: Vec<&str> = arguments.iter().skip(1).map(String::as_str).collect();
    match words[..] {
        [] => table(HEAD, texts().iter().map(|heavy| heavy.name), &JOBS),
        ["stack"] => smallest_stack(),
        ["stack", size] => on_stack(size.parse().expect("a number of bytes")),
        [what, name] => run(what, name),
        _ => {
            eprintln!("bench_values [WHAT NAME | stack]");
            exit(2);
        }
    }
}

fn run(what: &str, name: &str) {
    let found = texts().into_iter().find(|heavy| heavy.name == name);
    let text = found.expect("a heavy text of that name").text;
    let question = question(&text);
    let output = vec![0x5a; 1 << 18];
    match what {
        "value-reference" => println!("{:?}", exporting::value_of(&text, &question, &output).0),
        "normal-reference" => println!("{:?}", exporting::normal_text(&text, &output).0),
        #[cfg(proved_exporting)]
        "value-proved" => {
            let mut output = output;
            let answer = tests::proved::exporting::value(&text, &question, &mut output);
            println!("{answer:?}");
        }
        #[cfg(proved_exporting)]
        "normal-proved" => {
            let mut output = output;
            let answer = tests::proved::exporting::normal_text(&text, &mut output);
            println!("{answer:?}");
        }
        _ => not_known(what),
    }
}

/// Both calls for every text, on a thread with so much stack.
fn on_stack(size: usize) {
    let work = move || {
        let mut output = vec![0x5a; 1 << 18];
        for heavy in texts() {
            call(&heavy.text, &question_kept(&heavy.text), &mut output);
        }
    };
    let thread = std::thread::Builder::new().stack_size(size).spawn(work);
    thread.expect("a thread").join().expect("the thread ends");
}

#[cfg(proved_exporting)]
fn call(text: &[u8], question: &Question, output: &mut [u8]) {
    tests::proved::exporting::value(text, question, output);
    tests::proved::exporting::normal_text(text, output);
}

#[cfg(not(proved_exporting))]
fn call(_: &[u8], _: &Question, _: &mut [u8]) {
    not_known("value-proved")
}

/// The question, asked on a thread of its own: the reference takes stack too.
fn question_kept(text: &[u8]) -> Question {
    let text = text.to_vec();
    let thread = std::thread::Builder::new().stack_size(64 << 20);
    let thread = thread.spawn(move || question(&text)).expect("a thread");
    thread.join().expect("the thread ends")
}
