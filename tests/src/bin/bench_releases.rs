//! The call `compare` of Q-8 on heavy pairs of texts, by the proved library and by the reference:
//! `bench_releases` prints the instructions of each, as callgrind counts them, beside those of both
//! readings alone; `bench_releases WHAT NAME` runs one; `bench_releases stack` tells the smallest
//! stack of a thread on which the call passes.

use std::process::exit;
use tests::comparing_releases::{compare, Record};
use tests::measuring::{not_known, smallest_stack, table, Job};
use tests::release_texts::{heavy, Heavy};

const HEAD: &str = "| Texts | compare | of it both readings | reference | of it both readings |";

const JOBS: [Job; 4] = [
    ("compare-proved", "kaukslini_compare"),
    ("read-proved", "kaukslini_read"),
    ("compare-reference", "tests::comparing_releases::compare*"),
    ("read-reference", "tests::meaning::read*"),
];

/// The pairs of Q-8, and the two texts of document 01's table whose readings take most.
fn pairs() -> Vec<Heavy> {
    let mut pairs = heavy();
    for wanted in [
        "51 KB, 250 objects",
        "511 lists stated in turn, beside a long list",
        "511 attributes with defaults in four objects, beside a long list",
    ] {
        let all = tests::heavy::heavy();
        let one = all.into_iter().find(|heavy| heavy.name == wanted);
        let one = one.expect("a heavy text of that name");
        pairs.push(Heavy {
            name: one.name,
            texts: [one.text.clone(), one.text],
        });
    }
    pairs
}

fn main() {
    let arguments: Vec<String> = std::env::args().collect();
    let words: Vec<&str> = arguments.iter().skip(1).map(String::as_str).collect();
    match words[..] {
        [] => table(HEAD, pairs().iter().map(|pair| pair.name), &JOBS),
        ["stack"] => smallest_stack(),
        ["stack", size] => on_stack(size.parse().expect("a number of bytes")),
        [what, name] => run(what, name),
        _ => {
            eprintln!("bench_releases [WHAT NAME | stack]");
            exit(2);
        }
    }
}

const NOTHING: Record = Record {
    first_object: 0,
    second_object: 0,
    first_value: 0,
    second_value: 0,
};

fn run(what: &str, name: &str) {
    let pair = pairs().into_iter().find(|pair| pair.name == name);
    let [first, second] = pair.expect("a heavy pair").texts;
    let texts = [&first[..], &second[..]];
    match what {
        "compare-reference" => println!("{:?}", compare(texts).map(|found| found.len())),
        "read-reference" => {
            for text in texts {
                println!("{}", tests::meaning::read(text).is_ok());
            }
        }
        #[cfg(proved_releases)]
        "compare-proved" => {
            let mut list = [NOTHING; 64];
            println!("{:?}", tests::proved::releases::compare(texts, &mut list));
        }
        #[cfg(proved_reading)]
        "read-proved" => {
            for text in texts {
                let mut tables = tests::tables::ROOMS.map(|cells| vec![0; cells]);
                let [definitions, enumerators, objects, values] = &mut tables;
                let tables = [
                    &mut definitions[..],
                    &mut enumerators[..],
                    &mut objects[..],
                    &mut values[..],
                ];
                let mut told = [0; tests::tables::TOLD];
                println!("{}", tests::proved::reading::read(text, tables, &mut told));
            }
        }
        _ => not_known(what),
    }
    std::hint::black_box(NOTHING);
}

fn on_stack(size: usize) {
    let pairs = pairs();
    let called = std::thread::Builder::new().stack_size(size).spawn(move || {
        for pair in &pairs {
            call([&pair.texts[0], &pair.texts[1]]);
        }
    });
    called.expect("a thread").join().expect("its end");
}

#[cfg(proved_releases)]
fn call(texts: [&[u8]; 2]) {
    let mut list = [NOTHING; 64];
    std::hint::black_box(tests::proved::releases::compare(texts, &mut list));
}

#[cfg(not(proved_releases))]
fn call(_: [&[u8]; 2]) {
    not_known("compare-proved")
}
