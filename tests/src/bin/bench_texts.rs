//! The calls of Q-10 on heavy sets of lent texts: `bench_texts` prints the instructions of each, as
//! callgrind counts them; `bench_texts one` those of one text, read by itself and lent alone;
//! `bench_texts WHAT NAME` runs one; `bench_texts stack` tells the smallest stack of a thread on
//! which `read` and `write` over lent texts pass.

use std::process::exit;
use tests::configuration::configuration;
use tests::including::{Buffer, Lent};
use tests::lent_texts::heavy;
use tests::measuring::{counted, grouped, not_known, smallest_stack, table, Job};

/// What is run, and the functions whose instructions are counted.
const JOBS: [Job; 2] = [
    ("expand", "kaukslini_expand"),
    ("read", "kaukslini_read_texts"),
];

const ONE_HEAD: &str = "| Text | read, one text | read, lent texts | expand | write, lent texts |";

const ONE: [Job; 4] = [
    ("one-text", "kaukslini_read"),
    ("read", "kaukslini_read_texts"),
    ("expand", "kaukslini_expand"),
    ("write", "kaukslini_write_texts"),
];

/// The text of 51 KB that all requests are measured by.
const CONFIGURATION: &str = "51 KB, 250 objects";

/// The same in eight texts.
const DIVIDED: &str = "51 KB, 250 objects, in 8 texts";

fn sets() -> Vec<(&'static str, Vec<Lent>)> {
    let text = configuration(51_000).into_bytes();
    let mut sets = heavy();
    sets.push((DIVIDED, divided(&text)));
    sets.push((CONFIGURATION, vec![Lent::new("", text)]));
    sets
}

/// The lines of a text in eight texts of about the same length.
fn divided(text: &[u8]) -> Vec<Lent> {
    let mut texts = vec![Lent::default()];
    let most = text.len() / 8;
    for line in text.split_inclusive(|byte| *byte == b'\n') {
        if texts[texts.len() - 1].text.len() > most && texts.len() < 8 {
            let name = format!("part{}", texts.len());
            let include = format!("#include \"{name}\"\n");
            texts[0].text.extend(include.bytes());
            texts.push(Lent::new(name, ""));
        }
        let last = texts.len() - 1;
        texts[last].text.extend(line);
    }
    texts
}

fn main() {
    let arguments: Vec<String> = std::env::args().collect();
    let words: Vec<&str> = arguments.iter().skip(1).map(String::as_str).collect();
    match words[..] {
        [] => sets_table(),
        ["one"] => table(ONE_HEAD, [CONFIGURATION, DIVIDED], &ONE),
        ["stack"] => smallest_stack(),
        ["stack", size] => on_stack(size.parse().expect("a number of bytes")),
        [what, name] => run(what, name),
        _ => {
            eprintln!("bench_texts [one | WHAT NAME | stack]");
            exit(2);
        }
    }
}

fn sets_table() {
    println!("| Lent texts | Lent bytes | expand | read |\n|---|---|---|---|");
    for (name, texts) in sets() {
        let bytes = grouped(Some(Buffer::of(&texts).bytes.len() as u64));
        println!("| {name} | {bytes} | {} |", counted(name, &JOBS));
    }
}

fn run(what: &str, name: &str) {
    let sets = sets();
    let set = sets.iter().find(|(other, _)| *other == name);
    let texts = &set.expect("a heavy set").1;
    println!("{}", proved(what, &Buffer::of(texts), &texts[0].text));
}

#[cfg(not(proved_including))]
fn proved(what: &str, _: &Buffer, _: &[u8]) -> usize {
    not_known(what)
}

/// The number that a proved call answers.
#[cfg(proved_including)]
fn proved(what: &str, buffer: &Buffer, main: &[u8]) -> usize {
    use tests::proved;
    let mut expanded = vec![0; 65_535];
    let mut origins = vec![0; 65_535];
    let mut tables = tests::tables::ROOMS.map(|cells| vec![0; cells]);
    let tables = tables.each_mut().map(|table| &mut table[..]);
    let mut told = [0; tests::tables::TOLD];
    match what {
        "expand" => proved::including::expand(buffer, &mut expanded, &mut origins, &mut told),
        "read" => {
            let number =
                proved::including::read(buffer, &mut expanded, &mut origins, tables, &mut told);
            usize::from(number)
        }
        "write" => {
            let mut output = vec![0; 65_535];
            let told =
                proved::including::write(buffer, &mut expanded, &mut origins, tables, &mut output);
            told.number
        }
        "one-text" => usize::from(proved::reading::read(main, tables, &mut told)),
        _ => not_known(what),
    }
}

fn on_stack(size: usize) {
    for (name, texts) in sets() {
        for what in ["expand", "read", "write"] {
            let (buffer, main) = (Buffer::of(&texts), texts[0].text.clone());
            let thread = std::thread::Builder::new().stack_size(size);
            let call = thread.spawn(move || proved(what, &buffer, &main));
            let number = call.expect("a thread").join().expect("an answer");
            std::hint::black_box((name, number));
        }
    }
}
