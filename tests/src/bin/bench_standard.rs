//! The call of Q-9 on heavy texts, by the proved library and by the reference: `bench_standard`
//! prints instructions of each, as callgrind counts them; `bench_standard WHAT NAME` runs one.

use tests::measuring::{self, not_known, table, text_of, Job};
use tests::standard::{check, heavy};

const HEAD: &str = "| Text | check | reference |";

const JOBS: [Job; 2] = [
    ("proved", "kaukslini_check_standard"),
    ("reference", "tests::standard::check*"),
];

fn main() {
    measuring::main(
        || table(HEAD, heavy().iter().map(|heavy| heavy.name), &JOBS),
        run,
    );
}

fn run(what: &str, name: &str) {
    let heavy = heavy().into_iter().map(|heavy| (heavy.name, heavy.text));
    let text = text_of(name, heavy);
    match what {
        "reference" => println!("{:?}", check(&text)),
        #[cfg(proved_standard)]
        "proved" => println!("{:?}", tests::proved::standard::check_standard(&text)),
        _ => not_known(what),
    }
}
