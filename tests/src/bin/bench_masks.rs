//! The calls of Q-6 on heavy texts, by the proved library and by the reference: `bench_masks`
//! prints instructions of each, as callgrind counts them; `bench_masks WHAT NAME` runs one.

use tests::masks::{self, heavy};
use tests::measuring::{self, not_known, table, text_of, Job};

const HEAD: &str = "| Text | check | reference | plan | reference |";

const JOBS: [Job; 4] = [
    ("check-proved", "kaukslini_check_masks"),
    ("check-reference", "tests::masks::check*"),
    ("plan-proved", "kaukslini_plan_masks"),
    ("plan-reference", "tests::masks::plan*"),
];

fn main() {
    measuring::main(
        || table(HEAD, heavy().iter().map(|heavy| heavy.name), &JOBS),
        run,
    );
}

fn run(what: &str, name: &str) {
    let heavy = heavy().into_iter().map(|heavy| (heavy.name, heavy.text));
    let text = text_of(name, heavy);
    match what {
        "check-reference" => println!("{:?}", masks::check(&text, &list(&text))),
        "plan-reference" => println!("{:?}", masks::plan(&text, &[0; 256]).0),
        #[cfg(proved_masks)]
        "check-proved" => println!(
            "{:?}",
            tests::proved::masks::check_masks(&text, &list(&text))
        ),
        #[cfg(proved_masks)]
        "plan-proved" => println!(
            "{:?}",
            tests::proved::masks::plan_masks(&text, &mut [0; 256])
        ),
        _ => not_known(what),
    }
}

/// The plan of a text, or as many masks as it has events.
#[inline(never)]
fn list(text: &[u8]) -> Vec<u64> {
    let reading = tests::meaning::read(text).expect("an accepted text");
    let events = masks::events(text, &reading).expect("a plannable text");
    events.plan().unwrap_or(vec![1; events.masks.len()])
}
