//! Writes the texts of the long run (docs/ROBUSTNESS.md) to standard output:
//! `robust_texts SEED COUNT [PART..]`, PART one of fixed, truncations, changes, generated; all of
//! them where none is named. COUNT is of the generated ones. Before the bytes of each text goes
//! a line with its family, its name, the number and the place of its answer where they are known,
//! else `-` and `-`, and its length, separated by tabs.

use std::io::{self, BufWriter, Write};
use std::process::exit;
use tests::families::{Case, Known};
use tests::robust;

const PARTS: [&str; 4] = ["fixed", "truncations", "changes", "generated"];

fn main() {
    let arguments: Vec<String> = std::env::args().skip(1).collect();
    let (seed, count, parts) = match &arguments[..] {
        [seed, count, parts @ ..] => (seed.parse(), count.parse(), parts),
        _ => usage(),
    };
    let (Ok(seed), Ok(count)) = (seed, count) else {
        usage();
    };
    if parts.iter().any(|part| !PARTS.contains(&part.as_str())) {
        usage();
    }
    let mut output = BufWriter::with_capacity(1 << 16, io::stdout().lock());
    let mut each =
        |family: &str, case: Case| write(&mut output, family, &case).unwrap_or_else(ended);
    for part in PARTS {
        if !parts.is_empty() && !parts.iter().any(|named| named == part) {
            continue;
        }
        match part {
            "fixed" => robust::fixed(&mut each),
            "truncations" => robust::truncations(&mut each),
            "changes" => robust::changes(&mut each),
            _ => robust::generated(seed, count, &mut each),
        }
    }
    output.flush().unwrap_or_else(ended);
}

fn usage() -> ! {
    eprintln!("robust_texts SEED COUNT [PART..], PART one of {PARTS:?}");
    exit(2);
}

fn ended(fault: io::Error) {
    eprintln!("robust_texts: {fault}");
    exit(2);
}

fn write(output: &mut impl Write, family: &str, case: &Case) -> io::Result<()> {
    let known = match &case.known {
        Known::Nothing => "-\t-".to_string(),
        Known::Accepted => "0\t0".to_string(),
        Known::Refused(refusal) => format!("{}\t{}", refusal.number, refusal.place),
    };
    let length = case.text.len();
    writeln!(output, "{family}\t{}\t{known}\t{length}", case.name)?;
    output.write_all(&case.text)
}
