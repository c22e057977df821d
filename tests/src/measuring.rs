//! What the measuring programs share: the instructions of a function as callgrind counts them, and
//! the smallest stack on which calls pass. A measuring program runs itself for both, with words that
//! say what to do.

use std::process::{exit, Command};

/// What is run, and the name of the function whose instructions are counted.
pub type Job = (&'static str, &'static str);

/// Prints a table with a row for each name: the instructions of each job.
pub fn table<'n>(head: &str, names: impl IntoIterator<Item = &'n str>, jobs: &[Job]) {
    println!("{head}\n|{}", "---|".repeat(head.matches('|').count() - 1));
    for name in names {
        println!("| {name} | {} |", counted(name, jobs));
    }
}

/// What a measuring program does: without words it prints the table, with two, WHAT and NAME, it
/// runs one job.
pub fn main(table: fn(), run: fn(&str, &str)) {
    let words: Vec<String> = std::env::args().collect();
    match &words[..] {
        [_] => table(),
        [_, what, name] => run(what, name),
        _ => {
            eprintln!("{} [WHAT NAME]", words[0]);
            exit(2);
        }
    }
}

/// The text of this name among the heavy ones, or else the file.
pub fn text_of(name: &str, heavy: impl IntoIterator<Item = (&'static str, Vec<u8>)>) -> Vec<u8> {
    match heavy.into_iter().find(|(other, _)| *other == name) {
        Some((_, text)) => text,
        None => std::fs::read(name).unwrap_or_else(|fault| {
            eprintln!("{name}: {fault}");
            exit(2);
        }),
    }
}

/// The instructions of each job, as the cells of a row.
pub fn counted(name: &str, jobs: &[Job]) -> String {
    let counts: Vec<String> = jobs
        .iter()
        .map(|(what, function)| grouped(instructions(what, function, name)))
        .collect();
    counts.join(" | ")
}

/// The instructions of a function, with all that it calls.
pub fn instructions(what: &str, function: &str, name: &str) -> Option<u64> {
    let program = std::env::current_exe().expect("this program");
    let output = Command::new("valgrind")
        .args(["--tool=callgrind", "--callgrind-out-file=/dev/null"])
        .arg(format!("--toggle-collect={function}"))
        .arg(program)
        .args([what, name])
        .output();
    let told = output.map_or_else(|_| Vec::new(), |output| output.stderr);
    let told = String::from_utf8_lossy(&told);
    let collected = told
        .lines()
        .find_map(|line| line.split("Collected : ").nth(1));
    collected?.trim().parse().ok()
}

/// A number with commas between thousands.
pub fn grouped(number: Option<u64>) -> String {
    let Some(number) = number else {
        return "not counted".into();
    };
    let digits = number.to_string();
    let mut grouped = String::new();
    for (index, digit) in digits.chars().enumerate() {
        if index > 0 && (digits.len() - index).is_multiple_of(3) {
            grouped.push(',');
        }
        grouped.push(digit);
    }
    grouped
}

/// Prints the smallest stack, in steps of 4 KB, on which this program passes with the words
/// `stack SIZE`.
pub fn smallest_stack() {
    let program = std::env::current_exe().expect("this program");
    let passes = |pages: usize| {
        let size = (pages * 4_096).to_string();
        let output = Command::new(&program).args(["stack", &size]).output();
        output.is_ok_and(|output| output.status.success())
    };
    let (mut short, mut enough) = (0, 16_384);
    assert!(passes(enough), "64 MB are not enough");
    while enough - short > 1 {
        let middle = (short + enough) / 2;
        match passes(middle) {
            true => enough = middle,
            false => short = middle,
        }
    }
    println!("{} KB", enough * 4);
}

/// Ends a program that was asked for something it does not have.
pub fn not_known(what: &str) -> ! {
    eprintln!("{what}: not known, or the proved library is not linked");
    exit(2);
}
