//! Texts with FLOAT attributes (document 02, Q-4): accepted ones, with faults planted, with other
//! floats and near misses in the place of their numbers, with every short run where a float
//! belongs, damaged and truncated.

use crate::answered::{accepted, float_seed};
use crate::families::{accepted_text, damaged_text, text_with_faults, times, truncated_text};
use crate::families::{tokens_of, unknown, word, Case, Each, PLANTED};
use crate::random::Random;
use crate::texts::{every_run, float, spaced};
use crate::token::Sort;

/// The bytes that short runs are made of.
pub const RUN_BYTES: &[u8] = b"1.e+x0";

pub fn texts(each: Each) {
    for number in 0..6_000 * times() {
        each(accepted_text(float_seed(number)));
    }
    faults(each);
    for seed in 0..10_000 * times() {
        each(other_words(seed));
    }
    for run in every_run(RUN_BYTES, 5) {
        each(with_run(&run));
    }
    damaged(each);
}

/// Each number that can be planted, alone and with each of those that a float can give.
fn faults(each: Each) {
    for first in PLANTED {
        for number in 0..500 * times() {
            text_with_faults(float_seed(number), &[first]).map(&mut *each);
        }
        for second in [3, 4, 9, 15, 21, 22, 23] {
            for number in 0..80 * times() {
                text_with_faults(float_seed(number), &[first, second]).map(&mut *each);
            }
        }
    }
}

/// An accepted text in which up to three numbers and floats gave way to another one of the text
/// or to something near a float.
pub fn other_words(seed: u64) -> Case {
    let random = &mut Random::new(seed);
    let text = accepted(float_seed(seed % 10_000)).text;
    let tokens = tokens_of(&text);
    let mut words: Vec<Vec<u8>> = tokens.iter().map(|token| word(&text, token)).collect();
    let is_amount = |sort| matches!(sort, Sort::Float(_) | Sort::Number { .. });
    let amounts: Vec<usize> = (0..tokens.len())
        .filter(|&index| is_amount(tokens[index].sort))
        .collect();
    for _ in 0..random.from_to(1, 3).min(amounts.len()) {
        let place = amounts[random.below(amounts.len())];
        words[place] = match random.below(3) {
            0 => float(random),
            _ => words[amounts[random.below(amounts.len())]].clone(),
        };
    }
    unknown(&format!("other words, seed {seed}"), spaced(random, &words))
}

/// A text with this run as a statement's value, as a default or as a bound.
fn with_run(run: &[u8]) -> Case {
    let [before, after]: [&[u8]; 2] = match run.len() % 3 {
        0 => [b"FLOAT[-0.1..1.1]f;};};CPU c{APPMODE a;OS o{f=", b";};};"],
        1 => [b"FLOAT[-0.1..1.1]f=", b";};};CPU c{OS o;APPMODE a;};"],
        _ => [b"FLOAT[", b"..10.0]f=1.1;};};CPU c{OS o;APPMODE a;};"],
    };
    let head: &[u8] = b"OIL_VERSION=\"2.5\";IMPLEMENTATION m{OS{";
    let name = format!("run {}", run.escape_ascii());
    unknown(&name, [head, before, run, after].concat())
}

/// Every truncation of some texts, and damage to others.
fn damaged(each: Each) {
    for number in 0..12 {
        let text = accepted(float_seed(number)).text;
        for end in 0..=text.len() {
            each(truncated_text(&format!("seed {number}"), &text, end));
        }
    }
    for seed in 0..10_000 * times() {
        let text = accepted(float_seed(seed % 2_000)).text;
        let random = &mut Random::new(seed);
        each(damaged_text(&format!("seed {seed}"), random, &text));
    }
}
