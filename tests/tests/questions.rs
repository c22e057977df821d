//! The questions of over lent texts: the proved calls against the reference.

use tests::comparing_texts::{lent, Answers, Asked, Memory};
use tests::families::times;
use tests::including::{Buffer, Lent};
use tests::lent_texts::{self, divided_text};
use tests::random::Random;
use tests::{heading, masks, proved, standard, texts};

/// The sets that all questions are asked about: those with a fault, damaged ones, told wrong.
fn any_set(seed: u64) -> Buffer {
    let set = match seed % 5 {
        0 => lent_texts::with_fault(seed),
        1 => lent_texts::damaged(seed),
        2 => lent_texts::lines(seed),
        3 => lent_texts::told(seed),
        _ => lent_texts::with_later_fault(seed),
    };
    set.buffer
}

/// A set of a text, or now and then one of those above.
fn set(seed: u64, random: &mut Random, text: &[u8]) -> Buffer {
    match seed % 4 {
        0 => any_set(seed),
        1 => {
            let mut lent = divided_text(random, text);
            let number = random.below(lent.len());
            lent[number].text = texts::damaged(random, &lent[number].text);
            Buffer::of(&lent)
        }
        2 => Buffer::of(&[Lent::new("", text)]),
        _ => Buffer::of(&divided_text(random, text)),
    }
}

/// Asks about sets made of texts, with every sort of memory.
fn compare(
    what: &str,
    count: u64,
    text: impl Fn(u64, &mut Random) -> Vec<u8>,
    ask: impl Fn(&mut Memory, &Asked, &mut Random) -> Result<(), String>,
) {
    if !proved::is_linked("questions") {
        return;
    }
    let mut memory = Memory::default();
    let (mut accepted, mut sets) = (0, 0);
    for seed in 0..count * times() {
        let random = &mut Random::new(seed);
        let text = text(seed, random);
        let buffer = set(seed, random, &text);
        let answers = Answers::new(&buffer);
        accepted += usize::from(answers.read.is_ok());
        sets += 1;
        let asked = Asked {
            buffer: &buffer,
            lent: lent(seed, 8),
            answers: &answers,
        };
        if let Err(difference) = ask(&mut memory, &asked, random) {
            let bytes = buffer.bytes[..buffer.bytes.len().min(3_000)].escape_ascii();
            panic!(
                "{what}, seed {seed}, {:?}: {difference}\n{:?}\n{bytes}",
                asked.lent, buffer.lengths
            );
        }
    }
    println!("{what}: agree on {sets} sets, {accepted} of accepted texts");
}

#[test]
fn headings() {
    let text = |seed: u64, _: &mut Random| match seed % 3 {
        0 => heading::with_faulty_front(seed),
        _ => heading::with_front(seed),
    };
    compare("headings", 6_000, text, |memory, asked, _| {
        memory.heading(asked)
    });
}

#[test]
fn event_masks() {
    let text = |_: u64, random: &mut Random| {
        let mix = masks::any_mix(random);
        masks::text(random, &mix)
    };
    compare("event masks", 4_000, text, |memory, asked, random| {
        let joined = match &asked.answers.read {
            Ok(_) => asked.answers.joined().text.clone(),
            Err(_) => Vec::new(),
        };
        for list in masks::lists(random, &joined) {
            memory.check_masks(asked, &list)?;
        }
        let length = random.below(12);
        let list: Vec<u64> = (0..length).map(|_| random.number()).collect();
        memory.plan_masks(asked, &list)
    });
}

#[test]
fn standards() {
    let text = |seed: u64, random: &mut Random| standard::text(random, seed as usize % 4);
    compare("the standard", 4_000, text, |memory, asked, _| {
        memory.check_standard(asked)
    });
}
