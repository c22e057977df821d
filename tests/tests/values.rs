//! The value of one attribute (document 02, Q-13): the calls of include/kaukslini.h against the
//! reference, number, place, length, every byte of the lent output and the memory beside it; the
//! program `oil_value`; the cases of the corpus.

use tests::exporting::{self, Answer, NOT_FOUND};
use tests::programs::{command, run};
use tests::random::Random;
use tests::values::{alone, questions, read, value, Question, Valued};
use tests::{answered, corpus, heading, including, masks, release_texts, texts};

#[cfg(proved_exporting)]
use tests::proved::exporting as proved;

#[cfg(not(proved_exporting))]
mod proved {
    use super::{Answer, Question};
    use tests::exporting::{Heading, Position};

    pub fn heading(_: &[u8]) -> Heading {
        panic!("the proved library is not linked")
    }

    pub fn explain(_: &[u8], _: usize, _: &mut [u8]) -> Position {
        panic!("the proved library is not linked")
    }

    pub fn normal_text(_: &[u8], _: &mut [u8]) -> Answer {
        panic!("the proved library is not linked")
    }

    pub fn value(_: &[u8], _: &Question, _: &mut [u8]) -> Answer {
        panic!("the proved library is not linked")
    }
}

fn is_linked() -> bool {
    tests::proved::is_linked("exporting")
}

/// Guards beside the lent output.
const PAST: usize = 64;

/// The answer of a call that is lent an output of noise between noise, and the output afterwards.
fn lent<A>(random: &mut Random, noise: &[u8], call: impl Fn(&mut [u8]) -> A) -> (A, Vec<u8>) {
    let guard: Vec<u8> = (0..PAST).map(|_| random.byte()).collect();
    let mut memory = [&guard[..], noise, &guard[..]].concat();
    let answer = call(&mut memory[PAST..PAST + noise.len()]);
    assert_eq!(memory[..PAST], guard, "in front of the output");
    assert_eq!(memory[PAST + noise.len()..], guard, "behind the output");
    (answer, memory[PAST..PAST + noise.len()].to_vec())
}

/// One question with outputs that are long enough, just so, one too short and empty.
fn compare(random: &mut Random, text: &[u8], question: &Question, seen: &mut [usize; 4]) {
    let length = match value(text, question, usize::MAX) {
        Valued::Copied(bytes) => bytes.len(),
        _ => 2,
    };
    for room in [length + 5, length, length.saturating_sub(1), 0] {
        let noise: Vec<u8> = (0..room).map(|_| random.byte()).collect();
        let expected = exporting::value_of(text, question, &noise);
        let found = lent(random, &noise, |output| {
            proved::value(text, question, output)
        });
        assert_eq!(found, expected, "{question:?}\n{}", text.escape_ascii());
        seen[match expected.0.number {
            0 => 0,
            NOT_FOUND => 1,
            20 => 2,
            _ => 3,
        }] += 1;
    }
}

/// An accepted text of any sort.
fn accepted(random: &mut Random, seed: u64) -> Vec<u8> {
    let text = match random.below(4) {
        0 => answered::accepted(seed).text,
        1 => {
            let mix = masks::any_mix(random);
            masks::text(random, &mix)
        }
        _ => release_texts::pair(seed)[0].clone(),
    };
    text
}

#[test]
fn generated_texts() {
    if !is_linked() {
        return;
    }
    let mut random = Random::new(13);
    let mut seen = [0; 4];
    for seed in 0..6_000 {
        let text = accepted(&mut random, seed);
        if let Ok(reading) = read(&text) {
            for question in questions(&mut random, &text, &reading, 6) {
                compare(&mut random, &text, &question, &mut seen);
            }
        }
    }
    println!("{seen:?}");
    assert!(seen[..3].iter().all(|&count| count > 5_000), "{seen:?}");
}

/// A line with a `#` is put before a line or in the middle of one.
fn with_hash(random: &mut Random, text: &[u8]) -> Vec<u8> {
    let lines = [
        "#include \"\"\n",
        "#include <a>\n",
        "\n #include \"a.oil\" // x\n",
        "#\n",
        "/*\n*/ #include \"a\"\n",
        "// #include \"\"\n",
    ];
    let place = random.below(text.len() + 1);
    let place = match random.once_in(2) {
        true => text[..place]
            .iter()
            .rposition(|&byte| byte == b'\n')
            .map_or(0, |at| at + 1),
        false => place,
    };
    [
        &text[..place],
        random.pick(&lines).as_bytes(),
        &text[place..],
    ]
    .concat()
}

#[test]
fn damaged_texts() {
    if !is_linked() {
        return;
    }
    let mut random = Random::new(130);
    let mut seen = [0; 4];
    for seed in 0..4_000 {
        let whole = accepted(&mut random, seed);
        let Ok(reading) = read(&whole) else {
            continue;
        };
        let asked = questions(&mut random, &whole, &reading, 2);
        let text = match random.below(4) {
            0 => with_hash(&mut random, &whole),
            _ => texts::damaged(&mut random, &whole),
        };
        for question in asked {
            compare(&mut random, &text, &question, &mut seen);
        }
    }
    println!("{seen:?}");
    assert!(seen[3] > 5_000, "{seen:?}");
}

#[test]
fn normal_texts() {
    if !is_linked() {
        return;
    }
    let mut random = Random::new(1_300);
    let mut texts: Vec<Vec<u8>> = corpus::all()
        .into_iter()
        .map(|sample| sample.text)
        .collect();
    for seed in 0..3_000 {
        let whole = accepted(&mut random, seed);
        texts.push(texts::damaged(&mut random, &whole));
        texts.push(whole);
    }
    for text in texts {
        let length = including::normal(&alone(&text)).map_or(3, |written| written.len());
        for room in [length + 9, length, length.saturating_sub(1), 0] {
            let noise: Vec<u8> = (0..room).map(|_| random.byte()).collect();
            let expected = exporting::normal_text(&text, &noise);
            let found = lent(&mut random, &noise, |output| {
                proved::normal_text(&text, output)
            });
            assert_eq!(found, expected, "{}", text.escape_ascii());
        }
    }
}

/// `kaukslini_heading`: whole texts, fronts with something after them, at fault or not, and include lines.
#[test]
fn headings() {
    if !is_linked() {
        return;
    }
    let mut random = Random::new(1_307);
    let mut texts: Vec<Vec<u8>> = corpus::all()
        .into_iter()
        .map(|sample| sample.text)
        .collect();
    texts.extend(heading::of_length(65_535));
    texts.extend(heading::of_length(65_536));
    for seed in 0..6_000 {
        let fronted = heading::with_front(seed);
        texts.push(with_hash(&mut random, &fronted));
        texts.push(fronted);
        let faulty = heading::with_faulty_front(seed);
        texts.push(with_hash(&mut random, &faulty));
        texts.push(faulty);
    }
    let mut numbers = [0; 31];
    for text in texts {
        let expected = exporting::heading(&text);
        assert_eq!(proved::heading(&text), expected, "{}", text.escape_ascii());
        numbers[expected.number] += 1;
    }
    println!("{numbers:?}");
    for number in [0, 3, 4, 27, 28, 29, 30] {
        assert!(numbers[number] > 1, "{number}: {numbers:?}");
    }
}

/// `kaukslini_explain`: any places of any bytes, with LF, CR, tabs and long lines, and any room.
#[test]
fn explanations() {
    if !is_linked() {
        return;
    }
    let mut random = Random::new(1_308);
    let mut longest = 0;
    for round in 0..20_000 {
        let (length, once) = ([0, 3, 30, 200, 400][round % 5], [3, 20, 90][round % 3]);
        let mut text = Vec::new();
        for _ in 0..random.below(length + 1) {
            text.push(match random.once_in(once) {
                true => random.pick_byte(b"\n\n\r\t"),
                false => random.byte(),
            });
            if text.last() == Some(&b'\r') && random.once_in(2) {
                text.push(b'\n');
            }
        }
        let place = match random.below(8) {
            0 => usize::MAX,
            1 => text.len(),
            _ => random.below(text.len() + 3),
        };
        let whole = exporting::explain(&text, place, &[]).0.length;
        longest = longest.max(whole);
        for room in [whole + 3, whole, whole - 1, random.below(whole), 0] {
            let noise: Vec<u8> = (0..room).map(|_| random.byte()).collect();
            let expected = exporting::explain(&text, place, &noise);
            let found = lent(&mut random, &noise, |output| {
                proved::explain(&text, place, output)
            });
            assert_eq!(found, expected, "{place}\n{}", text.escape_ascii());
        }
    }
    // KAUKSLINI_PICTURE; the mark is not at the far right where dots follow.
    assert!((150..=157).contains(&longest), "{longest}");
}

/// `value KIND NAME PATH room N`.
fn asked(ask: &str) -> (Question, usize) {
    let words = ask.strip_prefix("value ").expect("a question");
    let (words, room) = words.rsplit_once(" room ").expect("a room");
    let mut words = words.splitn(3, ' ');
    let mut word = || words.next().expect("a word").as_bytes().to_vec();
    let question = Question {
        kind: word(),
        name: word(),
        path: word(),
    };
    (question, room.parse().expect("a number"))
}

/// The line that a case of the corpus has for an answer.
fn line(answer: Answer, output: &[u8]) -> Vec<u8> {
    match answer.number {
        0 => [b"value\t", &output[..answer.length], b"\n"].concat(),
        NOT_FOUND => b"not found\n".to_vec(),
        number => format!("refused\t{number}\t0\t{}\n", answer.place).into_bytes(),
    }
}

#[test]
fn cases_of_the_corpus() {
    let cases = corpus::asking("value");
    assert_eq!(cases.len(), 92);
    for case in cases {
        let (text, answer) = (case.text(), case.answer());
        let (question, room) = asked(&case.ask);
        let noise = vec![0x5a; room];
        let (reference, output) = exporting::value_of(&text, &question, &noise);
        assert_eq!(line(reference, &output), answer, "{}", case.name);
        if is_linked() {
            let (found, output) = lent(&mut Random::new(3), &noise, |output| {
                proved::value(&text, &question, output)
            });
            assert_eq!(line(found, &output), answer, "{}", case.name);
        }
    }
}

/// What `oil_value` writes for a text on standard input.
fn written(words: &[&str], text: &[u8]) -> Vec<u8> {
    run(command("oil_value").args(words), text).written()
}

/// The program, for every case whose words it can be given, with room enough.
#[test]
fn the_program() {
    if !is_linked() {
        return;
    }
    let mut compared = 0;
    for case in corpus::asking("value") {
        let (question, room) = asked(&case.ask);
        if room < 65_535 {
            continue;
        }
        let words = [&question.kind, &question.name, &question.path]
            .map(|word| std::str::from_utf8(word).expect("a word"));
        let answer = case.answer();
        let expected = answer.strip_prefix(b"value\t").unwrap_or(&answer);
        assert_eq!(written(&words, &case.text()), expected, "{}", case.name);
        compared += 1;
    }
    assert!(compared > 60, "{compared}");
    assert!(written(&["TASK"], b"").starts_with(b"usage"));
}
