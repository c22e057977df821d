//! The proved call `mend` against the reference (document 02, Q-11), the cases of the corpus, and
//! the program.

use tests::comparing_texts::{lent, Answers, Asked, Memory, LENT};
use tests::corpus::asking;
use tests::families::times;
use tests::including::{alone, Buffer, Lent, LONGEST};
use tests::lent_texts::{self, divided_text};
use tests::mending::{self, mend, report};
use tests::programs::{command, run, Folder};
use tests::random::Random;
use tests::{heavy, meaning, parts, proved, texts};

/// The cases of Q-11 in the corpus, whose answers two implementations gave.
#[test]
fn corpus_cases() {
    let cases = asking("mend");
    assert_eq!(cases.len(), 102);
    let mut memory = Memory::default();
    for case in cases {
        let answer = case.answer();
        let texts = alone(&case.text());
        let found = report(&texts);
        assert_eq!(
            String::from_utf8_lossy(&found),
            String::from_utf8_lossy(&answer),
            "{}",
            case.name
        );
        if proved::is_linked("mending") {
            let buffer = Buffer::of(&texts);
            let answers = Answers::new(&buffer);
            let asked = Asked {
                buffer: &buffer,
                lent: LENT[0],
                answers: &answers,
            };
            let same = memory.mend(&asked, [LONGEST, LONGEST]);
            assert_eq!(same, Ok(()), "{}", case.name);
        }
    }
}

/// What the paper promises of a mended text, of the reference itself: it is accepted, and mended
/// again it stays as it is.
#[test]
fn mended_texts() {
    let mut random = Random::new(11);
    let (mut whole, mut dropped, mut refused) = (0, 0, 0);
    for _ in 0..4_000 {
        let text = mending::text(&mut random);
        match mend(&alone(&text)) {
            Ok(mended) => {
                meaning::read(&mended.text).expect("accepted");
                let again = mend(&[Lent::new("", &mended.text[..])]).expect("mended again");
                assert_eq!((&again.text, again.count), (&mended.text, 0));
                match mended.count {
                    0 => whole += 1,
                    _ => dropped += 1,
                }
            }
            Err(_) => refused += 1,
        }
    }
    println!("{whole} {dropped} {refused}");
    assert!(whole > 400 && dropped > 1_000 && refused > 200);
}

/// Compares the call on what is lent, with outputs that are long enough, just so, one byte too
/// short, and empty.
fn compare(memory: &mut Memory, seed: u64, buffer: &Buffer, random: &mut Random) -> &'static str {
    let answers = Answers::new(buffer);
    let asked = Asked {
        buffer,
        lent: lent(seed, 16),
        answers: &answers,
    };
    let mended = answers.texts.as_deref().and_then(|texts| mend(texts).ok());
    let lengths = match &mended {
        Some(mended) => [mended.text.len(), mended.lines.len()],
        None => [random.below(LONGEST), random.below(3_000)],
    };
    let shorter = |length: usize| length.saturating_sub(1);
    let outputs = match random.below(6) {
        0 => lengths,
        1 => [shorter(lengths[0]), lengths[1]],
        2 => [lengths[0], shorter(lengths[1])],
        3 => [0, 0],
        _ => [LONGEST, LONGEST],
    };
    if let Err(difference) = memory.mend(&asked, outputs) {
        let bytes = buffer.bytes[..buffer.bytes.len().min(3_000)].escape_ascii();
        let lent = asked.lent;
        panic!("seed {seed}, {lent:?}, {outputs:?}: {difference}\n{bytes}");
    }
    match mended {
        Some(mended) if mended.count > 0 => "mended",
        Some(_) => "whole",
        None => "refused",
    }
}

#[test]
fn generated_texts() {
    if !proved::is_linked("mending") {
        return;
    }
    let mut memory = Memory::default();
    let mut seen = std::collections::BTreeMap::new();
    for seed in 0..20_000 * times() {
        let random = &mut Random::new(seed);
        let text = mending::text(random);
        let buffer = match seed % 5 {
            0 => {
                let mut lent = divided_text(random, &text);
                if random.once_in(4) {
                    let number = random.below(lent.len());
                    lent[number].text = texts::damaged(random, &lent[number].text);
                }
                Buffer::of(&lent)
            }
            1 if random.once_in(3) => Buffer::of(&alone(&texts::damaged(random, &text))),
            2 if random.once_in(4) => lent_texts::told(seed).buffer,
            3 if random.once_in(4) => lent_texts::with_fault(seed).buffer,
            4 if random.once_in(3) => Buffer::of(&alone(&parts::parted(seed).text)),
            _ => Buffer::of(&alone(&text)),
        };
        *seen
            .entry(compare(&mut memory, seed, &buffer, random))
            .or_insert(0) += 1;
    }
    println!("{seen:?}");
    assert!(seen["mended"] > 4_000 && seen["whole"] > 2_000 && seen["refused"] > 2_000);
}

/// The heavy texts, and texts of 2,048 statements of which each is dropped.
#[test]
fn long_texts() {
    if !proved::is_linked("mending") {
        return;
    }
    let mut memory = Memory::default();
    let texts = heavy::heavy().into_iter().map(|heavy| heavy.text);
    for (seed, text) in texts.chain(mending::long_texts()).enumerate() {
        let random = &mut Random::new(seed as u64);
        compare(&mut memory, 2, &Buffer::of(&alone(&text)), random);
    }
}

/// The mended text on standard output; on standard error each line with the dropped words.
#[test]
fn program() {
    let mut random = Random::new(111);
    let mut count = 0;
    while count < 300 {
        let text = mending::text(&mut random);
        if text.windows(8).any(|bytes| bytes == b"#include") {
            continue;
        }
        let ran = run(&mut command("oil_mend"), &text);
        count += 1;
        let (out, err) = match mend(&alone(&text)) {
            Ok(mended) => {
                let lines = mended.lines.split_inclusive(|byte| *byte == b'\n');
                let told = lines.zip(&mended.dropped).flat_map(|(line, words)| {
                    let line = &line[..line.len() - 1];
                    [line, b"\t", words, b"\n"].concat()
                });
                (mended.text.clone(), told.collect::<Vec<u8>>())
            }
            Err(refused) => (refused.line().into_bytes(), Vec::new()),
        };
        assert_eq!(
            (
                String::from_utf8_lossy(&ran.out),
                String::from_utf8_lossy(&ran.err)
            ),
            (String::from_utf8_lossy(&out), String::from_utf8_lossy(&err))
        );
    }
}

/// A dropped statement with an include line inside is told with the words of the expanded text.
#[test]
fn program_with_an_include() {
    let folder = Folder::new("mending");
    folder.with("two.oil", b"2");
    let file = folder.with(
        "main.oil",
        b"OIL_VERSION=\"2.5\";IMPLEMENTATION i{TASK{UINT32 a;};};\nCPU c{OS o;APPMODE m;TASK t{a=1;b=\n#include \"two.oil\"\n;};};\n",
    );
    let ran = run(command("oil_mend").arg(file).current_dir(&folder.path), b"");
    let mended = "OIL_VERSION=\"2.5\";IMPLEMENTATION i{TASK{UINT32 a;};};\nCPU c{OS o;APPMODE m;TASK t{a=1;};};\n";
    assert_eq!(String::from_utf8_lossy(&ran.out), mended);
    assert_eq!(
        String::from_utf8_lossy(&ran.err),
        "0\t86\t6\t13\tb=\n2\n;\n"
    );
}
