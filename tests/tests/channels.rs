//! No channel depends on its neighbours (document 02, Q-12): on generated texts, by the proved call
//! `read` and by the reference, over one text and over lent texts. What holds of every text is
//! proved (crates/channels, crates/channels_texts).

use tests::answered;
use tests::channels::{channels, exchanged, lent, lent_channels, pairs, parts, replaced};
use tests::channels::{Channels, Item, Key, Part};
use tests::comparing_texts::{Answers, EXACT};
use tests::including::{Buffer, Lent, LONGEST};
use tests::meaning;
use tests::parts::parted;
use tests::random::Random;
use tests::release_texts::pair;
use tests::tables::{self, Answer, ROOMS, TOLD};

const SEEDS: u64 = 1600;

/// For each of which up to six sets of lent texts are made.
const LENT_SEEDS: u64 = 200;

#[cfg(proved_reading)]
fn called(text: &[u8]) -> Answer {
    use tests::tables::WIDTHS;
    let mut cells = ROOMS.map(|length| vec![0; length]);
    let mut told = [0; TOLD];
    let number =
        tests::proved::reading::read(text, cells.each_mut().map(Vec::as_mut_slice), &mut told);
    for (index, table) in cells.iter_mut().enumerate() {
        table.truncate(told[index + 1] * WIDTHS[index]);
    }
    Answer {
        number,
        told,
        rows: cells,
    }
}

#[cfg(not(proved_reading))]
fn called(_: &[u8]) -> Answer {
    unreachable!("only asked where it is linked")
}

/// The answer of the proved call where it is linked, and else that of the reference.
fn read(text: &[u8]) -> Answer {
    if tests::proved::is_linked("reading") {
        return called(text);
    }
    tables::answer(&meaning::read(text))
}

/// The channels of a text, if it is accepted.
fn shown(text: &[u8]) -> Option<Channels> {
    let answer = read(text);
    (answer.number == 0).then(|| channels(text, &answer))
}

fn texts(seed: u64) -> [Vec<u8>; 3] {
    let [first, _] = pair(seed);
    [answered::accepted(seed).text, parted(seed).text, first]
}

/// Exchange: the text is accepted, with the same channels.
#[test]
fn neighbours_exchanged() {
    let mut exchanges = 0;
    let mut later_parts = 0;
    for text in (0..SEEDS).flat_map(texts) {
        let Some(before) = shown(&text) else { continue };
        let all = parts(&text);
        let mut random = Random::new(text.len() as u64);
        // Of texts with many parts some pairs.
        let often = all.len() / 20 + 1;
        for (index, two) in all.windows(2).enumerate() {
            if two[0].key == two[1].key || !random.once_in(often) {
                continue;
            }
            let other = exchanged(&text, &two[0], &two[1]);
            let after = shown(&other);
            assert!(
                after.as_ref() == Some(&before),
                "{}\nbecame {}",
                text.escape_ascii(),
                other.escape_ascii()
            );
            exchanges += 1;
            later_parts += usize::from(all[..index].iter().any(|part| part.key == two[1].key));
        }
    }
    eprintln!("{exchanges} exchanges, {later_parts} of them with a further part");
    assert!(exchanges > 20_000 && later_parts > 5_000);
}

/// Isolation: where both texts are accepted, every other object shows the same.
#[test]
fn braces_isolated() {
    let mut compared = 0;
    let mut differing = 0;
    for text in (0..SEEDS).flat_map(texts) {
        let Some(before) = shown(&text) else { continue };
        let all = parts(&text);
        let mut random = Random::new(text.len() as u64);
        let often = all.len() / 20 + 1;
        for part in all.iter().filter(|part| part.inside.is_some()) {
            if !random.once_in(often) {
                continue;
            }
            let other = replaced(&mut random, &text, part, &all.iter().collect::<Vec<_>>());
            let Some(after) = shown(&other) else { continue };
            assert!(
                others(&before, &part.key) == others(&after, &part.key),
                "{}\nbecame {}",
                text.escape_ascii(),
                other.escape_ascii()
            );
            compared += 1;
            differing += usize::from(after.get(&part.key) != before.get(&part.key));
        }
    }
    eprintln!("{compared} texts compared, in {differing} the object itself differs");
    assert!(compared > 15_000 && differing > 3_000);
}

/// The answer for lent texts: that of the proved call where it is linked.
fn read_lent(texts: &[Lent]) -> Answer {
    let buffer = Buffer::of(texts);
    if !tests::proved::is_linked("including") {
        return Answers::new(&buffer).reading(&EXACT);
    }
    let mut cells = ROOMS.map(|length| vec![0; length]);
    let mut told = [0; TOLD];
    let (mut expanded, mut origins) = (vec![0; LONGEST], vec![0; LONGEST]);
    let number = tests::proved::including::read(
        &buffer,
        &mut expanded,
        &mut origins,
        cells.each_mut().map(Vec::as_mut_slice),
        &mut told,
    );
    for (index, table) in cells.iter_mut().enumerate() {
        table.truncate(told[index + 1] * tests::tables::WIDTHS[index]);
    }
    Answer {
        number,
        told,
        rows: cells,
    }
}

fn shown_lent(texts: &[Lent]) -> Option<Channels> {
    let answer = read_lent(texts);
    (answer.number == 0).then(|| lent_channels(texts, &answer))
}

/// Sets of lent texts that are accepted, with their channels.
fn sets(seed: u64) -> Vec<(Vec<Lent>, Channels)> {
    let mut random = Random::new(seed);
    let mut sets = Vec::new();
    for text in texts(seed) {
        if shown(&text).is_none() || parts(&text).is_empty() {
            continue;
        }
        for _ in 0..2 {
            let texts = lent(&mut random, &text);
            if let Some(channels) = shown_lent(&texts) {
                sets.push((texts, channels));
            }
        }
    }
    sets
}

/// The texts with another one in place of one of them.
fn with(texts: &[Lent], number: usize, text: Vec<u8>) -> Vec<Lent> {
    let mut texts = texts.to_vec();
    texts[number].text = text;
    texts
}

/// Exchange in one of the lent texts, which may be included several times or not at all.
#[test]
fn neighbours_exchanged_in_lent_texts() {
    let mut exchanges = [0; 3];
    for (texts, before) in (0..LENT_SEEDS).flat_map(sets) {
        let (twos, _) = pairs(&texts);
        let mut random = Random::new(texts[0].text.len() as u64);
        let often = twos.len() / 12 + 1;
        for two in twos
            .iter()
            .filter(|two| two.times > 1 || random.once_in(often))
        {
            let other = exchanged(&texts[two.text].text, &two.one, &two.other);
            let other = with(&texts, two.text, other);
            assert!(
                shown_lent(&other).as_ref() == Some(&before),
                "{texts:?}\nbecame {other:?}"
            );
            exchanges[two.times.min(2)] += 1;
        }
        // A text that no line names.
        let none = texts.len() - 1;
        let two: Vec<&[u8]> = texts[none]
            .text
            .split_inclusive(|byte| *byte == b';')
            .collect();
        if let [one, two, rest @ ..] = &two[..] {
            let other = with(&texts, none, [&[*two, *one][..], rest].concat().concat());
            assert!(
                shown_lent(&other).as_ref() == Some(&before),
                "{texts:?}\nbecame {other:?}"
            );
            exchanges[0] += 1;
        }
    }
    let [none, once, more] = exchanges;
    eprintln!("{once} exchanges in texts included once, {more} in several places, {none} in none");
    assert!(once > 2_000 && more > 1_000 && none > 300);
}

/// Isolation: something else between the braces of a part of a text that is included once.
#[test]
fn braces_isolated_in_lent_texts() {
    let mut compared = 0;
    let mut differing = 0;
    for (texts, before) in (0..LENT_SEEDS).flat_map(sets) {
        let (_, ones) = pairs(&texts);
        let mut random = Random::new(texts[0].text.len() as u64);
        let often = ones.len() / 12 + 1;
        for (number, part, times) in &ones {
            if part.inside.is_none() || *times > 1 || !random.once_in(often) {
                continue;
            }
            let here = ones.iter().filter(|(text, ..)| text == number);
            let here: Vec<&Part> = here.map(|(_, part, _)| part).collect();
            let other = replaced(&mut random, &texts[*number].text, part, &here);
            let other = with(&texts, *number, other);
            let Some(after) = shown_lent(&other) else {
                continue;
            };
            assert!(
                others(&before, &part.key) == others(&after, &part.key),
                "{texts:?}\nbecame {other:?}"
            );
            compared += 1;
            differing += usize::from(after.get(&part.key) != before.get(&part.key));
        }
    }
    eprintln!("{compared} sets of texts compared, in {differing} the object itself differs");
    assert!(compared > 1_000 && differing > 200);
}

/// All channels but one.
fn others<'c>(all: &'c Channels, key: &Key) -> Vec<(&'c Key, &'c Vec<Item>)> {
    all.iter().filter(|(other, _)| *other != key).collect()
}
