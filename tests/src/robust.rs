//! The texts of the long run (docs/ROBUSTNESS.md): those of the families that are made of no seed,
//! every truncation and every change of one byte of ten accepted texts, and a mix of as many
//! texts made of seeds as are asked for.

use crate::comparing::hash;
use crate::corpus::{self, Sample};
use crate::families::{self, Case, Each, Family, Known, PLANTED};
use crate::floats;
use crate::limits::{self, Limit};
use crate::names;
use crate::parts;
use crate::random::Random;
use crate::ranges;
use std::collections::HashSet;
use std::fs;
use std::path::Path;

/// What is given each text with the name of its family.
pub type EachOf<'a> = &'a mut dyn FnMut(&str, Case);

/// The ten texts of the folder robust/texts, with their names.
pub fn ten_texts() -> Vec<(String, Vec<u8>)> {
    let folder = Path::new(env!("CARGO_MANIFEST_DIR")).join("robust/texts");
    let entries = fs::read_dir(&folder).expect("the folder of the ten texts");
    let mut texts: Vec<(String, Vec<u8>)> = entries
        .map(|entry| entry.expect("one of the ten texts"))
        .map(|entry| {
            let name = entry.file_name().into_string().expect("a name in ASCII");
            (name, fs::read(entry.path()).expect("one of the ten texts"))
        })
        .collect();
    texts.sort();
    texts
}

/// The texts of the families that are made of no seed.
pub fn fixed(each: EachOf) {
    const FAMILIES: [Family; 5] = [
        families::CORPUS,
        families::CASES,
        families::TEMPTING,
        families::LIMITS,
        families::HEAVY,
    ];
    for family in FAMILIES {
        (family.texts)(&mut |case| each(family.name, case));
    }
    for length in 65_534..=65_537 {
        for limit in limits::written(length) {
            each(
                "limits of the output",
                Case {
                    name: limit.name,
                    text: limit.text,
                    known: Known::Accepted,
                },
            );
        }
    }
}

/// The ten texts, and every truncation of them.
pub fn truncations(each: EachOf) {
    for (name, text) in ten_texts() {
        for end in 0..text.len() {
            each(
                "every truncation",
                families::truncated_text(&name, &text, end),
            );
        }
        each(
            "ten accepted texts",
            Case {
                name,
                text,
                known: Known::Accepted,
            },
        );
    }
}

/// Every change of one byte of the ten texts: each place, each of the 255 other bytes.
pub fn changes(each: EachOf) {
    for (name, text) in ten_texts() {
        for place in 0..text.len() {
            for byte in (0..=255).filter(|byte| *byte != text[place]) {
                let mut changed = text.clone();
                changed[place] = byte;
                each(
                    "every change of a byte",
                    Case {
                        name: format!("{name}, byte {place} is {byte}"),
                        text: changed,
                        known: Known::Nothing,
                    },
                );
            }
        }
    }
}

/// What the texts made of seeds are made from besides.
struct Sources {
    samples: Vec<Sample>,
    limits: Vec<Limit>,
}

/// A family of texts made of seeds, and its parts of the mix.
struct Seeded {
    name: &'static str,
    parts: usize,
    texts: fn(u64, &Sources, Each),
}

const fn seeded(name: &'static str, parts: usize, texts: fn(u64, &Sources, Each)) -> Seeded {
    Seeded { name, parts, texts }
}

/// The mix: about as the families are mixed that are compared with the reference.
const MIX: [Seeded; 17] = [
    seeded(families::ACCEPTED.name, 120, |seed, _, each| {
        each(families::accepted_text(seed));
    }),
    seeded(families::ONE_FAULT.name, 130, |seed, _, each| {
        families::text_with_faults(seed, &[planted(seed)]).map(each);
    }),
    seeded("two faults", 240, |seed, _, each| {
        families::text_with_faults(seed, &[planted(seed), planted(seed >> 32)]).map(each);
    }),
    // Four texts of each seed.
    seeded(families::EXCHANGED.name, 40, |seed, _, each| {
        families::exchanged_texts(seed, each);
    }),
    seeded(families::ONE_OFF.name, 50, |seed, _, each| {
        each(families::text_one_token_off(seed));
    }),
    seeded(families::DAMAGED.name, 130, |seed, sources, each| {
        each(families::damaged_sample(seed, &sources.samples));
    }),
    seeded(families::TRUNCATIONS.name, 60, |seed, _, each| {
        let Case { name, text, .. } = families::accepted_text(seed);
        let end = Random::new(seed).below(text.len());
        each(families::truncated_text(&name, &text, end));
    }),
    seeded("bytes", 80, |seed, _, each| {
        each(families::text_of_bytes(seed))
    }),
    seeded("token soup", 80, |seed, _, each| {
        each(families::text_of_tokens(seed));
    }),
    seeded("long bytes and tokens", 3, |seed, _, each| {
        each(families::long_text(seed));
    }),
    seeded(families::DERIVED.name, 64, |seed, _, each| {
        each(families::derived_text(seed));
    }),
    seeded(families::RANGES.name, 60, |seed, _, each| {
        own_text(seed, ranges::ranged, each);
    }),
    seeded(families::PARTS.name, 60, |seed, _, each| {
        own_text(seed, parts::parted, each);
    }),
    seeded(families::FLOATS.name, 60, |seed, _, each| {
        own_text(seed, floats::other_words, each);
    }),
    seeded(families::NAMES.name, 60, |seed, _, each| {
        own_text(seed, names::named, each);
    }),
    seeded(families::DAMAGED_LIMITS.name, 1, |seed, sources, each| {
        let random = &mut Random::new(seed);
        let limit = &sources.limits[random.below(sources.limits.len())];
        let name = format!("{}, seed {seed}", limit.name);
        each(families::damaged_text(&name, random, &limit.text));
    }),
    seeded("configurations, some damaged", 2, |seed, _, each| {
        let random = &mut Random::new(seed);
        let case = families::configuration_text(random.below(65_536));
        each(match random.once_in(2) {
            true => case,
            false => {
                let name = format!("{}, seed {seed}", case.name);
                families::damaged_text(&name, random, &case.text)
            }
        });
    }),
];

/// A text of a request's own, or the same cut, damaged or with other tokens.
fn own_text(seed: u64, text: fn(u64) -> Case, each: Each) {
    each(match seed % 3 {
        0 => families::text_off(seed, &text(seed)),
        _ => text(seed),
    });
}

/// A number of which a fault can be planted.
fn planted(seed: u64) -> u8 {
    PLANTED[(seed % PLANTED.len() as u64) as usize]
}

/// So many different texts of the mix; one seed gives always the same.
pub fn generated(seed: u64, count: usize, each: EachOf) {
    let sources = Sources {
        samples: corpus::all(),
        limits: limits::limits(),
    };
    let random = &mut Random::new(seed);
    let parts = MIX.iter().map(|family| family.parts).sum();
    let mut hashes = HashSet::new();
    while hashes.len() < count {
        let mut part = random.below(parts);
        let family = MIX.iter().find(|family| {
            let is_it = part < family.parts;
            part = part.wrapping_sub(family.parts);
            is_it
        });
        let family = family.expect("a part of the mix");
        (family.texts)(random.number(), &sources, &mut |case| {
            if hashes.len() < count && hashes.insert(hash(&case.text)) {
                each(family.name, case);
            }
        });
    }
}

#[cfg(test)]
mod tests {
    use super::*;
    use crate::grammar::{grammar, Symbol};
    use crate::meaning::read;
    use crate::token::{self, step, Step};

    /// A form of a rule, by their indexes.
    type Form = (usize, usize);

    /// The symbols that are still to come.
    struct ToCome<'a>(Symbol, Option<&'a ToCome<'a>>);

    /// Whether the symbols derive the tokens; the forms by which they do are put into `used`.
    fn derive(to_come: Option<&ToCome>, tokens: &[token::Sort], used: &mut Vec<Form>) -> bool {
        let Some(&ToCome(symbol, rest)) = to_come else {
            return tokens.is_empty();
        };
        let Symbol::Rule(rule) = symbol else {
            let is_admitted = tokens.first().is_some_and(|sort| symbol.admits(*sort));
            return is_admitted && derive(rest, &tokens[1..], used);
        };
        grammar().forms[rule]
            .iter()
            .enumerate()
            .any(|(index, form)| {
                let before = used.len();
                used.push((rule, index));
                let derives = derive_form(form, rest, tokens, used);
                if !derives {
                    used.truncate(before);
                }
                derives
            })
    }

    fn derive_form(
        form: &[Symbol],
        rest: Option<&ToCome>,
        tokens: &[token::Sort],
        used: &mut Vec<Form>,
    ) -> bool {
        match form {
            [] => derive(rest, tokens, used),
            [front @ .., last] => derive_form(front, Some(&ToCome(*last, rest)), tokens, used),
        }
    }

    #[test]
    fn ten_texts_are_accepted_and_use_every_form() {
        let mut used = HashSet::new();
        let texts = ten_texts();
        assert_eq!(texts.len(), 10);
        for (name, text) in texts {
            assert!(read(&text).is_ok(), "{name}");
            assert!((50..500).contains(&text.len()), "{name}");
            let mut tokens = Vec::new();
            let mut place = 0;
            while let Step::Token(token, next) = step(&text, place) {
                tokens.push(token.sort);
                place = next;
            }
            let mut forms = Vec::new();
            let file = ToCome(Symbol::Rule(0), None);
            assert!(derive(Some(&file), &tokens, &mut forms), "{name}");
            used.extend(forms);
        }
        for (rule, forms) in grammar().forms.iter().enumerate() {
            for form in 0..forms.len() {
                assert!(used.contains(&(rule, form)), "rule {rule}, form {form}");
            }
        }
    }

    #[test]
    fn a_seed_gives_the_same_texts() {
        let texts = |seed| {
            let mut texts = Vec::new();
            generated(seed, 200, &mut |family, case| {
                texts.push((family.to_string(), case.name, case.text));
            });
            texts
        };
        let first = texts(5);
        assert_eq!(first.len(), 200);
        assert!(first == texts(5));
        assert!(first != texts(6));
    }
}
