//! The families of texts on which the proved calls `read` and `write` are compared with the
//! reference.

use crate::configuration::configuration;
use crate::meaning::Refusal;
use crate::random::Random;
use crate::texts::{self, Shape};
use crate::token::{step, Step, Token};
use crate::tree::file;
use crate::{answered, corpus, floats, grammar, heavy, limits, names, parts, ranges};
use crate::{tempting, token};

/// A text, and what is known of the answer that `read` gives.
pub struct Case {
    pub name: String,
    pub text: Vec<u8>,
    pub known: Known,
}

pub enum Known {
    Nothing,
    Accepted,
    Refused(Refusal),
}

impl From<Option<Refusal>> for Known {
    fn from(refusal: Option<Refusal>) -> Known {
        refusal.map_or(Known::Accepted, Known::Refused)
    }
}

/// What is given each text of a family.
pub type Each<'a> = &'a mut dyn FnMut(Case);

/// Numbers of refusals, and a count that each of them passes.
pub type Passed = (&'static [u8], usize);

/// A family of texts, of which at least so many are different, and more than so many of these are
/// refused with some numbers.
pub struct Family {
    pub name: &'static str,
    pub least: usize,
    pub refused: &'static [Passed],
    pub texts: fn(Each),
}

const fn family(
    name: &'static str,
    least: usize,
    refused: &'static [Passed],
    texts: fn(Each),
) -> Family {
    Family {
        name,
        least,
        refused,
        texts,
    }
}

pub const CORPUS: Family = family("corpus", 300, &[], corpus_texts);
pub const CASES: Family = family("cases of the requests", 0, &[], case_texts);
pub const TEMPTING: Family = family("tempting but wrong", 12, &[], tempting_texts);
pub const ACCEPTED: Family = family("accepted texts", 14_000, &[], accepted);
pub const ONE_FAULT: Family = family("one fault", 10_000, &[(&PLANTED, 500)], one_fault);
pub const ONE_STAGE: Family = family("two faults of one stage", 2_000, &[], faults_of_one_stage);
pub const TWO_STAGES: Family = family("two faults of two stages", 4_000, &[], faults_of_two_stages);
pub const LIMITS: Family = family("limits", 60, &[], limit_texts);
pub const DAMAGED_LIMITS: Family = family("limits, damaged", 200, &[], damaged_limits);
pub const EXCHANGED: Family = family("tokens exchanged", 15_000, &[], tokens_exchanged);
pub const ONE_OFF: Family = family("one token off", 4_000, &[], one_token_off);
pub const DAMAGED: Family = family("damaged texts", 13_000, &[], damaged);
pub const TRUNCATIONS: Family = family("truncations", 10_000, &[], truncations);
pub const BYTES: Family = family("bytes and token soup", 15_000, &[], bytes_and_tokens);
pub const DERIVED: Family = family("derived texts", 7_000, &[], derived);
pub const HEAVY: Family = family("heavy texts", 20, &[], heavy_texts);
pub const RANGES: Family = family(
    "Q-1, ranges and defaults",
    20_000,
    &[(&[21, 22, 23], 1_000)],
    range_texts,
);
pub const PARTS: Family = family(
    "Q-2, objects in parts",
    20_000,
    &[(&[11, 13, 14, 15, 16, 17, 18], 50)],
    part_texts,
);
pub const FLOATS: Family = family("Q-4, floats", 40_000, &[], floats::texts);
pub const NAMES: Family = family(
    "Q-5, names in several kinds",
    20_000,
    &[(&[24], 1_000), (&[18], 50)],
    name_texts,
);

/// How many times as many generated texts are compared as usual: `KAUKSLINI_TEXTS`.
pub fn times() -> u64 {
    match std::env::var("KAUKSLINI_TEXTS") {
        Ok(times) => times.parse().expect("KAUKSLINI_TEXTS is a number"),
        Err(_) => 1,
    }
}

/// A text of which nothing is known.
pub fn unknown(name: &str, text: Vec<u8>) -> Case {
    Case {
        name: name.into(),
        text,
        known: Known::Nothing,
    }
}

/// A text of the corpus and its expected answer.
fn known_text(sample: corpus::Sample) -> Case {
    // Refusal 20 is of the writer: the text is accepted.
    let refusal = sample.refusal().filter(|(number, _)| *number != 20);
    let refusal = refusal.map(|(number, place)| Refusal { number, place });
    Case {
        name: sample.name,
        text: sample.text,
        known: refusal.into(),
    }
}

fn corpus_texts(each: Each) {
    corpus::samples().into_iter().map(known_text).for_each(each);
}

fn case_texts(each: Each) {
    corpus::cases().into_iter().map(known_text).for_each(each);
}

fn tempting_texts(each: Each) {
    for tempting in tempting::tempting() {
        each(Case {
            name: tempting.name.into(),
            text: tempting.text,
            known: tempting.refusal.into(),
        });
    }
}

fn accepted(each: Each) {
    for seed in 0..15_000 * times() {
        each(accepted_text(seed));
    }
    for bytes in (0..=65_535).step_by(1_111) {
        each(configuration_text(bytes));
    }
}

pub fn accepted_text(seed: u64) -> Case {
    Case {
        name: format!("seed {seed}"),
        text: answered::accepted(seed).text,
        known: Known::Accepted,
    }
}

pub fn configuration_text(bytes: usize) -> Case {
    Case {
        name: format!("{bytes} bytes"),
        text: configuration(bytes).into_bytes(),
        known: Known::Accepted,
    }
}

/// The numbers of which a fault can be planted anywhere.
pub const PLANTED: [u8; 15] = [3, 4, 6, 8, 9, 13, 14, 15, 16, 17, 18, 21, 22, 23, 24];

/// The text of a seed with faults of these numbers, if it has sites for them.
pub fn text_with_faults(seed: u64, numbers: &[u8]) -> Option<Case> {
    let made = answered::with_faults(seed, numbers)?;
    Some(Case {
        name: format!("faults {numbers:?}, seed {seed}"),
        text: made.text,
        known: made.answer.err().into(),
    })
}

fn with_faults(seed: u64, numbers: &[u8], each: Each) {
    text_with_faults(seed, numbers).map(each);
}

fn one_fault(each: Each) {
    for number in PLANTED {
        for seed in 0..1_500 * times() {
            with_faults(seed, &[number], each);
        }
    }
}

fn faults_of_one_stage(each: Each) {
    two_faults(true, each);
}

fn faults_of_two_stages(each: Each) {
    two_faults(false, each);
}

fn two_faults(of_one_stage: bool, each: Each) {
    for first in PLANTED {
        for second in PLANTED {
            if (answered::stage_of(first) == answered::stage_of(second)) != of_one_stage {
                continue;
            }
            for seed in 0..180 * times() {
                with_faults(seed, &[first, second], each);
            }
        }
    }
}

fn limit_texts(each: Each) {
    for limit in limits::limits() {
        each(Case {
            name: limit.name,
            text: limit.text,
            known: limit.refusal.into(),
        });
    }
}

fn damaged_limits(each: Each) {
    for limit in limits::limits() {
        let random = &mut Random::new(limit.text.len() as u64);
        for _ in 0..4 * times() {
            each(damaged_text(&limit.name, random, &limit.text));
        }
    }
}

/// A text with one byte or more damaged.
pub fn damaged_text(name: &str, random: &mut Random, text: &[u8]) -> Case {
    unknown(name, texts::damaged(random, text))
}

/// The tokens of a text.
pub fn tokens_of(text: &[u8]) -> Vec<Token> {
    let mut tokens = Vec::new();
    let mut place = 0;
    while let Step::Token(token, next) = step(text, place) {
        tokens.push(token);
        place = next;
    }
    tokens
}

/// The bytes of a token.
pub fn word(text: &[u8], token: &Token) -> Vec<u8> {
    text[token.place..token.place + token.length].to_vec()
}

/// The tokens of a text, a few of them put in the place of others of their sort: words for
/// words, numbers for numbers, so that the grammar mostly admits them.
fn exchanged(random: &mut Random, text: &[u8]) -> Vec<u8> {
    let tokens = tokens_of(text);
    let sort = |token: &Token| match token.sort {
        token::Sort::Word(_) => 0,
        token::Sort::Number { .. } => 1,
        token::Sort::Quoted => 2,
        token::Sort::Float(_) => 3,
        token::Sort::Punctuator(byte) => byte,
    };
    let mut words: Vec<Vec<u8>> = tokens.iter().map(|token| word(text, token)).collect();
    for _ in 0..random.from_to(1, 4) {
        let place = random.below(tokens.len());
        let is_alike = |other: &&Token| sort(other) == sort(&tokens[place]);
        let alike: Vec<&Token> = tokens.iter().filter(is_alike).collect();
        words[place] = word(text, random.pick(&alike));
    }
    texts::spaced(random, &words)
}

fn tokens_exchanged(each: Each) {
    for seed in 0..5_000 * times() {
        exchanged_texts(seed, each);
    }
}

/// The accepted text of a seed four times, with tokens exchanged.
pub fn exchanged_texts(seed: u64, each: Each) {
    let random = &mut Random::new(seed);
    let text = answered::accepted(seed).text;
    for _ in 0..4 {
        each(unknown(&format!("seed {seed}"), exchanged(random, &text)));
    }
}

fn one_token_off(each: Each) {
    for seed in 0..5_000 * times() {
        each(text_one_token_off(seed));
    }
}

pub fn text_one_token_off(seed: u64) -> Case {
    let random = &mut Random::new(seed);
    let text = answered::accepted(seed).text;
    unknown(&format!("seed {seed}"), with_one_token_off(random, &text))
}

fn with_one_token_off(random: &mut Random, text: &[u8]) -> Vec<u8> {
    let tokens = tokens_of(text);
    let tokens: Vec<Vec<u8>> = tokens.iter().map(|token| word(text, token)).collect();
    let off = texts::one_token_off(random, &tokens);
    texts::spaced(random, &off)
}

fn damaged(each: Each) {
    let samples = corpus::all();
    for seed in 0..15_000 * times() {
        each(damaged_sample(seed, &samples));
    }
}

/// A text of the corpus or an accepted one, damaged.
pub fn damaged_sample(seed: u64, samples: &[corpus::Sample]) -> Case {
    let random = &mut Random::new(seed);
    let text = match random.below(3) {
        0 => samples[random.below(samples.len())].text.clone(),
        _ => answered::accepted(seed % 2_000).text,
    };
    damaged_text(&format!("seed {seed}"), random, &text)
}

fn truncations(each: Each) {
    for seed in 0..30 {
        let text = answered::accepted(seed).text;
        for end in 0..=text.len() {
            each(truncated_text(&format!("seed {seed}"), &text, end));
        }
    }
}

pub fn truncated_text(name: &str, text: &[u8], end: usize) -> Case {
    unknown(&format!("{name}, cut at {end}"), text[..end].to_vec())
}

fn bytes_and_tokens(each: Each) {
    for seed in 0..12_000 * times() {
        each(text_of_bytes(seed));
        each(text_of_tokens(seed));
    }
    for seed in 0..200 * times() {
        each(long_text(seed));
    }
}

pub fn text_of_bytes(seed: u64) -> Case {
    unknown(&format!("seed {seed}"), texts::any(seed))
}

pub fn text_of_tokens(seed: u64) -> Case {
    let random = &mut Random::new(seed);
    let tokens: Vec<_> = (0..random.below(30))
        .map(|_| texts::any_token(random))
        .collect();
    unknown(&format!("seed {seed}"), texts::spaced(random, &tokens))
}

pub fn long_text(seed: u64) -> Case {
    unknown(&format!("long, seed {seed}"), texts::long(seed))
}

fn derived(each: Each) {
    for seed in 0..8_000 * times() {
        each(derived_text(seed));
    }
}

/// A text of the grammar's shape, and no regard to the meaning.
pub fn derived_text(seed: u64) -> Case {
    let random = &mut Random::new(seed);
    let shape = Shape::any([20, 150], [2, 16], random);
    let mut tokens = texts::derived(random, shape);
    // Mostly the right version, so that the later stages have something to say.
    if !random.once_in(10) {
        tokens[2] = b"\"2.5\"".to_vec();
    }
    let mut text = texts::spaced(random, &tokens);
    if grammar::stage(&text) == grammar::Stage::Passes && random.once_in(2) {
        let name = file(&text).cpu_name;
        if let Step::Token(_, next) = step(&text, name.place + name.length) {
            text.splice(next..next, *b" OS o_1; APPMODE a_1; ");
        }
    }
    unknown(&format!("seed {seed}"), text)
}

/// The texts of a request's own: each as it is made, and once more cut, damaged or with other
/// tokens.
fn own_texts(text: fn(u64) -> Case, each: Each) {
    for seed in 0..12_000 * times() {
        each(text(seed));
        each(text_off(seed, &text(seed)));
    }
}

/// A text cut, damaged, or with tokens exchanged or one token off.
pub fn text_off(seed: u64, case: &Case) -> Case {
    let random = &mut Random::new(!seed);
    match seed % 4 {
        0 => truncated_text(&case.name, &case.text, random.below(case.text.len())),
        1 => damaged_text(&case.name, random, &case.text),
        2 => unknown(&case.name, exchanged(random, &case.text)),
        _ => unknown(&case.name, with_one_token_off(random, &case.text)),
    }
}

fn range_texts(each: Each) {
    ranges::bounds().into_iter().for_each(&mut *each);
    own_texts(ranges::ranged, each);
}

fn name_texts(each: Each) {
    own_texts(names::named, each);
}

fn part_texts(each: Each) {
    own_texts(parts::parted, each);
}

fn heavy_texts(each: Each) {
    for heavy in heavy::heavy() {
        each(unknown(heavy.name, heavy.text));
    }
}
