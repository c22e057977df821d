//! The stage of refusals 3 to 5: the reference on texts whose answer is known from how they
//! were made, and the proved stage against the reference on all of them.

use std::collections::HashSet;
use tests::comparing::{hash, verb};
use tests::grammar::{stage, Stage};
use tests::random::Random;
use tests::texts::{self, Shape};
use tests::token::{step, Step};
use tests::{answered, corpus, limits, proved};

/// Asks the reference and, where it is linked, the proved stage, and counts the texts.
struct Comparison {
    is_linked: bool,
    texts: HashSet<u64>,
    passed: usize,
    refused: [usize; 6],
}

impl Comparison {
    fn new() -> Comparison {
        Comparison {
            is_linked: proved::is_linked("grammar"),
            texts: HashSet::new(),
            passed: 0,
            refused: [0; 6],
        }
    }

    fn ask(&mut self, name: &str, text: &[u8]) -> Stage {
        let reference = stage(text);
        if self.is_linked {
            agree(name, text, reference);
        }
        if self.texts.insert(hash(text)) {
            match reference {
                Stage::Passes => self.passed += 1,
                Stage::Refused { number, .. } => self.refused[number as usize] += 1,
            }
        }
        reference
    }

    /// Prints the counts; there are at least `least` different texts.
    fn report(&self, what: &str, least: usize) {
        println!(
            "{what}: {} {} different texts, {} passed, refusals 3: {}, 4: {}, 5: {}",
            verb(self.is_linked),
            self.texts.len(),
            self.passed,
            self.refused[3],
            self.refused[4],
            self.refused[5]
        );
        assert!(self.texts.len() >= least);
    }
}

#[cfg(not(proved_grammar))]
fn agree(_: &str, _: &[u8], _: Stage) {}

#[cfg(proved_grammar)]
fn agree(name: &str, text: &[u8], reference: Stage) {
    let found = proved::grammar::stage(text);
    assert!(
        found == proved::grammar::answers(reference),
        "{name}\ntext: {}\nreference: {reference:?}\nproved:    {found:?}",
        text.escape_ascii()
    );
}

/// The places after each token of a text.
fn ends_of_tokens(text: &[u8]) -> Vec<usize> {
    let mut ends = Vec::new();
    while let Step::Token(_, next) = step(text, ends.last().copied().unwrap_or(0)) {
        ends.push(next);
    }
    ends
}

fn early_end(text: &[u8]) -> Stage {
    Stage::Refused {
        number: 4,
        place: text.len(),
    }
}

#[test]
fn corpus_texts() {
    let mut comparison = Comparison::new();
    for sample in corpus::all() {
        comparison.ask(&sample.name, &sample.text);
    }
    comparison.report("corpus", 300);
}

#[test]
fn derived_texts_and_their_front_parts() {
    let mut comparison = Comparison::new();
    for seed in 0..220 {
        let random = &mut Random::new(seed);
        let shape = Shape::any([20, 120], [1, 16], random);
        let tokens = texts::derived(random, shape);
        let text = texts::spaced(random, &tokens);
        let name = format!("seed {seed}");
        assert_eq!(comparison.ask(&name, &text), Stage::Passes, "{name}");
        let ends = ends_of_tokens(&text);
        assert_eq!(ends.len(), tokens.len(), "{name}");
        for &end in &ends[..ends.len() - 1] {
            let front = &text[..end];
            assert_eq!(comparison.ask(&name, front), early_end(front), "{name}");
        }
        for end in 0..text.len() {
            comparison.ask(&name, &text[..end]);
        }
    }
    comparison.report("derived texts and their front parts", 50_000);
}

#[test]
fn every_next_token() {
    let mut comparison = Comparison::new();
    for seed in 0..16 {
        let random = &mut Random::new(seed);
        let shape = Shape::any([20, 120], [1, 16], random);
        let tokens = texts::derived(random, shape);
        for count in 0..tokens.len() {
            let mut text = tokens[..count].join(&b' ');
            text.push(b' ');
            let place = text.len();
            let name = format!("seed {seed}, after {count} tokens");
            let mut admitted = 0;
            for token in texts::every_token() {
                text.extend(token);
                match comparison.ask(&name, &text) {
                    Stage::Passes | Stage::Refused { number: 5, .. } => admitted += 1,
                    answer if answer == early_end(&text) => admitted += 1,
                    answer => assert_eq!(answer, Stage::Refused { number: 4, place }, "{name}"),
                }
                text.truncate(place);
            }
            assert!(admitted > 0, "{name}");
        }
    }
    comparison.report("every next token", 30_000);
}

#[test]
fn texts_with_a_meaning() {
    let mut comparison = Comparison::new();
    for limit in limits::limits() {
        let answer = comparison.ask(&limit.name, &limit.text);
        match limit.refusal {
            Some(refusal) if refusal.number == 2 => (),
            Some(refusal) if refusal.number <= 5 => {
                let expected = Stage::Refused {
                    number: refusal.number,
                    place: refusal.place,
                };
                assert_eq!(answer, expected, "{}", limit.name);
            }
            _ => assert_eq!(answer, Stage::Passes, "{}", limit.name),
        }
    }
    for seed in 0..1_500 {
        let name = format!("seed {seed}");
        let text = answered::accepted(seed).text;
        assert_eq!(comparison.ask(&name, &text), Stage::Passes, "{name}");
        let random = &mut Random::new(seed);
        for _ in 0..5 {
            comparison.ask(&name, &texts::damaged(random, &text));
        }
    }
    comparison.report("texts with a meaning", 6_000);
}

#[test]
fn texts_at_sixteen_and_seventeen_braces() {
    let mut comparison = Comparison::new();
    for seed in 0..2_000 {
        let random = &mut Random::new(seed);
        let deepest = random.from_to(16, 20);
        let shape = Shape {
            tokens: random.from_to(20, 60),
            deepest,
            steep: Some(random.pick(&["implementation", "application"])),
        };
        let tokens = texts::derived(random, shape);
        let text = texts::spaced(random, &tokens);
        let name = format!("seed {seed}");
        match comparison.ask(&name, &text) {
            Stage::Passes => assert_eq!(deepest, 16, "{name}"),
            Stage::Refused { number, place } => {
                assert_eq!((number, text[place]), (5, b'{'), "{name}");
                assert!(deepest > 16, "{name}");
            }
        }
        let tokens = texts::one_token_off(random, &tokens);
        let text = texts::spaced(random, &tokens);
        comparison.ask(&name, &text);
    }
    comparison.report("sixteen braces and more", 3_000);
}

#[test]
fn one_token_off() {
    let mut comparison = Comparison::new();
    for seed in 0..3_000 {
        let random = &mut Random::new(seed);
        let shape = Shape::flat([20, 100], [1, 6], random);
        let tokens = texts::derived(random, shape);
        let name = format!("seed {seed}");
        for _ in 0..20 {
            let mut off = texts::one_token_off(random, &tokens);
            if random.once_in(4) {
                off = texts::one_token_off(random, &off);
            }
            comparison.ask(&name, &texts::spaced(random, &off));
        }
    }
    comparison.report("one token off", 50_000);
}

#[test]
fn other_texts() {
    let mut comparison = Comparison::new();
    for seed in 0..20_000 {
        let name = format!("seed {seed}");
        comparison.ask(&name, &texts::any(seed));
        let random = &mut Random::new(seed);
        let tokens: Vec<_> = (0..random.below(30))
            .map(|_| texts::any_token(random))
            .collect();
        comparison.ask(&name, &texts::spaced(random, &tokens));
        let text = texts::likely(random);
        comparison.ask(&name, &texts::damaged(random, &text));
    }
    comparison.report("other texts", 40_000);
}
