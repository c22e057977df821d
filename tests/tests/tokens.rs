//! The proved token reader against the reference, step by step.

use tests::proved;

#[test]
fn token_readers_agree() {
    if proved::is_linked("token") {
        compare::tokens();
    }
}

/// Every run of up to six bytes of those that floats are made of.
#[test]
fn token_readers_agree_on_short_runs() {
    if proved::is_linked("token") {
        compare::short_runs();
    }
}

#[test]
fn parts_agree() {
    if proved::is_linked("token") {
        compare::parts();
    }
}

#[cfg(not(proved_token))]
mod compare {
    pub fn tokens() {}
    pub fn short_runs() {}
    pub fn parts() {}
}

#[cfg(proved_token)]
mod compare {
    use std::collections::BTreeSet;
    use tests::random::Random;
    use tests::token::{part, step, Step};
    use tests::{corpus, floats, proved, texts};

    const SEEDS: u64 = 60_000;
    const LONG_SEEDS: u64 = 300;

    /// Compares the two readers at one place, and returns the reference's step.
    fn agree(name: &str, text: &[u8], place: usize) -> Step {
        let reference = step(text, place);
        let expected = proved::token::answers(reference);
        let found = proved::token::step(text, place);
        assert!(
            found == expected,
            "{name}, from place {place}\ntext: {}\nreference: {expected:?}\nproved:    {found:?}",
            text.escape_ascii()
        );
        reference
    }

    /// From every place of a text, and from some past its end.
    fn at_every_place(name: &str, text: &[u8]) -> usize {
        let past = [1, 2, 1000].map(|more| text.len() + more);
        let far = [usize::MAX - 1, usize::MAX, 1 << 63, 1 << 32];
        let mut steps = 0;
        for place in (0..=text.len()).chain(past).chain(far) {
            agree(name, text, place);
            steps += 1;
        }
        steps
    }

    /// Along the tokens; after a refusal, from the byte after it.
    fn along_the_tokens(name: &str, text: &[u8]) -> usize {
        let mut place = 0;
        let mut steps = 0;
        loop {
            steps += 1;
            match agree(name, text, place) {
                Step::Token(_, next) => place = next,
                Step::Refused(at) => place = at + 1,
                Step::End(_) => return steps,
            }
        }
    }

    pub fn tokens() {
        let mut steps = 0;
        let samples = corpus::all();
        for sample in &samples {
            steps += along_the_tokens(&sample.name, &sample.text);
            if sample.text.len() < 2_000 {
                steps += at_every_place(&sample.name, &sample.text);
            }
        }
        let mut generated = BTreeSet::new();
        for seed in 0..SEEDS {
            let text = texts::any(seed);
            let name = format!("seed {seed} of any");
            steps += match text.len() {
                0..=200 => at_every_place(&name, &text),
                _ => along_the_tokens(&name, &text),
            };
            generated.insert(text);
        }
        for seed in 0..LONG_SEEDS {
            let text = texts::long(seed);
            steps += along_the_tokens(&format!("seed {seed} of long"), &text);
            generated.insert(text);
        }
        println!(
            "token readers agree: {} texts of the corpus, {} different generated ones, {steps} steps",
            samples.len(),
            generated.len()
        );
        assert!(generated.len() >= 20_000);
    }

    pub fn short_runs() {
        let mut floats = 0;
        let mut steps = 0;
        let runs = texts::every_run(floats::RUN_BYTES, 6);
        for run in &runs {
            steps += along_the_tokens("short run", run) + at_every_place("short run", run);
            floats += usize::from(proved::token::sort(run, 0) == 6);
        }
        println!(
            "token readers agree: {} short runs, {floats} beginning with a float, {steps} steps",
            runs.len()
        );
        assert_eq!(runs.len(), 55_987);
    }

    pub fn parts() {
        let mut asked = 0;
        for seed in 0..2_000 {
            let random = &mut Random::new(seed);
            let length = random.below(40);
            let text = texts::bytes(random, length);
            let far = [usize::MAX, usize::MAX - length, 1 << 63, length + 1];
            let any = |random: &mut Random| match random.below(4) {
                0 => far[random.below(far.len())],
                _ => random.below(length + 2),
            };
            for _ in 0..20 {
                let (place, count) = (any(random), any(random));
                let expected = part(&text, place, count);
                let start = expected.as_ptr() as usize - text.as_ptr() as usize;
                let found = proved::token::part(&text, place, count);
                assert_eq!(
                    found,
                    (start, expected.len()),
                    "seed {seed}: part at {place} of length {count} in a text of {length} bytes"
                );
                asked += 1;
            }
        }
        println!("parts agree: {asked} questions");
    }
}
