//! What the grammar admits at a refusal 4: the reference on texts whose set is known, and the
//! proved call against the reference on generated texts.

use tests::comparing::verb;
use tests::expecting::{in_words, told};
use tests::grammar::{expected, Symbol};
use tests::random::Random;
use tests::texts::{self, Shape};
use tests::token::{step, Step};
use tests::{answered, corpus, proved};

/// Asks the reference and, where it is linked, the proved call, and counts the texts.
struct Comparison {
    is_linked: bool,
    refused: usize,
    other: usize,
}

impl Comparison {
    fn new() -> Comparison {
        Comparison {
            is_linked: proved::is_linked("expecting"),
            refused: 0,
            other: 0,
        }
    }

    fn ask(&mut self, name: &str, text: &[u8]) {
        let reference = expected(text);
        let (place, names) = match &reference {
            Some(expected) => (expected.place, in_words(expected)),
            None => (text.len(), Vec::new()),
        };
        match reference {
            Some(_) => self.refused += 1,
            None => self.other += 1,
        }
        if self.is_linked {
            agree(name, text, place, &names);
            // No flag is set elsewhere.
            agree(name, text, place + 1, &[]);
        }
    }

    fn report(&self, what: &str, least: usize) {
        let verb = verb(self.is_linked);
        let Comparison { refused, other, .. } = self;
        println!("{what}: {verb} {refused} texts refused with 4 and {other} others");
        assert!(*refused >= least);
    }
}

#[cfg(not(proved_expecting))]
fn agree(_: &str, _: &[u8], _: usize, _: &[String]) {}

#[cfg(proved_expecting)]
fn agree(name: &str, text: &[u8], place: usize, expected: &[String]) {
    use tests::expecting::{terminals, END};
    let words = terminals().into_iter().map(|terminal| terminal.words);
    let all: Vec<String> = words.chain([END.to_string()]).collect();
    let is_set = |flag: &usize| proved::expecting::expected(text, place, *flag);
    let set = (0..all.len()).filter(is_set);
    let found: Vec<String> = set.map(|flag| all[flag].clone()).collect();
    assert!(
        found == expected,
        "{name}, place {place}\ntext: {}\nreference: {expected:?}\nproved:    {found:?}",
        text.escape_ascii()
    );
    assert!(!proved::expecting::expected(text, place, all.len()));
}

#[test]
fn known_sets() {
    let front = "OIL_VERSION=\"2.5\";IMPLEMENTATION x{";
    let cases = [
        (String::new(), "OIL_VERSION"),
        ("OIL_VERSION = 2;".to_string(), "a string"),
        ("OIL_VERSION = \"2.5\"".to_string(), "`;` or `:`"),
        (
            "OIL_VERSION = \"2.5\" // no line feed".to_string(),
            "`;` or `:`",
        ),
        (
            "OIL_VERSION=\"2.5\";IMPLEMENTATION AUTO{".to_string(),
            "a name",
        ),
        (format!("{front}y"), "a kind or `}`"),
        (
            format!("{front}OS{{y"),
            "a kind followed by _TYPE, an integer type, STRING, BOOLEAN, ENUM, FLOAT or `}`",
        ),
        (format!("{front}OS{{UINT32 ;"), "a name, WITH_AUTO or `[`"),
        (format!("{front}OS{{UINT32[1;"), "`]`, `,` or `..`"),
        (format!("{front}OS{{FLOAT[1;"), "a float"),
        (
            format!("{front}OS{{BOOLEAN a=1;"),
            "TRUE, FALSE, AUTO or NO_DEFAULT",
        ),
        (
            format!("{front}}};CPU c{{OS o{{a=;"),
            "a name, a number, a string, a float, TRUE, FALSE or AUTO",
        ),
        (format!("{front}}};CPU c{{OS o/**/]"), "`{`, `;` or `:`"),
        (format!("{front}}};CPU c{{}};;"), "the end of the text"),
    ];
    let mut comparison = Comparison::new();
    for (text, set) in cases {
        let told = told(text.as_bytes()).expect("the text is refused with 4");
        assert_eq!(told, format!("expected {set}"), "{text}");
        comparison.ask(&text, text.as_bytes());
    }
    comparison.report("known sets", 14);
}

/// The next token of a derived text is expected.
#[test]
fn front_parts() {
    let mut comparison = Comparison::new();
    for seed in 0..40 {
        let random = &mut Random::new(seed);
        let shape = Shape::any([20, 90], [1, 16], random);
        let tokens = texts::derived(random, shape);
        for count in 0..tokens.len() {
            let text = texts::spaced(random, &tokens[..count]);
            let name = format!("seed {seed}, {count} tokens");
            let set = expected(&text).expect("the text ends early");
            assert_eq!(set.place, text.len(), "{name}");
            let Step::Token(next, _) = step(&tokens[count], 0) else {
                panic!("{name}: no token");
            };
            let admits = |token: &Symbol| token.admits(next.sort);
            assert!(set.tokens.iter().any(admits), "{name}");
            comparison.ask(&name, &text);
        }
    }
    comparison.report("front parts", 1_500);
}

#[test]
fn other_texts() {
    let mut comparison = Comparison::new();
    for sample in corpus::all() {
        comparison.ask(&sample.name, &sample.text);
    }
    for seed in 0..1_000 {
        let name = format!("seed {seed}");
        let random = &mut Random::new(seed);
        let shape = Shape::flat([20, 100], [1, 17], random);
        let tokens = texts::derived(random, shape);
        let off = texts::one_token_off(random, &tokens);
        comparison.ask(&name, &texts::spaced(random, &off));
        let text = answered::accepted(seed).text;
        comparison.ask(&name, &texts::damaged(random, &text));
        comparison.ask(&name, &texts::any(seed));
    }
    comparison.report("other texts", 1_000);
}

/// The longest text that is asked, and one byte more.
#[test]
fn longest_texts() {
    let mut comparison = Comparison::new();
    let mut text = vec![b' '; 65_535];
    comparison.ask("65,535 bytes", &text);
    text[65_534] = b';';
    comparison.ask("65,535 bytes and a token", &text);
    text.push(b' ');
    comparison.ask("65,536 bytes", &text);
    if comparison.is_linked {
        agree("65,536 bytes", &text, 65_534, &[]);
    }
    comparison.report("longest texts", 2);
}
