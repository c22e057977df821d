//! Document 02, Q-9: the suppliers' implementation definitions held to section 5.2 of 000, over
//! the tree that the reference reads; and texts with implementations of every sort.

use crate::meaning::{read, Refusal};
use crate::random::Random;
use crate::token::KINDS;
use crate::tree::{self, Choice, Definition, Form, Range, Type, Value};

/// Section 5.2 as a text.
pub const STANDARD: &[u8] = include_bytes!("../../examples/standard.oil");

/// "Leftmost place, then smaller number, then the order of names in section 5.2".
#[derive(Clone, Copy, Debug, PartialEq, Eq, PartialOrd, Ord)]
pub struct Finding {
    pub place: usize,
    pub number: u8,
    /// "its number, from 0, among these in that order".
    pub attribute: usize,
}

#[derive(Clone, Copy, Debug, PartialEq, Eq)]
pub enum Checked {
    Refused(Refusal),
    NothingWrong,
    Wrong(Finding),
}

/// The two texts, and what is found so far.
struct Comparison<'t> {
    text: &'t [u8],
    /// How many standard attributes were gone through.
    count: usize,
    findings: Vec<Finding>,
}

/// A scope of the implementation: its definitions, and the place of the owning word.
type Scope<'d> = Option<(&'d [Definition], usize)>;

fn choices(definition: &Definition) -> &[Choice] {
    match &definition.range {
        Range::Choices(choices) => choices,
        _ => &[],
    }
}

fn number(value: &Value) -> i128 {
    match value.form {
        Form::Number(number) => number,
        _ => panic!("a number"),
    }
}

fn has_default(definition: &Definition) -> bool {
    match &definition.default {
        Some(value) => value.form != Form::NoDefault,
        None => false,
    }
}

impl Comparison<'_> {
    /// Goes through standard attributes that all have one scope, a sub-attribute before the
    /// attribute it is under. "Under a value or attribute left out nothing is asked".
    fn scope(&mut self, wanted: &[Definition], scope: Scope) {
        for wanted in wanted {
            let name = wanted.name.of(STANDARD);
            let found = scope.and_then(|(definitions, _)| {
                let mut definitions = definitions.iter();
                definitions.find(|found| found.name.of(self.text) == name)
            });
            for choice in choices(wanted) {
                let word = choice.word.of(STANDARD);
                let own = found.and_then(|found| {
                    let mut own = choices(found).iter();
                    own.find(|own| own.word.of(self.text) == word)
                });
                let scope = own.map(|own| (&own.definitions[..], own.word.place));
                self.scope(&choice.definitions, scope);
            }
            let attribute = self.count;
            self.count += 1;
            let Some((_, owner)) = scope else {
                continue;
            };
            let (place, number) = match found {
                None => (owner, 25),
                Some(found) if self.differs(wanted, found) => (found.name.place, 26),
                Some(_) => continue,
            };
            self.findings.push(Finding {
                place,
                number,
                attribute,
            });
        }
    }

    fn differs(&self, wanted: &Definition, found: &Definition) -> bool {
        wanted.sort != found.sort
            || wanted.is_list != found.is_list
            || (found.with_auto && !wanted.with_auto)
            || (has_default(found) && !has_default(wanted))
            || self.is_wider(wanted, found)
    }

    /// Of two attributes of one type.
    fn is_wider(&self, wanted: &Definition, found: &Definition) -> bool {
        match (wanted.sort, &wanted.range, &found.range) {
            // "a BOOLEAN without its list differs"
            (Type::Boolean, Range::Choices(_), Range::Nothing) => true,
            (Type::Enum, Range::Choices(wanted), Range::Choices(found)) => {
                let is_wanted = |word: &[u8]| {
                    let mut wanted = wanted.iter();
                    wanted.any(|wanted| wanted.word.of(STANDARD) == word)
                };
                let mut found = found.iter();
                !found.all(|found| is_wanted(found.word.of(self.text)))
            }
            (_, Range::Listed(wanted), found) => {
                let is_wanted = |n: i128| wanted.iter().any(|value| number(value) == n);
                match found {
                    Range::Nothing => true,
                    Range::Between(low, high) => {
                        let (low, high) = (number(low), number(high));
                        high - low >= wanted.len() as i128 || !(low..=high).all(is_wanted)
                    }
                    Range::Listed(found) => !found.iter().all(|value| is_wanted(number(value))),
                    Range::Choices(_) => panic!("a range of numbers"),
                }
            }
            _ => false,
        }
    }
}

/// The answer to a text.
pub fn check(text: &[u8]) -> Checked {
    if let Err(refusal) = read(text) {
        return Checked::Refused(refusal);
    }
    let standard = tree::file(STANDARD);
    let file = tree::file(text);
    let mut comparison = Comparison {
        text,
        count: 0,
        findings: Vec::new(),
    };
    for wanted in &standard.specs {
        let mut specs = file.specs.iter();
        let spec = specs.find(|spec| spec.kind == wanted.kind);
        let scope = match spec {
            Some(spec) => (&spec.definitions[..], spec.kind_word.place),
            None => (&[][..], file.implementation_name.place),
        };
        comparison.scope(&wanted.definitions, Some(scope));
    }
    assert_eq!(comparison.count, 36);
    match comparison.findings.iter().min() {
        Some(finding) => Checked::Wrong(*finding),
        None => Checked::NothingWrong,
    }
}

/// The path of each standard attribute by its names, in their order.
pub fn paths() -> Vec<String> {
    fn of(definitions: &[Definition], front: &str, paths: &mut Vec<String>) {
        for definition in definitions {
            let name = String::from_utf8_lossy(definition.name.of(STANDARD)).into_owned();
            for choice in choices(definition) {
                let word = String::from_utf8_lossy(choice.word.of(STANDARD)).into_owned();
                of(
                    &choice.definitions,
                    &format!("{front}.{name}={word}"),
                    paths,
                );
            }
            paths.push(format!("{front}.{name}"));
        }
    }
    let mut paths = Vec::new();
    for spec in &tree::file(STANDARD).specs {
        of(&spec.definitions, KINDS[spec.kind], &mut paths);
    }
    paths
}

// Texts --------------------------------------------------------------------------------------

/// A definition to be written.
#[derive(Clone)]
struct Written {
    word: String,
    with_auto: bool,
    range: Span,
    name: String,
    is_list: bool,
    default: Option<String>,
}

#[derive(Clone)]
enum Span {
    Nothing,
    Numbers(String),
    Choices(Vec<(String, Vec<Written>)>),
}

fn written(definition: &Definition) -> Written {
    let words = |part: tree::Part| String::from_utf8_lossy(part.of(STANDARD)).into_owned();
    Written {
        word: words(definition.type_word),
        with_auto: definition.with_auto,
        range: match &definition.range {
            Range::Nothing => Span::Nothing,
            Range::Choices(choices) => Span::Choices(
                choices
                    .iter()
                    .map(|choice| {
                        let under = choice.definitions.iter().map(written).collect();
                        (words(choice.word), under)
                    })
                    .collect(),
            ),
            _ => Span::Numbers(words(definition.range_part)),
        },
        name: words(definition.name),
        is_list: definition.is_list,
        default: definition
            .default
            .as_ref()
            .map(|default| words(default.word)),
    }
}

/// The standard's specs: kinds and definitions.
fn standard_specs() -> Vec<(String, Vec<Written>)> {
    let specs = tree::file(STANDARD).specs;
    let one = |spec: &tree::Spec| {
        let definitions = spec.definitions.iter().map(written).collect();
        (KINDS[spec.kind].to_string(), definitions)
    };
    specs.iter().map(one).collect()
}

fn is_reference(word: &str) -> bool {
    word.ends_with("_TYPE")
}

fn is_integer(word: &str) -> bool {
    ["UINT32", "INT32", "UINT64", "INT64"].contains(&word)
}

const RANGES: &[&str] = &[
    "[1, 2]",
    "[2, 1]",
    "[1..2]",
    "[1]",
    "[2]",
    "[1, 1]",
    "[2..2]",
    "[1, 2, 1]",
    "[0x1, +2]",
    "[0..2]",
    "[1..3]",
    "[1, 2, 3]",
    "[0]",
    "[3, 1]",
    "[1, 3]",
    "[0..0xffffffff]",
    "[2..3]",
];

const WORDS: &[&str] = &[
    "UINT32",
    "INT32",
    "UINT64",
    "INT64",
    "STRING",
    "BOOLEAN",
    "ENUM",
    "FLOAT",
    "TASK_TYPE",
    "EVENT_TYPE",
    "RESOURCE_TYPE",
    "APPMODE_TYPE",
    "OS_TYPE",
    "MESSAGE_TYPE",
];

fn extra_list(random: &mut Random, word: &str) -> Span {
    let under = |random: &mut Random| match random.once_in(3) {
        true => vec![plain("UINT32", "Inner", Some("3"))],
        false => Vec::new(),
    };
    match word {
        "BOOLEAN" => Span::Choices(vec![
            ("TRUE".into(), under(random)),
            ("FALSE".into(), under(random)),
        ]),
        _ => Span::Choices(vec![
            ("OWN_A".into(), under(random)),
            ("OWN_B".into(), vec![]),
        ]),
    }
}

fn plain(word: &str, name: &str, default: Option<&str>) -> Written {
    Written {
        word: word.into(),
        with_auto: false,
        range: Span::Nothing,
        name: name.into(),
        is_list: false,
        default: default.map(str::to_string),
    }
}

/// A default that the attribute may take.
fn a_default(random: &mut Random, definition: &Written) -> String {
    if random.once_in(4) {
        return "NO_DEFAULT".into();
    }
    if definition.with_auto && random.once_in(2) {
        return "AUTO".into();
    }
    match (&definition.word[..], &definition.range) {
        (_, Span::Choices(choices)) => choices[random.below(choices.len())].0.clone(),
        ("BOOLEAN", _) => random.pick(&["TRUE", "FALSE"]).into(),
        ("STRING", _) => "\"s\"".into(),
        ("FLOAT", _) => "1.5".into(),
        _ => random.pick(&["1", "2"]).into(),
    }
}

/// One change of an attribute.
fn change(random: &mut Random, definition: &mut Written) {
    match random.below(9) {
        0 => definition.name.push('X'),
        1 => {
            definition.word = WORDS[random.below(WORDS.len())].into();
            definition.with_auto = false;
            definition.default = None;
            definition.range = match &definition.word[..] {
                "ENUM" => extra_list(random, "ENUM"),
                _ => Span::Nothing,
            };
        }
        2 => definition.is_list = !definition.is_list,
        3 if !is_reference(&definition.word) => definition.with_auto = !definition.with_auto,
        4 if !is_reference(&definition.word) => {
            definition.default = Some(a_default(random, definition));
        }
        5 if is_integer(&definition.word) => {
            definition.range = match random.once_in(5) {
                true => Span::Nothing,
                false => Span::Numbers(RANGES[random.below(RANGES.len())].into()),
            };
        }
        5 | 6 if definition.word == "BOOLEAN" => {
            definition.range = match definition.range {
                Span::Nothing => extra_list(random, "BOOLEAN"),
                _ => Span::Nothing,
            };
        }
        _ => change_list(random, definition),
    }
}

fn change_list(random: &mut Random, definition: &mut Written) {
    let is_enum = definition.word == "ENUM";
    let Span::Choices(choices) = &mut definition.range else {
        definition.default = None;
        return;
    };
    let place = random.below(choices.len());
    match random.below(5) {
        0 if is_enum && choices.len() > 1 => drop(choices.remove(place)),
        1 if is_enum => choices.insert(place, (format!("OWN{place}"), Vec::new())),
        2 if is_enum => choices[place].0.push('2'),
        3 => choices[place].1.clear(),
        _ => {
            let under = &mut choices[place].1;
            match under.is_empty() {
                true => under.push(plain("BOOLEAN", "OwnUnder", Some("TRUE"))),
                false => {
                    let at = random.below(under.len());
                    match random.once_in(3) {
                        true => drop(under.remove(at)),
                        false => change(random, &mut under[at]),
                    }
                }
            }
        }
    }
}

/// One change of an attribute under a value of another.
fn change_under(random: &mut Random, specs: &mut [(String, Vec<Written>)]) {
    let mut all: Vec<&mut Vec<Written>> = Vec::new();
    for (_, definitions) in specs {
        for definition in definitions {
            if let Span::Choices(choices) = &mut definition.range {
                let under = choices.iter_mut().map(|choice| &mut choice.1);
                all.extend(under.filter(|under| !under.is_empty()));
            }
        }
    }
    if all.is_empty() {
        return;
    }
    let scope = random.below(all.len());
    let under = &mut all[scope];
    let at = random.below(under.len());
    match random.once_in(3) {
        true => drop(under.remove(at)),
        false => change(random, &mut under[at]),
    }
}

/// A statement for an attribute that must be stated.
fn statement(definition: &Written) -> String {
    let is_given = matches!(&definition.default, Some(default) if default != "NO_DEFAULT");
    if is_given || definition.is_list {
        return String::new();
    }
    let value = match (&definition.word[..], &definition.range) {
        (_, Span::Choices(choices)) => {
            let (word, under) = &choices[choices.len() - 1];
            let inside: String = under.iter().map(statement).collect();
            match inside.is_empty() {
                true => word.clone(),
                false => format!("{word} {{{inside} }}"),
            }
        }
        ("BOOLEAN", _) => "FALSE".into(),
        ("STRING", _) => "\"x\"".into(),
        ("FLOAT", _) => "2.5".into(),
        ("OS_TYPE", _) => "o".into(),
        ("APPMODE_TYPE", _) => "a".into(),
        ("TASK_TYPE", _) => "t".into(),
        (_, Span::Numbers(range)) if !range.contains('1') || range.contains('x') => "2".into(),
        _ => "1".into(),
    };
    format!(" {} = {value};", definition.name)
}

fn gap(random: &mut Random) -> &'static str {
    random.pick(&[" ", "\n", "\t", " /* TRUE { */ ", " // OS\n"])
}

fn definition_text(random: &mut Random, definition: &Written) -> String {
    let mut text = definition.word.clone();
    if definition.with_auto {
        text.push_str(" WITH_AUTO");
    }
    text.push_str(gap(random));
    match &definition.range {
        Span::Nothing => {}
        Span::Numbers(numbers) => text.push_str(&format!("{numbers} ")),
        Span::Choices(choices) => {
            let mut parts = Vec::new();
            for (word, under) in choices {
                let inside: Vec<String> = under
                    .iter()
                    .map(|definition| definition_text(random, definition))
                    .collect();
                let braces = match inside.is_empty() && random.once_in(2) {
                    true => String::new(),
                    false => format!(" {{{} }}", inside.concat()),
                };
                let told = if random.once_in(6) { " : \"d\"" } else { "" };
                parts.push(format!("{word}{braces}{told}"));
            }
            text.push_str(&format!("[{}]{}", parts.join(","), gap(random)));
        }
    }
    text.push_str(&definition.name);
    if definition.is_list {
        text.push_str("[]");
    }
    if let Some(default) = &definition.default {
        text.push_str(&format!(" = {default}"));
    }
    text + ";" + gap(random)
}

fn shuffle<T>(random: &mut Random, all: &mut [T]) {
    for place in (1..all.len()).rev() {
        let other = random.from_to(0, place);
        all.swap(place, other);
    }
}

/// A text whose implementation is the standard's with so many changes.
pub fn text(random: &mut Random, changes: usize) -> Vec<u8> {
    let mut specs = standard_specs();
    for _ in 0..changes {
        let kinds = specs.len();
        match random.below(12) {
            0 if kinds > 1 => drop(specs.remove(random.below(kinds))),
            1 => specs[random.below(kinds)]
                .1
                .push(plain("UINT32", "Own", Some("7"))),
            2..=4 => change_under(random, &mut specs),
            choice => {
                let definitions = &mut specs[random.below(kinds)].1;
                if !definitions.is_empty() {
                    let at = random.below(definitions.len());
                    match choice {
                        5 | 6 => drop(definitions.remove(at)),
                        _ => change(random, &mut definitions[at]),
                    }
                }
            }
        }
    }
    if random.once_in(3) {
        shuffle(random, &mut specs);
    }
    if random.once_in(3) {
        for (_, definitions) in &mut specs {
            shuffle(random, definitions);
        }
    }
    if random.once_in(4) {
        let kind = *random.pick(&[&"COM", &"MESSAGE", &"NM", &"IPDU"]);
        let place = random.below(specs.len() + 1);
        specs.insert(
            place,
            (kind.into(), vec![plain("UINT32", "PRIORITY", Some("1"))]),
        );
    }
    let of_kind = |kind: &str| -> String {
        let mut definitions = specs.iter().filter(|spec| spec.0 == kind);
        let spec = definitions.next();
        spec.map_or(String::new(), |spec| spec.1.iter().map(statement).collect())
    };
    let (os, appmode) = (of_kind("OS"), of_kind("APPMODE"));
    let mut text = format!(
        "OIL_VERSION = \"2.5\";{}IMPLEMENTATION{}m {{",
        gap(random),
        gap(random)
    );
    for (kind, definitions) in &specs {
        text.push_str(&format!("{}{kind} {{", gap(random)));
        for definition in definitions {
            text.push_str(&definition_text(random, definition));
        }
        text.push_str("};");
    }
    text.push_str(&format!(
        "\n}};\nCPU c {{ OS o {{{os} }}; APPMODE a {{{appmode} }}; }};\n"
    ));
    text.into_bytes()
}

// Heavy texts --------------------------------------------------------------------------------

/// The objects that a text with the standard's own definitions needs.
pub const OBJECTS: &str = "OS o { STATUS = STANDARD; STARTUPHOOK = TRUE; ERRORHOOK = TRUE; \
    SHUTDOWNHOOK = TRUE; PRETASKHOOK = TRUE; POSTTASKHOOK = TRUE; USEGETSERVICEID = TRUE; \
    USEPARAMETERACCESS = TRUE; }; APPMODE a;";

/// A text that takes the call much work.
pub struct Heavy {
    pub name: &'static str,
    pub text: Vec<u8>,
}

/// The standard's text with more definitions and enumerators before it or after it, and
/// objects.
pub fn full_text(definitions: usize, enumerators: usize, is_before: bool) -> String {
    let standard = String::from_utf8(STANDARD.to_vec()).expect("a text of ASCII");
    let own: String = (0..definitions)
        .map(|own| format!("UINT32 Own{own} = 1;\n"))
        .collect();
    let words: Vec<String> = (0..enumerators).map(|word| format!("W{word}")).collect();
    let list = match enumerators {
        0 => String::new(),
        _ => format!("ENUM [{}] Own = W0;\n", words.join(",")),
    };
    let (front, back) = match is_before {
        true => (format!("{own}{list}"), String::new()),
        false => (String::new(), format!("{own}{list}")),
    };
    standard
        .replace("OS {\n", &format!("MESSAGE {{\n{front}}};\nOS {{\n"))
        .replace(
            "] RESOURCEPROPERTY;\n",
            &format!("] RESOURCEPROPERTY;\n{back}"),
        )
        .replace("CPU Any {\n", &format!("CPU Any {{ {OBJECTS}\n"))
}

pub fn heavy() -> Vec<Heavy> {
    let one = |name: &'static str, text: String| Heavy {
        name,
        text: text.into_bytes(),
    };
    vec![
        one("the standard", full_text(0, 0, false)),
        one(
            "475 definitions, 1,014 enumerators before",
            full_text(475, 1_014, true),
        ),
        one(
            "475 definitions, 1,014 enumerators behind",
            full_text(475, 1_014, false),
        ),
        one(
            "the same, nothing of the standard",
            full_text(475, 1_014, true)
                .replace("OOK;", "OOKS;")
                .replace("OOK =", "OOKS ="),
        ),
    ]
}
