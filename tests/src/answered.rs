//! Texts made together with what the rules say of them: accepted ones with their normal
//! text, and ones in which faults were planted, with the refusal that must come.

use crate::meaning::Refusal;
use crate::random::Random;
use crate::token::{KINDS, WORDS};
use crate::tree::Kind;
use std::collections::{HashMap, VecDeque};
use std::ops;

/// A text and its answer, known from how it was made: the normal text or the refusal.
pub struct Answered {
    pub text: Vec<u8>,
    pub answer: Result<Vec<u8>, Refusal>,
}

/// A text with nothing wrong in it.
pub fn accepted(seed: u64) -> Answered {
    let (answered, _) = make(seed, Plan::default());
    answered
}

/// The text of the same seed with faults of these numbers planted in it. There is none where
/// it has no site for one of them.
pub fn with_faults(seed: u64, numbers: &[u8]) -> Option<Answered> {
    let (_, sites) = make(seed, Plan::default());
    let random = &mut Random::new(!seed);
    let mut wanted = Vec::new();
    for &number in numbers {
        let sites = sites[number as usize];
        if sites == 0 {
            return None;
        }
        wanted.push((number, random.below(sites)));
    }
    let plan = Plan {
        wanted,
        ..Plan::default()
    };
    let (answered, _) = make(seed, plan);
    // After the first fault the sites may be others, so that a later one is not met.
    answered.answer.is_err().then_some(answered)
}

/// The seeds whose texts have mostly FLOATs as attributes: one in four.
pub fn float_seed(number: u64) -> u64 {
    4 * number + 3
}

/// Makes the text of a seed; also counts the sites at which each number may be planted.
fn make(seed: u64, plan: Plan) -> (Answered, [usize; NUMBERS]) {
    let mut maker = Maker {
        random: Random::new(seed),
        mostly_floats: seed % 4 == 3,
        plan,
        text: Vec::new(),
        objects: Vec::new(),
    };
    let answered = maker.file();
    (answered, maker.plan.sites)
}

/// Which faults are to be planted, at which of their sites, and which were.
#[derive(Default)]
struct Plan {
    wanted: Vec<(u8, usize)>,
    sites: [usize; NUMBERS],
    planted: Vec<Refusal>,
}

/// One more than the greatest number of a refusal.
const NUMBERS: usize = 25;

/// The stage that a refusal's number belongs to.
pub fn stage_of(number: u8) -> u8 {
    match number {
        3..=5 => 0,
        6..=9 | 21..=23 => 1,
        11 | 17 | 24 => 2,
        _ => 3,
    }
}

/// An attribute or reference of the implementation that is being made.
struct Attribute {
    name: &'static str,
    type_word: &'static str,
    domain: Domain,
    with_auto: bool,
    is_list: bool,
    default: Preset,
}

enum Domain {
    Integer {
        bounds: (i128, i128),
        range: Range,
    },
    /// Whole numbers of a unit, which is a power of ten; the ends of the range where there is one.
    Float {
        unit: i32,
        range: Option<(i128, i128)>,
    },
    String,
    /// The values of a BOOLEAN or ENUM with what is under them, and whether they are written.
    Choices(Vec<(&'static str, Vec<Attribute>)>, bool),
    Reference(Kind),
}

enum Range {
    Nothing,
    Between(i128, i128),
    Listed(Vec<i128>),
}

enum Preset {
    Nothing,
    NoDefault,
    Given(Given),
}

/// A value that fits its attribute.
#[derive(Clone)]
enum Given {
    Number(i128),
    /// The word, which the normal text keeps.
    Float(Vec<u8>),
    String(Vec<u8>),
    /// A BOOLEAN's or ENUM's value by its index.
    Choice(usize),
    Auto,
    Object(&'static str),
}

/// A statement that is to be made.
struct Entry<'m> {
    attribute: &'m Attribute,
    value: Given,
    inside: Vec<Entry<'m>>,
}

/// An object that is written part by part.
struct Whole<'m> {
    kind: Kind,
    name: &'static str,
    scope: &'m [Attribute],
    entries: Vec<Entry<'m>>,
    /// How many entries there are through each part that is left.
    ends: VecDeque<usize>,
    /// The first entry of the next part.
    next: usize,
    /// The place of the first part's name.
    first_name: Option<usize>,
    stated: Vec<&'m Attribute>,
}

/// The statements that belong to a scope, and the place of their owner, which is stated.
struct Block<'m, 'e> {
    scope: &'m [Attribute],
    entries: &'e [Entry<'m>],
    owner: usize,
}

const TYPES: [&str; 9] = [
    "UINT32",
    "INT32",
    "UINT64",
    "INT64",
    "FLOAT",
    "STRING",
    "BOOLEAN",
    "ENUM",
    "reference",
];

const REFERENCE_TYPES: [&str; 13] = *WORDS.split_at(21).1.first_chunk().unwrap();

/// The greatest number of a float's units: 17 digits, so that the next one has 18 at most.
const MOST_UNITS: i128 = 99_999_999_999_999_999;

/// Floats that are none, each refused at its first byte.
const NO_FLOATS: [&str; 12] = [
    "1.5x",
    "1.5e",
    "-1.5E+",
    "1.5e+5e+6",
    "1.5ee+5",
    "1.0e65",
    "1.0e-65",
    "-1.0E+0065",
    "1234567890.123456789",
    "0000000000000000000.0",
    "0x1.5",
    "1a.5",
];

const LEAST_NUMBER: i128 = i64::MIN as i128;
const GREATEST_NUMBER: i128 = u64::MAX as i128;

fn bounds_of(type_word: &str) -> (i128, i128) {
    match type_word {
        "UINT32" => (0, 4_294_967_295),
        "INT32" => (-2_147_483_648, 2_147_483_647),
        "UINT64" => (0, GREATEST_NUMBER),
        "INT64" => (LEAST_NUMBER, 9_223_372_036_854_775_807),
        _ => panic!("no integer type"),
    }
}

impl Attribute {
    /// What is under a value.
    fn under(&self, value: &Given) -> &[Attribute] {
        match (&self.domain, value) {
            (Domain::Choices(choices, _), Given::Choice(index)) => &choices[*index].1,
            _ => &[],
        }
    }

    /// Whether something is amiss where the attribute is not stated.
    fn must_be_stated(&self) -> bool {
        match &self.default {
            Preset::Given(value) => self.under(value).iter().any(Attribute::must_be_stated),
            _ => !self.is_list,
        }
    }
}

struct Maker {
    random: Random,
    mostly_floats: bool,
    plan: Plan,
    text: Vec<u8>,
    /// The names of the objects of each kind.
    objects: Vec<Vec<&'static str>>,
}

impl Maker {
    /// Whether a fault of this number is to be planted here.
    fn plants(&mut self, number: u8) -> bool {
        let site = self.plan.sites[number as usize];
        self.plan.sites[number as usize] += 1;
        self.plan.wanted.contains(&(number, site))
    }

    fn planted(&mut self, number: u8, place: usize) {
        self.plan.planted.push(Refusal { number, place });
    }

    /// Some of the choices, each once, in random order.
    fn some(&mut self, choices: &[&'static str], count: usize) -> Vec<&'static str> {
        let mut all = choices.to_vec();
        self.shuffle(&mut all);
        all.truncate(count);
        all
    }

    fn shuffle<T>(&mut self, all: &mut [T]) {
        for index in (1..all.len()).rev() {
            all.swap(index, self.random.below(index + 1));
        }
    }

    // ---- what the text means ----

    /// The names of all objects, each in one kind: as many of each kind as may be.
    fn make_objects(&mut self) {
        const NAMES: [&str; 26] = [
            "o", "t1", "t2", "a", "TASK", "x", "NONE", "m", "c", "A", "B", "MASK", "EVENT", "CPU",
            "ON", "OFF", "y_1", "UINT32", "X", "_", "t", "t11", "T2", "SOME", "OS", "COM",
        ];
        let mut names = self.some(&NAMES, NAMES.len());
        for kind in KINDS {
            let count = match kind {
                "OS" => 1,
                "APPMODE" => self.random.from_to(1, 2),
                "COM" | "NM" => self.random.below(2),
                _ => self.random.below(3),
            };
            self.objects.push(names.split_off(names.len() - count));
        }
    }

    /// Attributes of different names. `types` holds the type words that the names have under
    /// other values of the same attribute.
    fn make_scope(
        &mut self,
        depth: usize,
        types: &mut HashMap<&'static str, &'static str>,
    ) -> Vec<Attribute> {
        const NAMES: [&str; 11] = [
            "A", "B", "MASK", "TASK", "EVENT", "x", "y_1", "UINT32", "PRIORITY", "CPU", "FLOAT",
        ];
        let count = self.random.below(if depth == 0 { 5 } else { 4 });
        let mut scope = Vec::new();
        for name in self.some(&NAMES, count) {
            let type_word = match types.get(name) {
                Some(type_word) => type_word,
                None => self.make_type(depth),
            };
            types.insert(name, type_word);
            scope.push(self.make_attribute(name, type_word, depth));
        }
        scope
    }

    fn make_type(&mut self, depth: usize) -> &'static str {
        if self.mostly_floats && !self.random.once_in(3) {
            return "FLOAT";
        }
        let simple = if depth < 3 { 0 } else { 2 };
        match TYPES[self.random.below(TYPES.len() - simple)] {
            "reference" => {
                let there = |kind: &usize| !self.objects[*kind].is_empty();
                let kinds: Vec<usize> = (0..KINDS.len()).filter(there).collect();
                REFERENCE_TYPES[kinds[self.random.below(kinds.len())]]
            }
            type_word => type_word,
        }
    }

    fn make_attribute(
        &mut self,
        name: &'static str,
        type_word: &'static str,
        depth: usize,
    ) -> Attribute {
        let reference = REFERENCE_TYPES.iter().position(|word| *word == type_word);
        let domain = match (type_word, reference) {
            (_, Some(kind)) => Domain::Reference(kind),
            ("STRING", _) => Domain::String,
            ("FLOAT", _) => self.make_floats(),
            ("BOOLEAN", _) => {
                let listed = depth < 3 && self.random.once_in(2);
                let words = ["TRUE", "FALSE"];
                Domain::Choices(self.make_choices(&words, depth, listed), listed)
            }
            ("ENUM", _) => {
                const NAMES: [&str; 7] = ["NONE", "A", "B", "ON", "OFF", "TASK", "SOME"];
                let count = self.random.from_to(1, 3);
                let words = self.some(&NAMES, count);
                Domain::Choices(self.make_choices(&words, depth, depth < 3), true)
            }
            _ => {
                let bounds = bounds_of(type_word);
                let range = self.make_range(bounds);
                Domain::Integer { bounds, range }
            }
        };
        let mut attribute = Attribute {
            name,
            type_word,
            with_auto: reference.is_none() && self.random.once_in(3),
            is_list: self.random.once_in(3),
            default: Preset::Nothing,
            domain,
        };
        if reference.is_none() {
            attribute.default = match self.random.below(4) {
                0 => Preset::Nothing,
                1 => Preset::NoDefault,
                _ => Preset::Given(self.make_value(&attribute)),
            };
        }
        attribute
    }

    fn make_choices(
        &mut self,
        words: &[&'static str],
        depth: usize,
        hold: bool,
    ) -> Vec<(&'static str, Vec<Attribute>)> {
        let mut types = HashMap::new();
        let mut choices = Vec::new();
        for &word in words {
            let under = match hold && self.random.once_in(2) {
                true => self.make_scope(depth + 1, &mut types),
                false => Vec::new(),
            };
            choices.push((word, under));
        }
        choices
    }

    fn make_range(&mut self, (least, greatest): (i128, i128)) -> Range {
        let mut numbers: Vec<i128> = (0..self.random.from_to(1, 4))
            .map(|_| match self.random.below(4) {
                0 => least,
                1 => greatest,
                2 => self.random.below(10) as i128,
                _ => i128::from(self.random.number()).clamp(least, greatest),
            })
            .collect();
        match self.random.below(3) {
            0 => Range::Nothing,
            1 => Range::Listed(numbers),
            _ => {
                numbers.sort();
                Range::Between(numbers[0], numbers[numbers.len() - 1])
            }
        }
    }

    /// Units as small and as great as there may be, with a range that is often narrow.
    fn make_floats(&mut self) -> Domain {
        let unit = match self.random.below(4) {
            0 => -81,
            1 => 63,
            2 => -1,
            _ => self.random.below(145) as i32 - 81,
        };
        let first = self.make_units();
        let second = match self.random.below(3) {
            0 => first,
            1 => (first + self.random.below(4) as i128).min(MOST_UNITS),
            _ => self.make_units(),
        };
        let range = match self.random.once_in(3) {
            true => None,
            false => Some((first.min(second), first.max(second))),
        };
        Domain::Float { unit, range }
    }

    fn make_units(&mut self) -> i128 {
        let digits = 10u64.pow(self.random.below(18) as u32);
        let units = i128::from(self.random.number() % digits);
        match self.random.below(6) {
            0 => 0,
            1 => MOST_UNITS,
            2 => -MOST_UNITS,
            3 => -units,
            _ => units,
        }
    }

    /// One of the words for so many units: with zeros before and after it, the dot anywhere
    /// and the exponent that belongs to it.
    fn float_word(&mut self, units: i128, unit: i32) -> Vec<u8> {
        let mut digits = match units {
            0 => String::new(),
            _ => units.unsigned_abs().to_string(),
        };
        let mut power = unit;
        if self.random.once_in(2) {
            let zeros = self
                .random
                .below(19 - digits.len())
                .min((power + 81) as usize);
            digits += &"0".repeat(zeros);
            power -= zeros as i32;
        }
        let least = (-64 - power).max(1) as usize;
        let most = (64 - power).min(17) as usize;
        let after = match self.random.below(3) {
            0 => least,
            1 => most,
            _ => self.random.from_to(least, most),
        };
        let all = digits.len().max(after + 1);
        let all = match self.random.once_in(4) {
            true => self.random.from_to(all, 18),
            false => all,
        };
        let digits = format!("{digits:0>all$}");
        let (before, behind) = digits.split_at(all - after);
        let sign = match units.signum() {
            -1 => "-",
            0 => self.random.pick(&["", "", "+", "-"]),
            _ => self.random.pick(&["", "", "+"]),
        };
        let exponent = self.exponent_word(power + after as i32);
        format!("{sign}{before}.{behind}{exponent}").into_bytes()
    }

    fn exponent_word(&mut self, exponent: i32) -> String {
        if exponent == 0 && self.random.once_in(2) {
            return String::new();
        }
        let mark = self.random.pick(&["e", "E"]);
        let sign = match exponent.signum() {
            -1 => "-",
            0 => self.random.pick(&["", "+", "-"]),
            _ => self.random.pick(&["", "+"]),
        };
        let zeros = self
            .random
            .pick(&["", "", "", "0", "0000000000000000000000"]);
        format!("{mark}{sign}{zeros}{}", exponent.abs())
    }

    fn make_value(&mut self, attribute: &Attribute) -> Given {
        if attribute.with_auto && self.random.once_in(4) {
            return Given::Auto;
        }
        match &attribute.domain {
            Domain::Integer { bounds, range } => Given::Number(match range {
                Range::Listed(numbers) => numbers[self.random.below(numbers.len())],
                Range::Between(low, high) => self.number_between(*low, *high),
                Range::Nothing => self.number_between(bounds.0, bounds.1),
            }),
            Domain::Float { unit, range } => {
                let (low, high) = range.unwrap_or((-MOST_UNITS, MOST_UNITS));
                let units = self.number_between(low, high);
                Given::Float(self.float_word(units, *unit))
            }
            Domain::String => Given::String(self.make_string()),
            Domain::Choices(choices, _) => Given::Choice(self.random.below(choices.len())),
            Domain::Reference(kind) => {
                let names = &self.objects[*kind];
                Given::Object(names[self.random.below(names.len())])
            }
        }
    }

    /// A number from `low` to `high`, often an end of these.
    fn number_between(&mut self, low: i128, high: i128) -> i128 {
        match self.random.below(4) {
            0 => low,
            1 => high,
            2 => 0.clamp(low, high),
            _ => low + i128::from(self.random.number()) % (high - low + 1),
        }
    }

    fn make_string(&mut self) -> Vec<u8> {
        const PIECES: [&[u8]; 8] = [b"", b"a", b" b ", b"//", b"/*", b"\n", b"\xc3\x84", b"};"];
        let count = self.random.below(4);
        let pieces: Vec<&[u8]> = (0..count).map(|_| self.random.pick(&PIECES)).collect();
        [b"\"", &pieces.concat()[..], b"\""].concat()
    }

    /// Statements for a scope, in the order in which they are to stand in the text.
    fn make_entries<'m>(&mut self, scope: &'m [Attribute]) -> Vec<Entry<'m>> {
        let mut entries = Vec::new();
        for attribute in scope {
            let least = usize::from(attribute.must_be_stated());
            let most = if attribute.is_list { 3 } else { 1 };
            for _ in 0..self.random.from_to(least, most) {
                let value = self.make_value(attribute);
                let inside = self.make_entries(attribute.under(&value));
                entries.push(Entry {
                    attribute,
                    value,
                    inside,
                });
            }
        }
        self.shuffle(&mut entries);
        entries
    }

    // ---- the text ----

    /// Writes a token after random blanks, and returns its place.
    fn put(&mut self, token: impl AsRef<[u8]>) -> usize {
        let token = token.as_ref();
        const BETWEEN: [&str; 12] = [
            "", "", " ", " ", " ", "\n", "\n", "\r\n", "\t", "\x0c", "/* ; */", "//}\n",
        ];
        let run = |byte: &u8| byte.is_ascii_alphanumeric() || *byte == b'_';
        let touch = self.text.last().is_some_and(run) && run(&token[0]);
        let between = match self.random.pick(&BETWEEN) {
            "" if touch => " ",
            between => between,
        };
        self.text.extend(between.bytes());
        let place = self.text.len();
        self.text.extend(token);
        place
    }

    /// Writes tokens that stand separated by blanks.
    fn put_all(&mut self, tokens: &str) {
        for token in tokens.split(' ') {
            self.put(token);
        }
    }

    /// D and the semicolon.
    fn end(&mut self) {
        self.description();
        self.put(";");
    }

    fn description(&mut self) {
        if self.random.once_in(10) {
            self.put_all(": \"; }\"");
        }
    }

    fn file(&mut self) -> Answered {
        self.make_objects();
        let mut schemes: Vec<(Kind, Vec<Attribute>)> = Vec::new();
        for kind in 0..KINDS.len() {
            if self.random.once_in(2) {
                let scope = self.make_scope(0, &mut HashMap::new());
                schemes.push((kind, scope));
            }
        }
        self.shuffle(&mut schemes);

        self.version();
        let first = self.put("IMPLEMENTATION");
        self.put("m");
        self.put("{");
        for (kind, scope) in &schemes {
            self.spec(*kind, scope);
        }
        if !schemes.is_empty() && self.plants(8) {
            let (kind, _) = schemes[self.random.below(schemes.len())];
            let place = self.put(KINDS[kind]);
            self.planted(8, place);
            self.put_all("{ } ;");
        }
        self.put("}");
        self.end();
        let implementation = self.text[first..].to_vec();

        let lines = self.application(&schemes);
        let planted = self.plan.planted.iter();
        let order = |fault: &&Refusal| (stage_of(fault.number), fault.place, fault.number);
        let answer = match planted.min_by_key(order) {
            Some(fault) => Err(*fault),
            None => Ok([
                &b"OIL_VERSION = \"2.5\";\n"[..],
                &implementation,
                b"\nCPU c {\n",
                &lines,
                b"};\n",
            ]
            .concat()),
        };
        Answered {
            text: std::mem::take(&mut self.text),
            answer,
        }
    }

    fn version(&mut self) {
        self.put_all("OIL_VERSION =");
        if self.plants(6) {
            let version = self
                .random
                .pick(&["\"2.4\"", "\"2.5 \"", "\"\"", "\"2.50\"", "\"2,5\""]);
            let place = self.put(version);
            self.planted(6, place);
        } else {
            self.put("\"2.5\"");
        }
        self.end();
    }

    fn spec(&mut self, kind: Kind, scope: &[Attribute]) {
        self.put(KINDS[kind]);
        self.scope(scope, None);
        self.end();
    }

    /// Definitions in braces; `again` is a name and a type word that it has elsewhere.
    fn scope(&mut self, scope: &[Attribute], again: Option<(&str, &str)>) {
        self.put("{");
        for attribute in scope {
            self.definition(attribute);
        }
        if !scope.is_empty() && self.plants(8) {
            let name = scope[self.random.below(scope.len())].name;
            let type_word =
                self.random
                    .pick(&["UINT32", "STRING", "BOOLEAN", "FLOAT", "TASK_TYPE"]);
            self.put(type_word);
            let place = self.put(name);
            self.planted(8, place);
            self.end();
        }
        if let Some((name, type_word)) = again {
            let others = ["UINT32", "STRING", "TASK_TYPE", "INT64", "FLOAT"];
            let others: Vec<&str> = others
                .into_iter()
                .filter(|word| *word != type_word)
                .collect();
            let other = self.random.pick(&others);
            self.put(other);
            let place = self.put(name);
            self.planted(9, place);
            self.end();
        }
        self.put("}");
    }

    fn definition(&mut self, attribute: &Attribute) {
        self.put(attribute.type_word);
        if attribute.with_auto {
            self.put("WITH_AUTO");
        }
        match &attribute.domain {
            Domain::Integer { bounds, range } => self.range(*bounds, range),
            Domain::Float {
                unit,
                range: Some(range),
            } => self.float_range(*unit, *range),
            Domain::Choices(choices, true) => self.choices(attribute, choices),
            _ => (),
        }
        self.put(attribute.name);
        if attribute.is_list {
            self.put_all("[ ]");
        }
        self.default(attribute);
        self.end();
    }

    fn number(&mut self, number: i128) -> usize {
        let written = match self.random.below(6) {
            0 if number >= 0 => format!("0x{number:x}"),
            1 if number >= 0 => format!("0x00{number:X}"),
            2 if number >= 0 => format!("+{number}"),
            3 if number == 0 => "-0".to_string(),
            _ => number.to_string(),
        };
        self.put(written)
    }

    fn range(&mut self, (least, greatest): (i128, i128), range: &Range) {
        match range {
            Range::Nothing => return,
            Range::Listed(numbers) => {
                self.put("[");
                for (index, &number) in numbers.iter().enumerate() {
                    if index > 0 {
                        self.put(",");
                    }
                    self.number(number);
                }
                if self.plants(21) {
                    self.put(",");
                    let number = match least > LEAST_NUMBER {
                        true => least - 1,
                        false => greatest + 1,
                    };
                    let place = self.number(number);
                    self.planted(21, place);
                }
            }
            Range::Between(low, high) => {
                let (mut low, mut high) = (*low, *high);
                let low_below = least > LEAST_NUMBER && self.plants(21);
                let high_above = greatest < GREATEST_NUMBER && !low_below && self.plants(21);
                let crossed = low < high && !low_below && !high_above && self.plants(21);
                if low_below {
                    low = least - 1;
                }
                if high_above {
                    high = greatest + 1;
                }
                if crossed {
                    (low, high) = (high, low);
                }
                self.put("[");
                let low_place = self.number(low);
                self.put("..");
                let high_place = self.number(high);
                if low_below || crossed {
                    self.planted(21, low_place);
                }
                if high_above {
                    self.planted(21, high_place);
                }
            }
        }
        self.put("]");
    }

    fn float_range(&mut self, unit: i32, (mut low, mut high): (i128, i128)) {
        let crossed = low < high && self.plants(21);
        if crossed {
            (low, high) = (high, low);
        }
        self.put("[");
        let low_place = self.float_bound(low, unit);
        self.put("..");
        self.float_bound(high, unit);
        self.put("]");
        if crossed {
            self.planted(21, low_place);
        }
    }

    fn float_bound(&mut self, units: i128, unit: i32) -> usize {
        if self.plants(4) {
            let place = self.put("1");
            self.planted(4, place);
            return place;
        }
        let word = self.float_word(units, unit);
        self.float(&word)
    }

    /// Writes a float, or in its place what is none.
    fn float(&mut self, word: &[u8]) -> usize {
        if !self.plants(3) {
            return self.put(word);
        }
        let word = self.random.pick(&NO_FLOATS);
        let place = self.put(word);
        self.planted(3, place);
        place
    }

    fn choices(&mut self, attribute: &Attribute, choices: &[(&'static str, Vec<Attribute>)]) {
        self.put("[");
        for (index, (word, under)) in choices.iter().enumerate() {
            if index > 0 {
                self.put(",");
            }
            self.put(word);
            // A name from an earlier value that this one does not have.
            let earlier = choices[..index].iter().flat_map(|(_, under)| under);
            let mut earlier = earlier.filter(|one| under.iter().all(|here| here.name != one.name));
            let again = match earlier.next() {
                Some(one) if self.plants(9) => Some((one.name, one.type_word)),
                _ => None,
            };
            if !under.is_empty() || again.is_some() || self.random.once_in(5) {
                self.scope(under, again);
            }
            self.description();
        }
        if attribute.type_word == "ENUM" && self.plants(8) {
            self.put(",");
            let (word, _) = choices[self.random.below(choices.len())];
            let place = self.put(word);
            self.planted(8, place);
        }
        self.put("]");
    }

    fn default(&mut self, attribute: &Attribute) {
        if matches!(attribute.domain, Domain::Reference(_)) {
            return;
        }
        if let Some(other) = of_the_other_sort(attribute) {
            if self.plants(4) {
                self.put("=");
                let place = self.put(other);
                self.planted(4, place);
                return;
            }
        }
        if !attribute.with_auto && self.plants(23) {
            self.put("=");
            let place = self.put("AUTO");
            self.planted(23, place);
            return;
        }
        if self.outside_can_be_default(attribute) && self.plants(22) {
            self.put("=");
            let place = self.outside(attribute);
            self.planted(22, place);
            return;
        }
        match &attribute.default {
            Preset::Nothing => (),
            Preset::NoDefault => self.put_all("= NO_DEFAULT"),
            Preset::Given(value) => {
                self.put("=");
                self.value(attribute, value);
            }
        }
    }

    /// Whether there are values of the attribute's own form that are not inside.
    fn outside_can_be_default(&self, attribute: &Attribute) -> bool {
        let is_inside = matches!(attribute.domain, Domain::Float { range: None, .. });
        let forms = ["UINT32", "INT32", "UINT64", "INT64", "FLOAT", "ENUM"];
        forms.contains(&attribute.type_word) && !is_inside
    }

    /// Writes a number or float outside of type, range or list, or an enumerator of no or
    /// another list.
    fn outside(&mut self, attribute: &Attribute) -> usize {
        match &attribute.domain {
            Domain::Integer { bounds, range } => {
                let near: Vec<i128> = match range {
                    Range::Nothing => vec![bounds.0 - 1, bounds.1 + 1],
                    Range::Between(low, high) => vec![low - 1, high + 1],
                    Range::Listed(numbers) => {
                        let near = numbers.iter().flat_map(|number| [number - 1, number + 1]);
                        near.filter(|number| !numbers.contains(number)).collect()
                    }
                };
                let is_token = |number: &i128| (LEAST_NUMBER..=GREATEST_NUMBER).contains(number);
                let near: Vec<i128> = near.into_iter().filter(is_token).collect();
                let number = near[self.random.below(near.len())];
                self.number(number)
            }
            Domain::Float {
                unit,
                range: Some((low, high)),
            } => {
                let units = [low - 1, high + 1][self.random.below(2)];
                let word = self.float_word(units, *unit);
                self.put(word)
            }
            Domain::Choices(choices, _) => {
                let words = ["NONE", "A", "B", "a", "none", "SOMEE"];
                let known = |word: &&str| choices.iter().all(|(choice, _)| choice != word);
                let words: Vec<&str> = words.into_iter().filter(known).collect();
                let word = self.random.pick(&words);
                self.put(word)
            }
            _ => panic!("nothing is outside"),
        }
    }

    fn value(&mut self, attribute: &Attribute, value: &Given) -> usize {
        match value {
            Given::Number(number) => self.number(*number),
            Given::Float(word) => self.float(word),
            Given::Auto => self.put("AUTO"),
            _ => self.put(written(attribute, value)),
        }
    }

    /// The CPU; returns the lines of its objects in the normal text.
    fn application(&mut self, schemes: &[(Kind, Vec<Attribute>)]) -> Vec<u8> {
        self.put("CPU");
        let cpu_name = self.put("c");
        let mut objects: Vec<(Kind, &'static str)> = Vec::new();
        for kind in 0..KINDS.len() {
            if kind < 2 && self.plants(17) {
                self.planted(17, cpu_name);
            } else {
                objects.extend(self.objects[kind].iter().map(|name| (kind, *name)));
            }
        }
        self.shuffle(&mut objects);
        let (mut wholes, order) = self.divided(&objects, schemes);
        let mut lines = Vec::new();
        self.put("{");
        for index in order {
            let whole = &mut wholes[index];
            if whole.first_name.is_none() {
                lines.extend(format!("{} {} {{\n", KINDS[whole.kind], whole.name).bytes());
                write_lines(whole.scope, &whole.entries, &mut lines);
                lines.extend(b"};\n");
            }
            self.part(whole);
        }
        self.more_objects(&objects);
        self.put("}");
        self.end();
        lines
    }

    /// The objects with their statements, divided into parts, and the order in which their parts
    /// stand in the text.
    fn divided<'m>(
        &mut self,
        objects: &[(Kind, &'static str)],
        schemes: &'m [(Kind, Vec<Attribute>)],
    ) -> (Vec<Whole<'m>>, Vec<usize>) {
        let mut wholes = Vec::new();
        let mut order = Vec::new();
        for (index, &(kind, name)) in objects.iter().enumerate() {
            let scheme = schemes.iter().find(|(of, _)| *of == kind);
            let scope = scheme.map_or(&[][..], |(_, scope)| scope);
            let entries = self.make_entries(scope);
            let parts = match self.random.below(2) {
                0 => 1,
                _ => self.random.from_to(1, 4),
            };
            // Each part ends after an entry or before the first; the last has what is left.
            let mut ends: Vec<usize> = (1..parts)
                .map(|_| self.random.below(entries.len() + 1))
                .collect();
            ends.push(entries.len());
            ends.sort();
            order.extend(vec![index; parts]);
            wholes.push(Whole {
                kind,
                name,
                scope,
                entries,
                ends: ends.into(),
                next: 0,
                first_name: None,
                stated: Vec::new(),
            });
        }
        self.shuffle(&mut order);
        (wholes, order)
    }

    /// The next part of an object.
    fn part(&mut self, whole: &mut Whole) {
        self.put(KINDS[whole.kind]);
        let place = self.put(whole.name);
        let owner = *whole.first_name.get_or_insert(place);
        let end = whole.ends.pop_front().expect("a part that is left");
        let entries = whole.next..end;
        whole.next = end;
        if !entries.is_empty() || self.random.once_in(2) {
            let block = Block {
                scope: whole.scope,
                entries: &whole.entries,
                owner,
            };
            self.block(&block, entries, &mut whole.stated);
        }
        self.end();
    }

    /// Objects that there may not be.
    fn more_objects(&mut self, objects: &[(Kind, &'static str)]) {
        for &(kind, name) in objects {
            if self.plants(24) {
                let mut others = ["TASK", "ISR", "EVENT", "IPDU"].into_iter();
                let other = others.find(|word| *word != KINDS[kind]);
                self.put(other.expect("another kind"));
                let place = self.put(name);
                self.end();
                self.planted(24, place);
            }
            if ["OS", "COM", "NM"].contains(&KINDS[kind]) && self.plants(17) {
                let place = self.put(KINDS[kind]);
                self.put("another");
                self.end();
                self.planted(17, place);
            }
        }
    }

    /// Some of the entries in braces, after those that are stated in earlier parts.
    fn block<'m>(
        &mut self,
        block: &Block<'m, '_>,
        entries: ops::Range<usize>,
        stated: &mut Vec<&'m Attribute>,
    ) {
        self.put("{");
        for entry in &block.entries[entries] {
            let is_same = |other: &&Entry| std::ptr::eq(other.attribute, entry.attribute);
            let only = block.entries.iter().filter(is_same).count() == 1;
            if only && entry.attribute.must_be_stated() && self.plants(16) {
                self.planted(16, block.owner);
                continue;
            }
            if self.plants(13) {
                self.undefined(block.scope);
            }
            self.statement(entry);
            stated.push(entry.attribute);
        }
        if !stated.is_empty() {
            let again = stated[self.random.below(stated.len())];
            if !again.is_list && self.plants(14) {
                let place = self.put(again.name);
                self.planted(14, place);
                self.put_all("= a { nothing = 1 ; } ;");
            }
        }
        if self.plants(13) {
            self.undefined(block.scope);
        }
        self.put("}");
    }

    /// A statement whose name the scope does not have.
    fn undefined(&mut self, scope: &[Attribute]) {
        let names = ["A", "B", "MASK", "x", "y_1", "a", "mask", "Undefined"];
        let unknown = |name: &&str| scope.iter().all(|attribute| attribute.name != *name);
        let names: Vec<&str> = names.into_iter().filter(unknown).collect();
        let name = self.random.pick(&names);
        let place = self.put(name);
        self.planted(13, place);
        let rest = self.random.pick(&[
            "= 1 ;",
            "= 1.5 ;",
            "= TRUE { A = 1 ; } ;",
            "= AUTO ;",
            "= \"\" ;",
        ]);
        self.put_all(rest);
    }

    fn statement(&mut self, entry: &Entry) {
        let attribute = entry.attribute;
        self.put(attribute.name);
        self.put("=");
        if self.plants(15) {
            let place = self.wrong_value(attribute);
            self.planted(15, place);
            self.end();
            return;
        }
        let is_reference = matches!(attribute.domain, Domain::Reference(_));
        if is_reference && self.plants(18) {
            let place = self.unknown_object(attribute);
            self.planted(18, place);
            self.end();
            return;
        }
        let place = self.value(attribute, &entry.value);
        if is_reference && self.plants(15) {
            let brace = self.put("{");
            self.planted(15, brace);
            self.put_all("A = 1 ; }");
        }
        let under = attribute.under(&entry.value);
        let needed = under.iter().any(Attribute::must_be_stated);
        let may_open = matches!(entry.value, Given::Choice(_));
        if needed && self.plants(16) {
            self.planted(16, place);
        } else if !entry.inside.is_empty() || (may_open && self.random.once_in(4)) {
            let block = Block {
                scope: under,
                entries: &entry.inside,
                owner: place,
            };
            self.block(&block, 0..entry.inside.len(), &mut Vec::new());
        }
        self.end();
    }

    /// Writes a value that the attribute may not have, with braces where the grammar has them.
    fn wrong_value(&mut self, attribute: &Attribute) -> usize {
        let outside = self.outside_can_be_default(attribute);
        if outside && self.random.once_in(2) {
            return self.outside(attribute);
        }
        if !attribute.with_auto && self.random.once_in(3) {
            return self.put("AUTO");
        }
        let is_other = |form: &&str| match (&attribute.domain, *form) {
            (Domain::Integer { .. }, "1") | (Domain::String, "\"2.5\"") => false,
            (Domain::Float { .. }, "1.5") => false,
            (Domain::Choices(..), "TRUE") => attribute.type_word != "BOOLEAN",
            (Domain::Choices(..), "name") => attribute.type_word != "ENUM",
            (Domain::Reference(_), "name") => false,
            _ => true,
        };
        let forms = ["1", "1.5", "\"2.5\"", "TRUE", "name"];
        let forms: Vec<&str> = forms.into_iter().filter(is_other).collect();
        let form = self.random.pick(&forms);
        let place = self.put(form);
        if ["TRUE", "name"].contains(&form) && self.random.once_in(2) {
            self.put_all("{ A = 1 ; A = 2 ; }");
        }
        place
    }

    /// Writes a name that no object of the reference's kind has.
    fn unknown_object(&mut self, attribute: &Attribute) -> usize {
        let Domain::Reference(kind) = attribute.domain else {
            panic!("a reference");
        };
        let names = ["o", "t1", "t2", "a", "TASK", "x", "NONE", "O", "T1"];
        let unknown = |name: &&str| !self.objects[kind].contains(name);
        let names: Vec<&str> = names.into_iter().filter(unknown).collect();
        let name = self.random.pick(&names);
        let place = self.put(name);
        if self.random.once_in(3) {
            self.put_all("{ A = 1 ; }");
        }
        place
    }
}

/// What is no number of an attribute of floats, but one of integers, or the other way round.
fn of_the_other_sort(attribute: &Attribute) -> Option<&'static str> {
    match attribute.domain {
        Domain::Integer { .. } => Some("1.0"),
        Domain::Float { .. } => Some("1"),
        _ => None,
    }
}

/// A value as the normal text writes it.
fn written(attribute: &Attribute, value: &Given) -> Vec<u8> {
    match (value, &attribute.domain) {
        (Given::Number(number), _) => number.to_string().into_bytes(),
        (Given::String(word) | Given::Float(word), _) => word.clone(),
        (Given::Choice(index), Domain::Choices(choices, _)) => choices[*index].0.into(),
        (Given::Object(name), _) => (*name).into(),
        _ => "AUTO".into(),
    }
}

/// The lines of the normal text for a scope and the statements that belong to it.
fn write_lines(scope: &[Attribute], entries: &[Entry], lines: &mut Vec<u8>) {
    for attribute in scope {
        let stated = |entry: &&Entry| std::ptr::eq(entry.attribute, attribute);
        let mut is_stated = false;
        for entry in entries.iter().filter(stated) {
            write_line(attribute, &entry.value, &entry.inside, lines);
            is_stated = true;
        }
        match &attribute.default {
            Preset::Given(value) if !is_stated => write_line(attribute, value, &[], lines),
            _ => (),
        }
    }
}

fn write_line(attribute: &Attribute, value: &Given, inside: &[Entry], lines: &mut Vec<u8>) {
    lines.extend(
        [
            attribute.name.as_bytes(),
            b" = ",
            &written(attribute, value),
        ]
        .concat(),
    );
    let mut under = Vec::new();
    write_lines(attribute.under(value), inside, &mut under);
    if !under.is_empty() {
        lines.extend([&b" {\n"[..], &under, b"}"].concat());
    }
    lines.extend(b";\n");
}
