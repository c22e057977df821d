//! Texts of ranges and defaults (document 02, Q-1) with their answer: numbers at each bound, next
//! to it and one past it, in bounds, lists and defaults; enumerators that are not listed; AUTO
//! without WITH_AUTO.

use crate::families::Case;
use crate::meaning::Refusal;
use crate::random::Random;

const LEAST_NUMBER: i128 = i64::MIN as i128;
const GREATEST_NUMBER: i128 = u64::MAX as i128;

/// The integer types, and the least and the greatest number of each.
const INTEGERS: [(&str, i128, i128); 4] = [
    ("UINT32", 0, 4_294_967_295),
    ("INT32", -2_147_483_648, 2_147_483_647),
    ("UINT64", 0, GREATEST_NUMBER),
    ("INT64", LEAST_NUMBER, 9_223_372_036_854_775_807),
];

/// A range as numbers.
enum Range {
    Nothing,
    Between(i128, i128),
    Listed(Vec<i128>),
}

/// The text of a seed, and its answer as Q-1 says.
pub fn ranged(seed: u64) -> Case {
    let mut maker = Maker {
        random: Random::new(seed),
        text: String::new(),
        faults: Vec::new(),
        names: 0,
        once_in: 0,
        is_needed: false,
    };
    // No fault at all, few, or many.
    maker.once_in = [usize::MAX, 20, 8, 2][maker.random.below(4)];
    maker.file();
    let refusal = maker.faults.iter().min();
    let refusal = refusal.map(|&(place, number)| Refusal { number, place });
    Case {
        name: format!("ranges, seed {seed}"),
        text: maker.text.into_bytes(),
        known: refusal.into(),
    }
}

struct Maker {
    random: Random,
    text: String,
    /// Place and number of each fault.
    faults: Vec<(usize, u8)>,
    names: usize,
    /// A fault is made once in so many chances.
    once_in: usize,
    /// Whether an attribute of the kind must be stated.
    is_needed: bool,
}

impl Maker {
    /// Whether a fault is to be made here.
    fn at_fault(&mut self) -> bool {
        self.once_in != usize::MAX && self.random.once_in(self.once_in)
    }

    /// Writes a token after a blank; returns its place.
    fn put(&mut self, token: &str) -> usize {
        let blank = self.random.pick(&[" ", " ", "\n", "\t", " /* .. */ "]);
        self.text.push_str(blank);
        self.text.push_str(token);
        self.text.len() - token.len()
    }

    fn number(&mut self, number: i128) -> usize {
        let written = match self.random.below(5) {
            0 if number >= 0 => format!("0x{number:x}"),
            1 if number >= 0 => format!("+{number}"),
            _ => number.to_string(),
        };
        self.put(&written)
    }

    fn file(&mut self) {
        self.text
            .push_str("OIL_VERSION = \"2.5\"; IMPLEMENTATION m {");
        let mut objects = String::from("OS o; APPMODE a;");
        for kind in ["TASK", "ISR", "EVENT"] {
            self.put(kind);
            self.is_needed = false;
            let count = self.random.below(4);
            self.definitions(count, 0);
            self.put(";");
            // An object with all its values by default.
            if !self.is_needed {
                objects += &format!(" {kind} {}1;", kind.to_lowercase());
            }
        }
        self.put("}");
        self.text.push_str(&format!("; CPU c {{ {objects} }};"));
    }

    fn definitions(&mut self, count: usize, depth: usize) {
        self.put("{");
        for _ in 0..count {
            match self.random.below(8) {
                0..=4 => self.integer(),
                5 => self.choices("ENUM", depth),
                6 => self.choices("BOOLEAN", depth),
                _ => self.string(),
            }
        }
        self.put("}");
    }

    /// The type's word; whether WITH_AUTO stands after it.
    fn begin(&mut self, type_word: &str) -> bool {
        self.put(type_word);
        let with_auto = self.random.once_in(2);
        if with_auto {
            self.put("WITH_AUTO");
        }
        with_auto
    }

    /// A new name, and whether it is a list.
    fn name(&mut self) -> bool {
        self.names += 1;
        self.put(&format!("n{}", self.names));
        let is_list = self.random.once_in(4);
        if is_list {
            self.put("[ ]");
        }
        is_list
    }

    /// A default that is no value of the type's own form, or that there is one to write.
    fn default_is_other(&mut self, with_auto: bool, is_list: bool) -> bool {
        let is_auto = match with_auto {
            true => self.random.once_in(4),
            false => self.at_fault(),
        };
        if is_auto {
            self.put("=");
            let place = self.put("AUTO");
            if !with_auto {
                self.faults.push((place, 23));
            }
        } else if self.random.once_in(5) {
            self.is_needed |= !is_list;
            if self.random.once_in(2) {
                self.put("= NO_DEFAULT");
            }
        } else {
            self.put("=");
            return false;
        }
        true
    }

    fn integer(&mut self) {
        let (type_word, least, greatest) = INTEGERS[self.random.below(4)];
        let with_auto = self.begin(type_word);
        let range = self.range(least, greatest);
        let is_list = self.name();
        if !self.default_is_other(with_auto, is_list) {
            let inside = |number: i128| {
                let in_range = match &range {
                    Range::Nothing => true,
                    Range::Between(low, high) => (*low..=*high).contains(&number),
                    Range::Listed(numbers) => numbers.contains(&number),
                };
                (least..=greatest).contains(&number) && in_range
            };
            let mut near = near(&range, least, greatest);
            let is_fault = self.at_fault();
            // A range that is at fault may have nothing inside or outside of it.
            if near.iter().any(|number| inside(*number) != is_fault) {
                near.retain(|number| inside(*number) != is_fault);
            }
            let number = near[self.random.below(near.len())];
            let place = self.number(number);
            if !inside(number) {
                self.faults.push((place, 22));
            }
        }
        self.put(";");
    }

    /// A number at an end of the type or near it, outside where it is to be a fault.
    fn bound(&mut self, least: i128, greatest: i128) -> i128 {
        let is_fault = self.at_fault();
        let mut numbers: Vec<i128> = tokens(&[least, greatest, 0, 255, 65_536]);
        let is_inside = |number: &i128| (least..=greatest).contains(number) != is_fault;
        numbers.retain(is_inside);
        numbers[self.random.below(numbers.len())]
    }

    fn range(&mut self, least: i128, greatest: i128) -> Range {
        match self.random.below(4) {
            0 => Range::Nothing,
            1 => self.listed(least, greatest),
            _ => self.between(least, greatest),
        }
    }

    /// Writes a bound or listed number, which is at fault outside its type.
    fn inside_type(&mut self, number: i128, least: i128, greatest: i128) -> usize {
        let place = self.number(number);
        if !(least..=greatest).contains(&number) {
            self.faults.push((place, 21));
        }
        place
    }

    fn listed(&mut self, least: i128, greatest: i128) -> Range {
        let count = self.random.from_to(1, 4);
        let mut numbers = Vec::new();
        for index in 0..count {
            self.put(if index == 0 { "[" } else { "," });
            let number = self.bound(least, greatest);
            self.inside_type(number, least, greatest);
            numbers.push(number);
        }
        self.put("]");
        Range::Listed(numbers)
    }

    fn between(&mut self, least: i128, greatest: i128) -> Range {
        let (mut low, mut high) = (self.bound(least, greatest), self.bound(least, greatest));
        // Mostly in order; where they are not, often by one.
        if low > high && !self.at_fault() {
            (low, high) = (high, low);
        } else if low == high && low < greatest && self.at_fault() {
            low += 1;
        }
        self.put("[");
        let place = self.inside_type(low, least, greatest);
        self.put("..");
        self.inside_type(high, least, greatest);
        self.put("]");
        if low > high {
            self.faults.push((place, 21));
        }
        Range::Between(low, high)
    }

    /// ENUM, or BOOLEAN with or without its list.
    fn choices(&mut self, type_word: &str, depth: usize) {
        let is_enum = type_word == "ENUM";
        let with_auto = self.begin(type_word);
        let words: &[&str] = match is_enum {
            true => &["A", "B", "C", "AA"][..self.random.from_to(1, 4)],
            false => &["TRUE", "FALSE"],
        };
        if is_enum || self.random.once_in(2) {
            for (index, word) in words.iter().enumerate() {
                self.put(if index == 0 { "[" } else { "," });
                self.put(word);
                if depth < 2 && self.random.once_in(3) {
                    let count = self.random.below(3);
                    self.definitions(count, depth + 1);
                }
            }
            self.put("]");
        }
        let is_list = self.name();
        if !self.default_is_other(with_auto, is_list) {
            if is_enum && self.at_fault() {
                let unknown = self.random.pick(&["a", "AAA", "D", "A_", "n1", "ENUM"]);
                let place = self.put(unknown);
                self.faults.push((place, 22));
            } else {
                let word = self.random.pick(words);
                self.put(word);
            }
        }
        self.put(";");
    }

    fn string(&mut self) {
        let with_auto = self.begin("STRING");
        let is_list = self.name();
        if !self.default_is_other(with_auto, is_list) {
            self.put("\"AUTO\"");
        }
        self.put(";");
    }
}

/// Each number and those next to it, as far as they are tokens.
fn tokens(numbers: &[i128]) -> Vec<i128> {
    let near = numbers
        .iter()
        .flat_map(|number| [number - 1, *number, number + 1]);
    let is_token = |number: &i128| (LEAST_NUMBER..=GREATEST_NUMBER).contains(number);
    near.filter(is_token).collect()
}

/// Numbers at the ends of a range and of the type, and next to them.
fn near(range: &Range, least: i128, greatest: i128) -> Vec<i128> {
    let mut ends = vec![least, greatest];
    match range {
        Range::Nothing => (),
        Range::Between(low, high) => ends.extend([*low, *high]),
        Range::Listed(numbers) => ends.extend(numbers),
    }
    tokens(&ends)
}

/// One definition at every bound, next to it and one past it.
pub fn bounds() -> Vec<Case> {
    const TYPES: [&str; 6] = [
        "UINT32",
        "INT64 [1..2]",
        "STRING",
        "BOOLEAN",
        "BOOLEAN [TRUE, FALSE]",
        "ENUM [A]",
    ];
    let mut all = Vec::new();
    for (type_word, least, greatest) in INTEGERS {
        for number in tokens(&[least, greatest]) {
            let is_inside = (least..=greatest).contains(&number);
            all.extend(at_bound(type_word, number, is_inside));
        }
        all.extend(in_range(type_word, least, greatest));
    }
    for type_word in TYPES {
        all.push(one(&format!("{type_word} n = @AUTO;"), 23));
        all.push(one(&format!("{type_word} n[] = @AUTO;"), 23));
        let (word, range) = type_word.split_once(' ').unwrap_or((type_word, ""));
        all.push(one(&format!("{word} WITH_AUTO {range} n = AUTO;"), 0));
    }
    for (default, number) in [("A", 0), ("B", 0), ("C", 22), ("a", 22), ("AB", 22)] {
        all.push(one(&format!("ENUM [A, B] n = @{default};"), number));
    }
    all
}

/// A number at a bound of its type, next to it or one past it.
fn at_bound(type_word: &str, number: i128, is_inside: bool) -> Vec<Case> {
    let fault = |number: u8| if is_inside { 0 } else { number };
    let between = match number < 1 {
        true => format!("{type_word} [@{number}..1] n;"),
        false => format!("{type_word} [1..@{number}] n;"),
    };
    vec![
        one(&between, fault(21)),
        one(&format!("{type_word} [@{number}] n;"), fault(21)),
        one(&format!("{type_word} [1, @{number}, 2] n;"), fault(21)),
        one(&format!("{type_word} n = @{number};"), fault(22)),
        one(&format!("{type_word} n[] = @{number};"), fault(22)),
        // The default is at fault too, right of the bound.
        one(&format!("{type_word} [@{number}] n = {number};"), fault(21)),
    ]
}

/// Lows above their highs, and defaults at the ends of a range and among listed numbers.
fn in_range(type_word: &str, least: i128, greatest: i128) -> Vec<Case> {
    let mut all = Vec::new();
    for (low, high) in [(1, 0), (2, 1), (greatest, least), (greatest, greatest - 1)] {
        all.push(one(&format!("{type_word} [@{low}..{high}] n;"), 21));
        all.push(one(&format!("{type_word} [{high}..{low}] n;"), 0));
        all.push(one(&format!("{type_word} [{low}..{low}] n = {low};"), 0));
    }
    for (default, number) in [(9, 22), (10, 0), (11, 0), (20, 0), (21, 22)] {
        let definition = format!("{type_word} [10..20] n = @{default};");
        all.push(one(&definition, number));
    }
    for (default, number) in [(2, 22), (3, 0), (4, 22), (5, 0), (6, 22)] {
        let definition = format!("{type_word} WITH_AUTO [5, 3, 7] n = @{default};");
        all.push(one(&definition, number));
    }
    all
}

/// A text with one definition; where the number is not 0, it is refused by it at the `@`.
fn one(definition: &str, number: u8) -> Case {
    let text = format!(
        "OIL_VERSION = \"2.5\"; IMPLEMENTATION m {{ TASK {{ {definition} }}; }}; CPU c {{ OS o; APPMODE a; }};"
    );
    let place = text.find('@').filter(|_| number != 0);
    let refusal = place.map(|place| Refusal { number, place });
    Case {
        name: definition.to_string(),
        text: text.replacen('@', "", 1).into_bytes(),
        known: refusal.into(),
    }
}
