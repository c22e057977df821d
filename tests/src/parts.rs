//! Texts of objects in parts (document 02, Q-2): parts of a few kinds and names in any order, with
//! statements that mostly fit, up to the limits of 256 objects and 512 parts.

use crate::answered;
use crate::families::{text_with_faults, Case, Known};
use crate::random::Random;
use std::collections::{HashMap, HashSet};

const SPECS: &str = "OS { BOOLEAN h = FALSE; UINT32 l[]; };
TASK { UINT32 [0..9] p = 1; UINT32 q; UINT32 l[] = 7;
  ENUM [A { UINT32 x; UINT32 m[]; }, B] e = B; TASK_TYPE r[]; };
EVENT { UINT64 WITH_AUTO q; EVENT_TYPE r; };
ALARM { ENUM [A { UINT32 x; }] e[]; BOOLEAN [TRUE { STRING s; }, FALSE] b = FALSE; };
COM { STRING s[]; UINT32 q; };
";

/// The kinds that parts are made of, and the single attributes that an object of it must state.
const KINDS: [(&str, &[&str]); 9] = [
    ("OS", &[]),
    ("APPMODE", &[]),
    ("TASK", &["q"]),
    ("TASK", &["q"]),
    ("EVENT", &["q", "r"]),
    ("ALARM", &[]),
    ("COM", &["q"]),
    ("NM", &[]),
    ("RESOURCE", &[]),
];

/// Statements for each kind, and the single attribute that each states.
const STATEMENTS: [(&str, &str, &str); 21] = [
    ("OS", "h", "h = TRUE;"),
    ("OS", "", "l = 0x10; l = +2;"),
    ("OS", "", "l = #;"),
    ("TASK", "p", "p = 9;"),
    ("TASK", "p", "p = 0 : \"last\";"),
    ("TASK", "q", "q = 4294967295;"),
    ("TASK", "", "l = #;"),
    ("TASK", "", "l = #; l = 1;"),
    ("TASK", "e", "e = A { x = 3; };"),
    ("TASK", "e", "e = A { m = #; x = 1; m = 2; };"),
    ("TASK", "e", "e = B;"),
    ("TASK", "", "r = @;"),
    ("EVENT", "q", "q = AUTO;"),
    ("EVENT", "q", "q = 1;"),
    ("EVENT", "r", "r = @;"),
    ("ALARM", "", "e = A { x = #; };"),
    ("ALARM", "b", "b = TRUE { s = \"\"; };"),
    ("ALARM", "b", "b = FALSE {};"),
    ("COM", "", "s = \"#\";"),
    ("COM", "q", "q = 5;"),
    ("COM", "", "s = \"\"; s = \"};\";"),
];

/// Statements that never fit.
const WRONG: [&str; 8] = [
    "y = 1;",
    "p = 10;",
    "q = -1;",
    "e = C { x = 1; };",
    "e = A;",
    "e = A { x = 1; x = 2; };",
    "r = nobody;",
    "l = \"1\";",
];

/// The text of a seed. Its answer is known where it was made together with the text.
pub fn parted(seed: u64) -> Case {
    // Of these faults the place depends on the parts, or the parts on them.
    const FAULTS: [u8; 6] = [14, 16, 17, 13, 15, 18];
    let fault = FAULTS[(seed / 4 % 6) as usize];
    let planted = match seed % 4 {
        0 => Some(Case {
            name: format!("seed {seed}"),
            text: answered::accepted(seed).text,
            known: Known::Accepted,
        }),
        1 => text_with_faults(seed, &[fault]),
        _ => None,
    };
    planted.unwrap_or_else(|| in_any_order(seed))
}

/// Parts of a few kinds and names in any order.
fn in_any_order(seed: u64) -> Case {
    let mut random = Random::new(seed);
    let (parts, names) = match random.below(40) {
        0 => (random.from_to(505, 520), random.from_to(1, 30)),
        1 => (random.from_to(390, 440), 400),
        _ => (random.below(24), random.from_to(1, 4)),
    };
    let mut maker = Maker {
        random,
        is_long: parts > 24,
        names,
        text: String::new(),
        stated: HashMap::new(),
    };
    maker.file(parts);
    Case {
        name: format!("parts, seed {seed}"),
        text: maker.text.into_bytes(),
        known: Known::Nothing,
    }
}

struct Maker {
    random: Random,
    /// Whether there are many parts: then only the limits are tried.
    is_long: bool,
    /// How many names there are for each kind.
    names: usize,
    text: String,
    /// The single attributes that each object states.
    stated: HashMap<(usize, String), HashSet<&'static str>>,
}

impl Maker {
    fn file(&mut self, parts: usize) {
        self.text = format!("OIL_VERSION = \"2.5\"; IMPLEMENTATION m {{ {SPECS} }}; CPU c {{\n");
        if !self.random.once_in(30) {
            self.text.push_str("OS os0;\n");
            self.stated.insert((0, "os0".into()), HashSet::new());
        }
        if !self.random.once_in(30) {
            self.text.push_str("APPMODE a {};\n");
        }
        for _ in 0..parts {
            let kind = self.random.below(KINDS.len());
            let name = self.name(kind);
            let count = self.random.below(4);
            self.part(kind, name, count);
        }
        // What must be stated is stated in a last part, but for now and then.
        let mut objects: Vec<(usize, String)> = self.stated.keys().cloned().collect();
        objects.sort();
        for (kind, name) in objects {
            if !self.random.once_in(60) {
                self.last_part(kind, name);
            }
        }
        self.text.push_str("};");
    }

    /// A name for the kind; of the kinds of which there may be one object mostly the same.
    fn name(&mut self, kind: usize) -> String {
        let word = KINDS[kind].0;
        let most = match word {
            "OS" | "COM" | "NM" if self.is_long || !self.random.once_in(60) => 1,
            _ => self.names,
        };
        let number = self.random.below(most);
        // Now and then another kind's name.
        let of = match !self.is_long && self.random.once_in(300) {
            true => KINDS[self.random.below(KINDS.len())].0,
            false => word,
        };
        format!("{}{number}", of.to_lowercase())
    }

    fn part(&mut self, kind: usize, name: String, count: usize) {
        let word = KINDS[kind].0;
        self.text.push_str(&format!("{word} {name}"));
        let of_kind: Vec<_> = STATEMENTS.iter().filter(|one| one.0 == word).collect();
        let key = (kind_of(kind), name);
        self.stated.entry(key.clone()).or_default();
        if count == 0 && self.random.once_in(2) {
            self.text.push_str(";\n");
            return;
        }
        self.text.push_str(" {");
        for _ in 0..count.min(of_kind.len()) {
            let (_, attribute, statement) = of_kind[self.random.below(of_kind.len())];
            if self.random.once_in(300) {
                let wrong = self.random.pick(&WRONG);
                self.text.push_str(wrong);
            }
            self.statement(&key, attribute, statement);
        }
        self.text.push_str("};\n");
    }

    /// A statement, not a second time for a single attribute but for now and then.
    fn statement(&mut self, key: &(usize, String), attribute: &'static str, statement: &str) {
        let stated = self.stated.get_mut(key).expect("a known object");
        let is_again = !attribute.is_empty() && !stated.insert(attribute);
        if is_again && !self.random.once_in(100) {
            return;
        }
        let number = self.random.below(100).to_string();
        let known: Vec<&String> = self
            .stated
            .keys()
            .filter(|one| one.0 == key.0)
            .map(|one| &one.1)
            .collect();
        let mut known: Vec<&str> = known.into_iter().map(String::as_str).collect();
        known.sort();
        let object = self.random.pick(&known);
        let statement = statement.replace('#', &number).replace('@', object);
        self.text.push_str(&format!(" {statement}"));
    }

    fn last_part(&mut self, kind: usize, name: String) {
        let (word, needed) = KINDS[kind];
        let key = (kind, name.clone());
        let is_missing = |attribute: &&&str| !self.stated[&key].contains(**attribute);
        let missing: Vec<&str> = needed.iter().filter(is_missing).copied().collect();
        if missing.is_empty() {
            return;
        }
        self.text.push_str(&format!("{word} {name} {{"));
        for attribute in missing {
            let value = if attribute == "r" { &name } else { "1" };
            self.text.push_str(&format!(" {attribute} = {value};"));
        }
        self.text.push_str(" };\n");
    }
}

/// The first of the alike entries of `KINDS`.
fn kind_of(kind: usize) -> usize {
    let alike = |other: &(&str, &[&str])| other.0 == KINDS[kind].0;
    KINDS.iter().position(alike).expect("the kind itself")
}
