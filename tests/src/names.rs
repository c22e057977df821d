//! Texts of names in several kinds (document 02, Q-5) with their answer: objects in parts, a few
//! names, mostly each in one kind, and references, which are found by kind and name.

use crate::families::Case;
use crate::meaning::Refusal;
use crate::random::Random;

const SPECS: &str = "TASK { EVENT_TYPE e[]; TASK_TYPE t[]; };
EVENT { TASK_TYPE t[]; }; COM { EVENT_TYPE e[]; };";

/// The kinds that parts are made of, and what each may refer to.
const KINDS: [(&str, &[(&str, &str)]); 8] = [
    ("TASK", &[("e", "EVENT"), ("t", "TASK")]),
    ("EVENT", &[("t", "TASK")]),
    ("RESOURCE", &[]),
    ("MESSAGE", &[]),
    ("APPMODE", &[]),
    ("COM", &[("e", "EVENT")]),
    ("NM", &[]),
    ("OS", &[]),
];

/// The names, among them those of the implementation and of the CPU, and words of the grammar.
const NAMES: [&str; 12] = [
    "meyer", "m", "c", "TASK", "EVENT", "x1", "x", "X", "_", "meyer_", "os", "am",
];

/// The text of a seed, and its answer as Q-5 says.
pub fn named(seed: u64) -> Case {
    let mut random = Random::new(seed);
    let parts = match random.below(40) {
        0 => random.from_to(500, 515),
        _ => random.below(30),
    };
    let mut maker = Maker {
        once_in: [usize::MAX, 100, 20, 3][random.below(4)],
        homes: (0..NAMES.len()).map(|_| random.below(6)).collect(),
        random,
        text: String::new(),
        parts: Vec::new(),
        references: Vec::new(),
    };
    maker.file(parts);
    let object_fault = maker.object_faults().into_iter().min();
    let fault = object_fault.or_else(|| maker.unknown_references().into_iter().min());
    let refusal = fault.map(|(place, number)| Refusal { number, place });
    Case {
        name: format!("names, seed {seed}"),
        text: maker.text.into_bytes(),
        known: refusal.into(),
    }
}

/// A part of an object, and where its kind and its name stand.
struct Part {
    kind: &'static str,
    name: &'static str,
    kind_place: usize,
    name_place: usize,
}

struct Maker {
    random: Random,
    text: String,
    /// A name is used for another kind once in so many parts.
    once_in: usize,
    /// The kind that each name is used for.
    homes: Vec<usize>,
    parts: Vec<Part>,
    /// Kind, name and place of each reference.
    references: Vec<(&'static str, &'static str, usize)>,
}

impl Maker {
    fn file(&mut self, parts: usize) {
        self.text = format!("OIL_VERSION = \"2.5\"; IMPLEMENTATION m {{ {SPECS} }}; CPU c {{ ");
        let [system, mode] = [0, 1].map(|_| self.random.below(parts + 1));
        for index in 0..=parts {
            if index == system {
                self.part("OS", "os", &[]);
            }
            if index == mode {
                self.part("APPMODE", "am", &[]);
            }
            if index < parts {
                self.any_part();
            }
        }
        self.text.push_str("};");
    }

    fn any_part(&mut self) {
        // The last two names are those of the OS and of the mode.
        let is_clash = self.once_in != usize::MAX && self.random.once_in(self.once_in);
        let name = self
            .random
            .below(NAMES.len() - if is_clash { 0 } else { 2 });
        let kind = match is_clash {
            true => self.random.below(KINDS.len()),
            false => self.homes[name],
        };
        let (kind, references) = KINDS[kind];
        let is_limited = ["COM", "NM", "OS"].contains(&kind);
        match is_limited && !is_clash {
            // One object of the kind, in parts.
            true => self.part(
                kind,
                if kind == "COM" { "x_com" } else { "x_nm" },
                references,
            ),
            false => self.part(kind, NAMES[name], references),
        }
    }

    fn part(
        &mut self,
        kind: &'static str,
        name: &'static str,
        references: &[(&'static str, &'static str)],
    ) {
        let kind_place = self.text.len();
        self.text.push_str(&format!("{kind} {name}"));
        self.parts.push(Part {
            kind,
            name,
            kind_place,
            name_place: self.text.len() - name.len(),
        });
        if self.random.once_in(2) {
            self.text.push_str(" {");
            for (attribute, of) in references {
                if self.random.once_in(3) {
                    self.text.push_str(&format!(" {attribute} = "));
                    let object = self.referred(of);
                    self.references.push((of, object, self.text.len()));
                    self.text.push_str(&format!("{object};"));
                }
            }
            self.text.push_str(" }");
        }
        self.text.push_str("; ");
    }

    /// A name to refer to, mostly one of the kind.
    fn referred(&mut self, kind: &str) -> &'static str {
        let of_kind = self.parts.iter().filter(|part| part.kind == kind);
        let names: Vec<&'static str> = of_kind.map(|part| part.name).collect();
        match names.is_empty() || self.random.once_in(60) {
            true => self.random.pick(&NAMES),
            false => self.random.pick(&names),
        }
    }

    /// Place and number of the faults of 11, 17 and 24.
    fn object_faults(&self) -> Vec<(usize, u8)> {
        let mut faults = Vec::new();
        for (index, part) in self.parts.iter().enumerate() {
            let before = &self.parts[..index];
            if index == 512 {
                faults.push((part.kind_place, 11));
            }
            let is_other = |other: &&Part| other.kind != part.kind && other.name == part.name;
            if before.iter().any(|other| is_other(&other)) {
                faults.push((part.name_place, 24));
            }
            let is_second = |other: &Part| other.kind == part.kind && other.name != part.name;
            let is_limited = ["OS", "COM", "NM"].contains(&part.kind);
            if is_limited && before.iter().any(is_second) {
                faults.push((part.kind_place, 17));
            }
        }
        faults
    }

    fn unknown_references(&self) -> Vec<(usize, u8)> {
        let is_unknown = |&&(kind, name, _): &&(&str, &str, usize)| {
            let mut parts = self.parts.iter();
            !parts.any(|part| (part.kind, part.name) == (kind, name))
        };
        let unknown = self.references.iter().filter(is_unknown);
        unknown.map(|&(_, _, place)| (place, 18)).collect()
    }
}
