//! Pairs of texts of which the second is like the first but for some choices: types, list marks,
//! defaults, enumerators, objects, their order and parts, statements and values.

use crate::random::Random;

/// A maker of texts: each choice has a name, and the same name gives the same choice, but for
/// those that differ.
struct Maker {
    seed: u64,
    other: u64,
    /// One choice in so many differs; 0 for none.
    rate: u64,
}

const KINDS: [&str; 5] = ["TASK", "EVENT", "MESSAGE", "OS", "APPMODE"];

/// Two texts.
pub fn pair(seed: u64) -> [Vec<u8>; 2] {
    let mut random = Random::new(seed);
    let own = random.number();
    let other = random.number();
    let rate = [3, 10, 40, 200, 0][random.below(5)];
    let make = |rate| {
        Maker {
            seed: own,
            other,
            rate,
        }
        .text()
        .into_bytes()
    };
    let texts = [make(0), make(rate)];
    if random.once_in(2) {
        let [first, second] = texts;
        return [second, first];
    }
    texts
}

impl Maker {
    fn below(&self, name: &str, end: usize) -> usize {
        let mut sum = 0xcbf2_9ce4_8422_2325_u64;
        for byte in name.bytes() {
            sum = (sum ^ u64::from(byte)).wrapping_mul(0x100_0000_01b3);
        }
        let number = |seed: u64| Random::new(seed ^ sum).number();
        let differs = self.rate != 0 && number(self.other) % self.rate == 0;
        let chosen = if differs {
            number(self.other.wrapping_add(1))
        } else {
            number(self.seed)
        };
        (chosen % end as u64) as usize
    }

    fn text(&self) -> String {
        let mut text = String::from("OIL_VERSION = \"2.5\";\nIMPLEMENTATION m {\n");
        for kind in KINDS {
            if self.is_specified(kind) {
                text += &format!("{kind} {{ {} }};\n", self.definitions(kind, 0));
            }
        }
        text += "};\nCPU c {\nOS o;\nAPPMODE a;\n";
        let mut objects = self.objects();
        if !objects.is_empty() {
            let first = self.below("order", objects.len());
            objects.rotate_left(first);
        }
        for (kind, name) in &objects {
            let parts = 1 + self.below(&format!("{name} parts"), 8) / 7;
            for part in 0..parts {
                let owner = format!("{name} {part}");
                let body = if self.is_specified(kind) {
                    self.statements(kind, &owner, 0, part == 0)
                } else {
                    String::new()
                };
                text += &format!("{kind} {name} {{ {body} }};\n");
            }
        }
        text + "};\n"
    }

    fn is_specified(&self, kind: &str) -> bool {
        self.below(&format!("{kind}?"), 6) != 0
    }

    fn objects(&self) -> Vec<(&'static str, String)> {
        let many = self.below("objects", 9);
        (0..many)
            .map(|i| (KINDS[self.below(&format!("kind {i}"), 3)], format!("x{i}")))
            .collect()
    }

    fn definitions(&self, scope: &str, depth: usize) -> String {
        let many = self.below(&format!("{scope}#"), 6 - depth);
        (0..many)
            .map(|i| self.definition(&format!("{scope}.{i}"), i, depth))
            .collect::<Vec<_>>()
            .join(" ")
    }

    fn name(&self, place: &str, i: usize) -> String {
        format!(
            "{}{i}",
            ["A", "b", "cc"][self.below(&format!("{place} name"), 3)]
        )
    }

    /// Under all values of an attribute the same, but now and then: else the text is refused by 9.
    fn sort(&self, place: &str) -> usize {
        if self.below(&format!("{place} own type"), 60) == 0 {
            return self.below(&format!("{place} type"), 9);
        }
        self.below(&format!("{} type", without_values(place)), 9)
    }

    fn kind(&self, place: &str) -> &'static str {
        KINDS[self.below(&format!("{} kind", without_values(place)), 3)]
    }

    /// A reference has no default, and so is mostly a list.
    fn is_list(&self, place: &str) -> bool {
        let chosen = self.below(&format!("{place} list"), 12);
        chosen < 4 || self.sort(place) >= 7 && chosen < 11
    }

    fn has_auto(&self, place: &str) -> bool {
        self.below(&format!("{place} auto"), 4) == 0
    }

    fn values(&self, place: &str, depth: usize) -> String {
        let under = |value: &str| {
            if depth < 3 && self.below(&format!("{place}={value}?"), 2) == 0 {
                format!(
                    " {{ {} }}",
                    self.definitions(&format!("{place}={value}"), depth + 1)
                )
            } else {
                String::new()
            }
        };
        match self.sort(place) {
            3 => format!("[TRUE{}, FALSE{}] ", under("TRUE"), under("FALSE")),
            _ => format!("[P{}, Q{}, R{}] ", under("P"), under("Q"), under("R")),
        }
    }

    fn definition(&self, place: &str, i: usize, depth: usize) -> String {
        let name = self.name(place, i);
        let mark = if self.is_list(place) { "[]" } else { "" };
        let auto = if self.has_auto(place) {
            "WITH_AUTO "
        } else {
            ""
        };
        let sort = self.sort(place);
        if sort >= 7 {
            let kind = self.kind(place);
            return format!("{kind}_TYPE {name}{mark};");
        }
        let default = match self.below(&format!("{place} default"), 4) {
            0 if self.is_list(place) || self.below(&format!("{place} none"), 20) == 0 => {
                String::new()
            }
            1 if self.has_auto(place) => " = AUTO".to_string(),
            _ => format!(" = {}", self.word(place, &format!("{place} word"))),
        };
        let [type_word, range] = match sort {
            0 => ["UINT32", ""].map(String::from),
            1 => ["INT64", ""].map(String::from),
            2 => ["STRING", ""].map(String::from),
            3 => ["BOOLEAN".to_string(), self.values(place, depth)],
            4 | 5 => ["ENUM".to_string(), self.values(place, depth)],
            _ => ["FLOAT", ""].map(String::from),
        };
        format!("{type_word} {auto}{range}{name}{mark}{default};")
    }

    /// A value's word for the attribute at `place`.
    fn word(&self, place: &str, choice: &str) -> String {
        let pick = |words: &[&str]| words[self.below(choice, words.len())].to_string();
        match self.sort(place) {
            0 => pick(&["0", "7", "0x10", "16", "4294967295"]),
            1 => pick(&["0", "-0", "-3", "+5", "-9223372036854775808"]),
            2 => pick(&["\"\"", "\"q\"", "\"a\tb\"", "\"7\""]),
            3 => pick(&["TRUE", "FALSE"]),
            4 | 5 => pick(&["P", "Q", "R"]),
            _ => pick(&["1.5", "1.50", "15.0e-1", "-0.0", "0.0", "2.5E3"]),
        }
    }

    /// In a further part of an object only entries of lists.
    fn statements(&self, scope: &str, owner: &str, depth: usize, first: bool) -> String {
        let many = self.below(&format!("{scope}#"), 6 - depth);
        let mut all = String::new();
        for i in 0..many {
            let place = format!("{scope}.{i}");
            let stated = self.below(&format!("{owner} {place} stated"), 3);
            let entries = match self.is_list(&place) {
                true => stated,
                false if first => stated.min(1),
                false => 0,
            };
            for entry in 0..entries {
                all += &self.statement(&place, &format!("{owner}/{entry}"), i, depth);
            }
        }
        all
    }

    fn statement(&self, place: &str, owner: &str, i: usize, depth: usize) -> String {
        let name = self.name(place, i);
        let choice = format!("{owner} {place} value");
        let sort = self.sort(place);
        if sort >= 7 {
            let kind = self.kind(place);
            let known: Vec<_> = self.objects().into_iter().filter(|x| x.0 == kind).collect();
            if known.is_empty() {
                return String::new();
            }
            return format!("{name} = {}; ", known[self.below(&choice, known.len())].1);
        }
        if self.has_auto(place) && self.below(&format!("{choice} auto"), 4) == 0 {
            return format!("{name} = AUTO; ");
        }
        let word = self.word(place, &choice);
        if matches!(sort, 3..=5) && depth < 3 && self.below(&format!("{place}={word}?"), 2) == 0 {
            let inner = self.statements(&format!("{place}={word}"), owner, depth + 1, true);
            return format!("{name} = {word} {{ {inner}}}; ");
        }
        format!("{name} = {word}; ")
    }
}

/// The place without the values on its way.
fn without_values(place: &str) -> String {
    place
        .split('.')
        .map(|step| step.split('=').next().expect("a step"))
        .collect::<Vec<_>>()
        .join(".")
}

// Pairs with a known number of differences ------------------------------------------------------

fn file(specs: &str, objects: &str) -> Vec<u8> {
    format!("OIL_VERSION=\"2.5\";IMPLEMENTATION m{{{specs}}};CPU c{{OS o;APPMODE a;{objects}}};")
        .into_bytes()
}

/// What `one` writes for each number below `count`.
fn each(count: usize, one: impl Fn(usize) -> String) -> String {
    (0..count).map(one).collect()
}

/// A number up to `most`, and what is left of `most`.
fn share(random: &mut Random, rest: &mut usize, most: usize) -> usize {
    let taken = random.from_to(0, most.min(*rest));
    *rest -= taken;
    taken
}

/// Two accepted texts with exactly so many differences, at most 1,700: objects that one has alone,
/// and entries of lists that differ, are missing or were added, some of them under a value.
pub fn with_differences(random: &mut Random, total: usize) -> [Vec<u8>; 2] {
    let mut rest = total;
    let only = [0, 1].map(|_| share(random, &mut rest, 60));
    let mut lists = Vec::new();
    for (name, values) in [
        ("x", ["1", "0x2"]),
        ("f", ["1.5", "15.1e-1"]),
        ("s", ["\"a\"", "\"A\""]),
        ("b", ["TRUE", "FALSE"]),
        ("r", ["a", "a2"]),
        ("e", ["P", "Q"]),
    ] {
        let differ = share(random, &mut rest, 100);
        let same = random.below(20);
        let more = [0, 1][random.below(2)];
        let tail = share(random, &mut rest, 60);
        lists.push((name, values, same, differ, more, tail));
    }
    let last = rest / 2;
    lists.push((
        "y",
        ["7", "8"],
        random.below(3),
        last,
        random.below(2),
        rest - last,
    ));
    let text = |side: usize| {
        let mut body = String::new();
        for (name, values, same, differ, more, tail) in &lists {
            body += &format!("{name}={};", values[0]).repeat(*same);
            body += &format!("{name}={};", values[side]).repeat(*differ);
            if *more == side {
                body += &format!("{name}={};", values[0]).repeat(*tail);
            }
        }
        let alone = each(only[side], |number| format!("TASK o{side}{number};"));
        file(
            "TASK{UINT32 x[];FLOAT f[];STRING s[];BOOLEAN b[];APPMODE_TYPE r[];ENUM[P,Q]e[];UINT32 y[];};",
            &format!("APPMODE a2;{alone}TASK t{{{body}}};"),
        )
    };
    [text(0), text(1)]
}

// Pairs that take much work ---------------------------------------------------------------------

/// Two texts that take the comparison much work.
pub struct Heavy {
    pub name: &'static str,
    pub texts: [Vec<u8>; 2],
}

fn heavy_pair(name: &'static str, specs: &str, bodies: [String; 2]) -> Heavy {
    Heavy {
        name,
        texts: bodies.map(|body| file(specs, &body)),
    }
}

/// A name of so many bytes; names of one length differ in their last two bytes only.
fn long_name(length: usize, number: usize) -> String {
    const BYTES: &[u8; 63] = b"abcdefghijklmnopqrstuvwxyzABCDEFGHIJKLMNOPQRSTUVWXYZ0123456789_";
    let last = [BYTES[number / 63], BYTES[number % 63]].map(char::from);
    "n".repeat(length - 2) + &String::from_iter(last)
}

/// Texts at the limits of values, objects and definitions.
pub fn heavy() -> Vec<Heavy> {
    let mut all = heavy_lists();
    all.extend(heavy_names());
    all.extend(heavy_objects());
    all
}

/// Long lists, alone, in turn, and with a value under each entry.
fn heavy_lists() -> Vec<Heavy> {
    let list = |value: &str| format!("TASK t{{{}}};", format!("x={value};").repeat(2_048));
    let two = |first: &str, second: &str| {
        format!(
            "TASK t{{{}}};",
            format!("{first}=1;{second}=1;").repeat(1_024)
        )
    };
    let turns = |lists: usize, value: usize| {
        let body = each(2_048, |number| format!("d{}={value};", number % lists));
        format!("TASK t{{{body}}};")
    };
    let under = |value: &str| format!("TASK t{{{}}};", format!("e=P{{y={value};}};").repeat(1_024));
    let opened = |value: &str| {
        let inner = format!("y={value};").repeat(63);
        format!("TASK t{{{}}};", format!("e=P{{{inner}}};").repeat(32))
    };
    vec![
        heavy_pair(
            "2,048 equal entries of one list",
            "TASK{UINT32 x[];};",
            [list("1"), list("1")],
        ),
        heavy_pair(
            "2,048 entries of one list, all differ",
            "TASK{UINT32 x[];};",
            [list("1"), list("2")],
        ),
        Heavy {
            name: "1,024 entries of two lists each, in the other order",
            texts: [["x", "y"], ["y", "x"]].map(|[one, other]| {
                let specs = format!("TASK{{UINT32 {one}[];UINT32 {other}[];}};");
                file(&specs, &two(one, other))
            }),
        },
        heavy_pair(
            "2,048 entries of 32 lists in turn, all differ",
            &format!(
                "TASK{{{}}};",
                each(32, |number| format!("UINT32 d{number}[];"))
            ),
            [turns(32, 1), turns(32, 2)],
        ),
        heavy_pair(
            "2,048 entries of 500 lists in turn, all differ",
            &format!(
                "TASK{{{}}};",
                each(500, |number| format!("UINT32 d{number}[];"))
            ),
            [turns(500, 1), turns(500, 2)],
        ),
        heavy_pair(
            "1,024 entries with one value under each, all of these differ",
            "TASK{ENUM[P{UINT32 y;},Q]e[];};",
            [under("1"), under("2")],
        ),
        Heavy {
            name: "2,048 entries of one list, of another one in the second",
            texts: ["x", "y"].map(|name| {
                let body = format!("{name}=1;").repeat(2_048);
                file(
                    &format!("TASK{{UINT32 {name}[];}};"),
                    &format!("TASK t{{{body}}};"),
                )
            }),
        },
        Heavy {
            name: "2,048 entries of 32 lists, definitions in the other order",
            texts: [0, 31].map(|last| {
                let lists = each(32, |number| format!("UINT32 d{}[];", number ^ last));
                file(&format!("TASK{{{lists}}};"), &turns(32, 1))
            }),
        },
        Heavy {
            name: "1,024 entries with one value under each, of another name in the second",
            texts: ["y", "z"].map(|name| {
                let body = format!("e=P{{{name}=1;}};").repeat(1_024);
                file(
                    &format!("TASK{{ENUM[P{{UINT32 {name};}},Q]e[];}};"),
                    &format!("TASK t{{{body}}};"),
                )
            }),
        },
        heavy_pair(
            "32 entries with 63 under each, all of these differ",
            "TASK{ENUM[P{UINT32 y[];},Q]e[];};",
            [opened("1"), opened("2")],
        ),
    ]
}

/// Many names, in the other order, long, alike but for their last bytes.
fn heavy_names() -> Vec<Heavy> {
    let single = |number: usize| format!("UINT32 d{number}=1;");
    let reversed = |count: usize| each(count, |number| single(count - 1 - number));
    let one =
        |specs: String, body: &str| file(&format!("TASK{{{specs}}};"), &format!("TASK t;{body}"));
    let long = |number: usize| format!("UINT32 {}=1;", long_name(110, number));
    let lists = |number: usize| format!("UINT32 {}[];", long_name(40, number));
    let stated = |value: usize, step: usize| {
        let body = each(1_000, |number| {
            format!("{}={value};", long_name(40, number * step % 250))
        });
        format!("TASK t{{{body}}};")
    };
    let specs = format!("TASK{{{}}};", each(250, lists));
    vec![
        Heavy {
            name: "500 definitions in the other order",
            texts: [one(each(500, single), ""), one(reversed(500), "")],
        },
        Heavy {
            name: "500 definitions in the other order, of four objects",
            texts: [
                one(each(500, single), "TASK u;TASK v;TASK w;"),
                one(reversed(500), "TASK w;TASK v;TASK u;"),
            ],
        },
        Heavy {
            name: "500 names of 110 bytes, alike but for the last two",
            texts: [
                one(each(500, long), ""),
                one(each(500, |number| long(499 - number)), ""),
            ],
        },
        Heavy {
            name: "1,000 entries of 250 lists with names of 40 bytes, in another order",
            texts: [file(&specs, &stated(1, 1)), file(&specs, &stated(2, 249))],
        },
        Heavy {
            name: "500 attributes of other names in the second",
            texts: [
                one(
                    each(500, |number| format!("UINT32 a{number}=1;")),
                    "TASK u;TASK v;TASK w;",
                ),
                one(
                    each(500, |number| format!("UINT32 b{number}=1;")),
                    "TASK u;TASK v;TASK w;",
                ),
            ],
        },
    ]
}

/// Many objects, in the other order, and none alike.
fn heavy_objects() -> Vec<Heavy> {
    let eight = each(8, |number| format!("UINT32 d{number}=1;"));
    let specs = format!("TASK{{{eight}}};");
    let task = |name: String| format!("TASK {name};");
    vec![
        heavy_pair(
            "254 objects in the other order, eight values each",
            &specs,
            [
                each(254, |number| task(format!("t{number}"))),
                each(254, |number| task(format!("t{}", 253 - number))),
            ],
        ),
        heavy_pair(
            "254 objects in the other order, names of 200 bytes",
            "TASK{UINT32 x=1;};",
            [
                each(254, |number| task(long_name(200, number))),
                each(254, |number| task(long_name(200, 253 - number))),
            ],
        ),
        heavy_pair(
            "15 objects in the other order, 130 values each",
            &format!(
                "TASK{{{}}};",
                each(130, |number| format!("UINT32 d{number}=1;"))
            ),
            [
                each(15, |number| task(format!("t{number}"))),
                each(15, |number| task(format!("t{}", 14 - number))),
            ],
        ),
        heavy_pair(
            "254 objects each, none in both",
            &specs,
            [
                each(254, |number| task(format!("t{number}"))),
                each(254, |number| task(format!("u{number}"))),
            ],
        ),
    ]
}
