//! What stands in specs/ is there for a reader: each definition is reached from a contract in src/,
//! or from a statement of specs/ that proofs/ has, through the names in the definitions. What only
//! proofs need stands in proofs/.

use std::collections::{HashMap, HashSet};
use std::fs;
use std::path::{Path, PathBuf};

/// A definition: its crate, its file in specs/, its name.
type Definition = (String, String, String);

/// The definitions that no contract and no statement names, each with the reason why it stays.
const EXCEPTIONS: [(&str, &str, &str); 4] = [
    // The tables that a walk of a whole text begins with. Laws of `reading` about such a walk speak of
    // them, and so do those of `standard` and `causes`, which walk a text once more.
    ("reading", "Decisions", "blank"),
    // Document 01's program. No contract can speak of what a program writes; tests/tests/program.rs
    // runs it, and meaning's proofs/Limits computes examples.
    ("meaning", "Calls", "program"),
    ("meaning", "Calls", "line"),
    ("meaning", "Calls", "stated_rooms"),
];

/// The definitions of all specs/ with the words of each, and where a constructor is defined.
#[derive(Default)]
struct Specs {
    words: HashMap<Definition, HashSet<Definition>>,
    constructors: HashMap<Definition, Definition>,
    /// Those of type `Type 0`, without arguments: the statements that a law can have.
    closed: HashSet<Definition>,
}

fn words(line: &str) -> impl Iterator<Item = &str> {
    line.split(|c: char| c.is_whitespace() || "(){}[];,.λ".contains(c))
        .filter(|word| !word.is_empty())
}

fn without_comments(text: &str, mark: &str) -> String {
    let line = |line: &str| match line
        .match_indices(mark)
        .find(|(at, _)| line[..*at].ends_with(char::is_whitespace) || *at == 0)
    {
        Some((at, _)) => line[..at].to_string(),
        None => line.to_string(),
    };
    text.lines().map(line).collect::<Vec<_>>().join("\n")
}

/// The pieces of a name as they stand in a text: of `◌+◌` the `+`.
fn pieces(name: &str) -> Vec<String> {
    let inner = name
        .split('◌')
        .filter(|piece| !piece.is_empty())
        .map(str::to_string);
    let mut all = vec![name.to_string()];
    if name.contains('◌') {
        all.extend(inner);
    }
    all
}

/// What the `use` lines of a file bring in from specs/, by the names it has there.
fn imports(text: &str) -> HashMap<String, Definition> {
    let mut all = HashMap::new();
    for line in text.lines() {
        let Some(at) = line.find("use Rattle.") else {
            continue;
        };
        let Some((path, names)) = line[at + "use Rattle.".len()..].split_once(".{") else {
            continue;
        };
        let Some((of_crate, file)) = path.split_once(".specs.") else {
            continue;
        };
        for name in names.trim_end_matches([';', '}']).split(',') {
            let (name, local) = name.split_once(" as ").unwrap_or((name, name));
            let definition = (
                of_crate.to_string(),
                file.to_string(),
                name.trim().to_string(),
            );
            for piece in pieces(local.trim()) {
                all.insert(piece, definition.clone());
            }
        }
    }
    all
}

/// The name that a line begins to define, and whether it is that of a type with constructors or fields.
fn defined(line: &str) -> Option<(&str, bool)> {
    let line = line.trim_start();
    let line = line
        .strip_prefix("abbrev ")
        .or(line.strip_prefix("unfoldable "))
        .unwrap_or(line);
    let line = line.strip_prefix("pub ")?;
    let data = line.strip_prefix("data ").or(line.strip_prefix("record "));
    let name = data.unwrap_or(line).split([' ', ':']).next()?;
    let no_name = ["use", "mod"].contains(&name);
    (!no_name).then_some((name, data.is_some()))
}

impl Specs {
    /// The definitions of one file: first which there are, then the words of each.
    fn add(&mut self, of_crate: &str, file: &str, text: &str) {
        let text = without_comments(text, "--");
        let mut brought = imports(&text);
        let key = |name: &str| (of_crate.to_string(), file.to_string(), name.to_string());
        let mut blocks: Vec<(Definition, Vec<&str>)> = Vec::new();
        // the indentation of a type whose constructors or fields are being read
        let mut inside = None;
        for line in text.lines().filter(|line| !line.trim().is_empty()) {
            let indentation = line.len() - line.trim_start().len();
            if inside.is_some_and(|outer| indentation <= outer) {
                inside = None;
            }
            match defined(line) {
                Some((name, is_type)) if inside.is_none() => {
                    blocks.push((key(name), vec![line]));
                    if line.trim_end().ends_with(&format!("{name} : Type 0")) {
                        self.closed.insert(key(name));
                    }
                    inside = is_type.then_some(indentation);
                }
                _ => {
                    let begins = line.starts_with("use ") || line.starts_with("module ");
                    let Some((block, lines)) = blocks.last_mut().filter(|_| !begins) else {
                        continue;
                    };
                    lines.push(line);
                    if let (Some(_), Some((names, _))) = (inside, line.split_once(" : ")) {
                        for name in names.split_whitespace().filter(|name| *name != "pub") {
                            self.constructors.insert(key(name), block.clone());
                        }
                    }
                }
            }
        }
        let own = blocks.iter().map(|(definition, _)| definition.clone());
        let constructors = self
            .constructors
            .keys()
            .filter(|(c, f, _)| c == of_crate && f == file);
        for definition in own.chain(constructors.cloned()).collect::<Vec<_>>() {
            for piece in pieces(&definition.2) {
                brought.insert(piece, definition.clone());
            }
        }
        for (definition, lines) in blocks {
            let all = lines.iter().flat_map(|line| words(line));
            let named = all.filter_map(|word| brought.get(word)).cloned();
            self.words.entry(definition).or_default().extend(named);
        }
    }

    /// A constructor by its type.
    fn whole<'a>(&'a self, definition: &'a Definition) -> &'a Definition {
        self.constructors.get(definition).unwrap_or(definition)
    }

    /// The definitions that are not reached from these.
    fn unreached(&self, roots: HashSet<Definition>) -> Vec<Definition> {
        let mut reached = HashSet::new();
        let mut ahead: Vec<Definition> = roots.into_iter().collect();
        while let Some(definition) = ahead.pop() {
            let definition = self.whole(&definition).clone();
            if reached.insert(definition.clone()) {
                ahead.extend(self.words.get(&definition).into_iter().flatten().cloned());
            }
        }
        let mut left: Vec<Definition> = self
            .words
            .keys()
            .filter(|d| !reached.contains(*d))
            .cloned()
            .collect();
        left.sort();
        left
    }
}

/// What the contracts of a file of src/ name.
fn contracts(text: &str) -> HashSet<Definition> {
    let text = without_comments(text, "//");
    let brought = imports(&text);
    let lines = text.lines().filter(|line| !line.starts_with("ghost use "));
    lines
        .flat_map(words)
        .filter_map(|word| brought.get(word))
        .cloned()
        .collect()
}

/// The statements of specs/ that the laws of a file of proofs/ have as their types.
fn statements(text: &str, closed: &HashSet<Definition>) -> HashSet<Definition> {
    let text = without_comments(text, "--");
    let brought = imports(&text);
    let types = text
        .lines()
        .filter_map(|line| line.split_once(" : ").map(|(_, after)| after.trim()));
    types
        .filter_map(|word| brought.get(word))
        .filter(|d| closed.contains(*d))
        .cloned()
        .collect()
}

fn files(folder: &Path, extension: &str, all: &mut Vec<PathBuf>) {
    for entry in fs::read_dir(folder).into_iter().flatten() {
        let path = entry.expect("an entry of a folder").path();
        if path.is_dir() {
            files(&path, extension, all);
        } else if path.extension().is_some_and(|e| e == extension) {
            all.push(path);
        }
    }
}

fn texts(of_crate: &Path, folder: &str, extension: &str) -> Vec<(String, String)> {
    let mut all = Vec::new();
    files(&of_crate.join(folder), extension, &mut all);
    let named = |path: PathBuf| {
        let stem = path
            .file_stem()
            .expect("a name")
            .to_string_lossy()
            .to_string();
        (stem, fs::read_to_string(&path).expect("a text"))
    };
    all.into_iter().map(named).collect()
}

#[test]
fn what_stands_in_specs_is_needed() {
    let root = Path::new(env!("CARGO_MANIFEST_DIR")).join("../crates");
    let crates: Vec<PathBuf> = fs::read_dir(root)
        .expect("crates")
        .map(|e| e.expect("a crate").path())
        .collect();
    let mut specs = Specs::default();
    for of_crate in &crates {
        let name = of_crate
            .file_name()
            .expect("a name")
            .to_string_lossy()
            .to_string();
        for (file, text) in texts(of_crate, "specs", "antt") {
            specs.add(&name, &file, &text);
        }
    }
    let mut roots = HashSet::new();
    for of_crate in &crates {
        for (_, text) in texts(of_crate, "src", "rt") {
            roots.extend(contracts(&text));
        }
        for (_, text) in texts(of_crate, "proofs", "antt") {
            roots.extend(statements(&text, &specs.closed));
        }
    }
    assert!(
        500 < specs.words.len() && 100 < roots.len(),
        "definitions and roots are found"
    );
    let left: HashSet<Definition> = specs.unreached(roots).into_iter().collect();
    let excepted = EXCEPTIONS.map(|(c, f, n)| (c.to_string(), f.to_string(), n.to_string()));
    let excepted: HashSet<Definition> = excepted.into_iter().collect();
    let mut unneeded: Vec<_> = left.difference(&excepted).collect();
    unneeded.sort();
    assert!(
        unneeded.is_empty(),
        "named by no contract and no statement: {unneeded:?}"
    );
    let stale: Vec<_> = excepted.difference(&left).collect();
    assert!(stale.is_empty(), "exceptions that are none: {stale:?}");
}

/// The search itself, on a crate of five definitions.
#[test]
fn what_nothing_names_is_found() {
    let mut specs = Specs::default();
    let text = "-- contract, stated\n\
        unfoldable pub contract : Shape → Shape\ncontract a = inner a\n\n\
        pub data Shape : Type 0 where\n  round square : Shape\n\n\
        unfoldable pub inner : Shape → Shape\ninner round = square\n\n\
        abbrev pub Stated : Type 0\nStated = Shape\n\n\
        -- named by nothing but this line: idle\nunfoldable pub idle : Shape\nidle = round\n";
    specs.add("a", "F", text);
    let code =
        "ghost use Rattle.a.specs.F.{contract, idle};\n// idle\nfn f() ensures { contract }\n";
    let law = "use Rattle.a.specs.F.{Stated, idle}\nlaw : Stated\nother : idle\n";
    let mut roots = contracts(code);
    let name = |name: &str| ("a".to_string(), "F".to_string(), name.to_string());
    assert_eq!(
        specs.unreached(roots.clone()),
        [name("Stated"), name("idle")]
    );
    roots.extend(statements(law, &specs.closed));
    assert_eq!(specs.unreached(roots), [name("idle")]);
}
