//! Small changes of what the code means, each of one place, and whether the check refuses them.
//!
//! `mutate FOLDER [CRATE..]`: clones the repository into FOLDER, plants the changes of each crate
//! named, or of every library crate, one at a time, tries each by `rt check`, and puts the
//! results into docs/MUTATIONS.md. Nothing is chosen by chance. FOLDER keeps the logs.

mod changes;
mod document;
mod source;
mod trials;

use changes::{changes, Change, Sort, SORTS};
use document::{Row, SURVIVED};
use source::{functions, Declared};
use std::fs;
use std::ops::Range;
use std::path::{Path, PathBuf};
use trials::{Outcome, Scratch};

/// The programs, and the tests' own crate: their functions promise little of what they do; and the
/// crate whose functions only call those of their names.
const LEFT_OUT: [&str; 6] = [
    "oil",
    "oil_explain",
    "tokens",
    "vectors",
    "testing",
    "exporting_c",
];

/// A function with its changes, those of each sort together.
struct Site {
    file: String,
    function: String,
    changes: Vec<Change>,
}

fn main() {
    let mut words = std::env::args().skip(1);
    let folder = PathBuf::from(words.next().expect("mutate FOLDER [CRATE..]"));
    let named: Vec<String> = words.collect();
    let repository = Path::new(env!("CARGO_MANIFEST_DIR")).join("..");
    let listed = fs::read_to_string(repository.join("crates.txt")).expect("crates.txt");
    let crates: Vec<&str> = listed
        .lines()
        .filter(|line| !line.starts_with('#'))
        .filter_map(|line| line.split_once(':')?.0.split(' ').next())
        .collect();
    for name in &named {
        assert!(crates.contains(&name.as_str()), "no crate {name}");
    }
    let scratch = Scratch::new(&repository, &folder);
    let declared = declared(&scratch.clone.join("crates"));
    for (number, name) in crates.iter().enumerate() {
        let wanted = named.is_empty() || named.iter().any(|each| each == name);
        if !wanted || LEFT_OUT.contains(name) {
            continue;
        }
        let sites = sites(&scratch.clone, name, &declared);
        if sites.is_empty() {
            continue;
        }
        scratch.prepare(name);
        let rows = plant(&scratch, name, number, &sites);
        document::merge(&repository, &crates, name, &rows);
    }
}

/// How many changes a crate gets, by its number of functions.
fn count(functions: usize) -> usize {
    (2 + functions / 4).clamp(3, 8)
}

/// Plants the changes of a crate: the functions are those that part the crate evenly, the sorts are
/// taken in turn, and what the front end rejects makes place for the next change.
fn plant(scratch: &Scratch, name: &str, number: usize, sites: &[Site]) -> Vec<Row> {
    let count = count(sites.len());
    let mut rows = Vec::new();
    let mut used = Vec::new();
    let mut rejected = 0;
    for turn in 0..count {
        let start = (2 * turn + 1) * sites.len() / (2 * count);
        let sites = (start..start + sites.len()).map(|at| &sites[at % sites.len()]);
        let candidates = sites.flat_map(|site| {
            let in_turn = in_turn(&site.changes, turn, number);
            in_turn.into_iter().map(move |change| (site, change))
        });
        for (site, change) in candidates {
            let key = (&site.file, change.at.clone(), &change.new);
            if used.contains(&key) {
                continue;
            }
            used.push(key);
            let Some(row) = tried(scratch, name, site, change) else {
                rejected += 1;
                continue;
            };
            println!("{}", row.line());
            rows.push(row);
            break;
        }
    }
    let survived = rows.iter().filter(|row| row.result == SURVIVED).count();
    println!(
        "{name}: {} changes, {survived} survived; the front end rejects {rejected} more",
        rows.len()
    );
    rows
}

/// A function's changes: first those of the sort whose turn it is, last those of statements.
fn in_turn(changes: &[Change], turn: usize, number: usize) -> Vec<&Change> {
    let first = number * 5 + turn;
    let mut sorts: Vec<Sort> = (0..SORTS.len())
        .map(|at| SORTS[(first + at) % SORTS.len()])
        .collect();
    sorts[1..].sort_by_key(|sort| *sort == Sort::Statement);
    let mut found = Vec::new();
    for sort in sorts {
        let mut of_sort: Vec<&Change> = changes
            .iter()
            .filter(|change| change.sort == sort)
            .collect();
        if !of_sort.is_empty() {
            let middle = (turn * 7 + number) % of_sort.len();
            of_sort.rotate_left(middle);
        }
        found.append(&mut of_sort);
    }
    found
}

/// A trial of a change; nothing where the front end rejects it.
fn tried(scratch: &Scratch, name: &str, site: &Site, change: &Change) -> Option<Row> {
    let path = scratch.clone.join("crates").join(name).join(&site.file);
    let source = fs::read_to_string(path).expect("a source");
    let changed = format!(
        "{}{}{}",
        &source[..change.at.start],
        change.new,
        &source[change.at.end..]
    );
    let (result, reason) = match scratch.try_source(name, &site.file, &changed) {
        Outcome::Rejected => return None,
        Outcome::Survived => (SURVIVED, String::new()),
        Outcome::Refused(refusal) => {
            let result = if refusal.is_fact { "fact" } else { "shape" };
            (result, refusal.reason)
        }
    };
    let new_end = change.at.start + change.new.len();
    Some(Row {
        crate_name: name.to_string(),
        function: format!(
            "{}: {}",
            site.file.trim_start_matches("src/"),
            site.function
        ),
        sort: change.sort.name().to_string(),
        before: shown(&source, change.at.clone()),
        after: shown(&changed, change.at.start..new_end),
        result: result.to_string(),
        reason,
    })
}

/// The lines of a place, on one line; an argument that has a line to itself with the call's head.
fn shown(source: &str, at: Range<usize>) -> String {
    let start = source[..at.start].rfind('\n').map_or(0, |end| end + 1);
    let end = source[at.end..]
        .find('\n')
        .map_or(source.len(), |end| at.end + end);
    let lines = &source[start..end];
    let depth = lines.len() - lines.trim_start().len();
    let joined = lines.split_whitespace().collect::<Vec<&str>>().join(" ");
    if !joined.ends_with(',') || joined.contains("=>") {
        return joined;
    }
    let above =
        |line: &&str| line.len() - line.trim_start().len() < depth && !line.trim().is_empty();
    let head = source[..start]
        .lines()
        .rev()
        .find(above)
        .unwrap_or("")
        .trim();
    format!("{head} .. {joined} ..")
}

/// The paths in a folder, in the order of their names.
fn paths(folder: &Path) -> Vec<PathBuf> {
    let Ok(entries) = fs::read_dir(folder) else {
        return Vec::new();
    };
    let mut paths: Vec<PathBuf> = entries
        .map(|entry| entry.expect("an entry").path())
        .collect();
    paths.sort();
    paths
}

fn sources(folder: &Path) -> Vec<(String, String)> {
    let read = |path: PathBuf| {
        let name = path
            .file_name()
            .expect("a name")
            .to_string_lossy()
            .into_owned();
        (
            format!("src/{name}"),
            fs::read_to_string(&path).expect("a source"),
        )
    };
    paths(&folder.join("src")).into_iter().map(read).collect()
}

fn declared(crates: &Path) -> Declared {
    let mut declared = Declared::default();
    for folder in paths(crates) {
        for (_, source) in sources(&folder) {
            declared.read(&source);
        }
    }
    declared
}

/// The functions of a crate that can be changed.
fn sites(clone: &Path, name: &str, declared: &Declared) -> Vec<Site> {
    let mut sites = Vec::new();
    for (file, source) in sources(&clone.join("crates").join(name)) {
        for function in functions(&source) {
            let changes = changes(&source, &function, declared);
            if !changes.is_empty() {
                sites.push(Site {
                    file: file.clone(),
                    function: function.name,
                    changes,
                });
            }
        }
    }
    sites
}
