//! Trials of changes in a scratch clone, by the check of their crate.

use std::collections::hash_map::DefaultHasher;
use std::fs;
use std::hash::{Hash, Hasher};
use std::path::{Path, PathBuf};
use std::process::Command;

/// A clone of the repository, and the logs of the trials.
pub struct Scratch {
    pub clone: PathBuf,
    tried: PathBuf,
    version: String,
}

/// What the check of a changed crate says.
pub enum Outcome {
    /// The front end does not accept it: no change of what it means.
    Rejected,
    Survived,
    Refused(Refusal),
}

/// The first error of a log.
pub struct Refusal {
    /// A fact that no longer holds; else the proof does not fit the code's shape.
    pub is_fact: bool,
    pub reason: String,
}

/// Runs a command and gives whether it ended well, and what it wrote.
fn run(command: &mut Command) -> (bool, String) {
    let output = command.output().expect("a command that can be run");
    let text = String::from_utf8_lossy(&output.stdout).into_owned();
    (output.status.success(), text)
}

fn must(command: &mut Command) -> String {
    let (well, text) = run(command);
    assert!(well, "{command:?} failed");
    text.trim().to_string()
}

impl Scratch {
    /// A fresh clone in a folder, of what is committed.
    pub fn new(repository: &Path, folder: &Path) -> Scratch {
        let clone = folder.join("clone");
        let tried = folder.join("tried");
        fs::create_dir_all(&tried).expect("a folder for logs");
        must(Command::new("rm").arg("-rf").arg(&clone));
        must(
            Command::new("git")
                .args(["clone", "-q"])
                .arg(repository)
                .arg(&clone),
        );
        let tree = ["rev-parse", "HEAD:crates"];
        let version = must(Command::new("git").arg("-C").arg(&clone).args(tree));
        Scratch {
            clone,
            tried,
            version,
        }
    }

    /// Checks a crate, over what checks of it kept: whether it is proved, and what was said.
    fn check(&self, name: &str) -> (bool, String) {
        let folder = self.clone.join("crates").join(name);
        let mut command = Command::new("rt");
        run(command.args(["check", "--jobs", "1"]).current_dir(folder))
    }

    /// Proves a crate as it is, and what it rests on.
    pub fn prepare(&self, name: &str) {
        let (proved, said) = self.check(name);
        assert!(proved, "{name} is not proved as it is\n{said}");
    }

    /// Tries a changed source. A trial of the same crates is not run again: its log is kept.
    pub fn try_source(&self, name: &str, file: &str, changed: &str) -> Outcome {
        let mut hasher = DefaultHasher::new();
        (&self.version, name, file, changed).hash(&mut hasher);
        let log = self
            .tried
            .join(format!("{name}-{:016x}.log", hasher.finish()));
        if !log.is_file() {
            let path = self.clone.join("crates").join(name).join(file);
            let source = fs::read_to_string(&path).expect("a source");
            fs::write(&path, changed).expect("a source to write");
            let (proved, said) = self.check(name);
            fs::write(&path, source).expect("a source to write");
            fs::write(&log, format!("proved: {proved}\n{said}")).expect("a log to write");
        }
        outcome(&fs::read_to_string(&log).expect("a log"))
    }
}

fn outcome(log: &str) -> Outcome {
    if log.starts_with("proved: true") {
        Outcome::Survived
    } else if log.lines().any(|line| line.starts_with("logic=not-proved")) {
        Outcome::Refused(refusal(log))
    } else {
        assert!(log.contains(": error["), "the check did not end:\n{log}");
        Outcome::Rejected
    }
}

/// Errors that say that the proof does not fit the code's shape, and in short.
const MISFITS: [(&str, &str); 4] = [
    ("that can be named from here", "it is not asked any more"),
    ("has no field", "what it cites is not known any more"),
    (
        "has no cycle of calls",
        "these do not call each other any more",
    ),
    (
        "this pattern needs a function",
        "the loop stores to other names",
    ),
];

/// Errors that say that a fact is not proved.
const FACTS: [(&str, &str); 6] = [
    (
        "the goal fails, at",
        "it fails, with numbers at which it does",
    ),
    ("`omega`", "it does not follow"),
    ("`search`", "no proof is found"),
    ("type", "another fact is asked"),
    ("sides", "another fact is asked"),
    ("dimension", "another fact is asked"),
];

/// The first error: the function whose need it is, the need, and why it is not met.
fn refusal(log: &str) -> Refusal {
    let is_missing = |line: &str| MISFITS.iter().any(|(words, _)| line.contains(words));
    let errors = log.lines().filter(|line| line.contains(": error: "));
    let is_fact = !errors.clone().any(is_missing);
    let asked = |line: &&str| line.starts_with("note: ") && line.contains("it is not proved that");
    let reason = log
        .lines()
        .find(asked)
        .and_then(|line| made_by_itself(log, line));
    let reason = reason.or_else(|| errors.clone().next().and_then(in_proof));
    let reason = reason.unwrap_or_else(|| "no error is named".to_string());
    Refusal { is_fact, reason }
}

/// Of a function that has no proof file: `note: ..: it is not proved that FACT (`NEED`)`.
fn made_by_itself(log: &str, line: &str) -> Option<String> {
    let fact = line.split_once("it is not proved that ")?.1;
    let unproved = log
        .lines()
        .find(|line| line.starts_with("fn ") && line.contains(": no proof"))?;
    let function = unproved.strip_prefix("fn ")?.split_once(": ")?.0;
    let function = function.split_once("::")?.1.replace("::", "/");
    let need = fact.rsplit_once("(`")?.1.split_once('`')?.0;
    let fact = fact.split_once(" (")?.0;
    Some(format!("`{function}`, `{need}`: not proved that {fact}"))
}

/// Of a function that has one: `./proofs/FUNCTION/Answers.antt:..: error: `NEED`: ..`.
fn in_proof(line: &str) -> Option<String> {
    let (place, error) = line.split_once(": error: ")?;
    let file = place.split_once("/proofs/")?.1.split_once(".antt")?.0;
    let files = ["/Answers", "/Invariants", "/Proof"];
    let function = files.iter().find_map(|name| file.strip_suffix(name));
    let function = function.unwrap_or(file);
    let (need, message) = match error.strip_prefix('`')?.split_once("`: ") {
        Some((need, message)) => (format!(", `{need}`"), message),
        None => (String::new(), error),
    };
    let mut kinds = MISFITS.iter().chain(&FACTS);
    let kind = kinds.find(|(words, _)| message.contains(words));
    let kind = kind.map_or("it is not met", |(_, kind)| kind);
    Some(format!("`{function}`{need}: {kind}"))
}

#[cfg(test)]
mod tests {
    use super::*;

    fn refused(log: &str) -> (bool, String) {
        match outcome(&format!("proved: false\n{log}\nlogic=not-proved\n")) {
            Outcome::Refused(refusal) => (refusal.is_fact, refusal.reason),
            _ => panic!("it is refused"),
        }
    }

    #[test]
    fn first_errors() {
        let differs =
            "./proofs/a/f/Answers.antt:1:2: error: `returns`: the two types differ only where ..";
        let fact = "`a/f`, `returns`: another fact is asked".to_string();
        assert_eq!(refused(differs), (true, fact));
        let unknown = "x/proofs/g/Proof.antt:1:2: error: `returns-2`: record `lts.Start` has no field `before`";
        let shape = "`g`, `returns-2`: what it cites is not known any more".to_string();
        assert_eq!(refused(unknown), (false, shape));
        let found = "note: x/src/lib.rt:1:2: it is not proved that the sum fits its type (at a range) (`add-n`)";
        let found = format!("{found}\nfn c::m::h: no proof: expected `h-spec` in h");
        let fact = "`m/h`, `add-n`: not proved that the sum fits its type".to_string();
        assert_eq!(refused(&found), (true, fact));
    }

    #[test]
    fn no_refusals() {
        assert!(matches!(outcome("proved: true\n"), Outcome::Survived));
        assert!(matches!(
            outcome("proved: false\nlib.rt:1:2: error[unknown-name]"),
            Outcome::Rejected
        ));
    }
}
