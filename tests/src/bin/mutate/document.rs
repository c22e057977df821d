//! The tables of docs/MUTATIONS.md: one by crate, and one of all changes.

use std::fs;
use std::path::Path;

/// A change and what became of it.
#[derive(Clone)]
pub struct Row {
    pub crate_name: String,
    pub function: String,
    pub sort: String,
    pub before: String,
    pub after: String,
    /// `fact`, `shape` or `SURVIVED`.
    pub result: String,
    pub reason: String,
}

pub const SURVIVED: &str = "SURVIVED";
const COUNTS: &str = "## By crate";
const CHANGES: &str = "## The changes";

impl Row {
    pub fn line(&self) -> String {
        let code = |text: &str| match text {
            "" => "(dropped)".to_string(),
            text => format!("`{}`", text.replace('|', "\\|")),
        };
        format!(
            "| {} | {} | {} | {} | {} | {} | {} |",
            self.crate_name,
            self.function,
            self.sort,
            code(&self.before),
            code(&self.after),
            self.result,
            self.reason.replace('|', "\\|"),
        )
    }

    fn read(line: &str) -> Option<Row> {
        let inside = line.strip_prefix("| ")?.strip_suffix(" |")?;
        let cells: Vec<&str> = inside.split(" | ").collect();
        let [name, function, sort, before, after, result, reason] = cells[..] else {
            return None;
        };
        let code = |cell: &str| match cell {
            "(dropped)" => String::new(),
            cell => cell.trim_matches('`').replace("\\|", "|"),
        };
        Some(Row {
            crate_name: name.to_string(),
            function: function.to_string(),
            sort: sort.to_string(),
            before: code(before),
            after: code(after),
            result: result.to_string(),
            reason: reason.replace("\\|", "|"),
        })
    }
}

/// Puts the rows of a crate in the place of those that it had; what stands before the tables stays.
pub fn merge(repository: &Path, crates: &[&str], name: &str, new: &[Row]) {
    let path = repository.join("docs/MUTATIONS.md");
    let old = fs::read_to_string(&path).unwrap_or_default();
    let (front, tables) = old.split_at(old.find(COUNTS).unwrap_or(old.len()));
    let table = tables.split(CHANGES).nth(1).unwrap_or("");
    let kept = table.lines().filter_map(Row::read);
    let kept: Vec<Row> = kept.filter(|row| row.crate_name != name).collect();
    let rows: Vec<&Row> = kept.iter().chain(new).collect();
    let of = |name: &str| {
        rows.iter()
            .filter(|row| row.crate_name == *name)
            .collect::<Vec<_>>()
    };
    let mut counts =
        String::from("| Crate | Planted | Fact | Shape | Survived |\n|---|---|---|---|---|\n");
    let mut changes = String::from(
        "| Crate | Function | Sort | Before | After | Result | First error |\n|---|---|---|---|---|---|---|\n",
    );
    let mut total = [0; 4];
    for name in crates {
        let own = of(name);
        let count = |result: &str| own.iter().filter(|row| row.result == result).count();
        let own_counts = [own.len(), count("fact"), count("shape"), count(SURVIVED)];
        if own.is_empty() {
            continue;
        }
        counts += &line(name, own_counts);
        for (sum, each) in total.iter_mut().zip(own_counts) {
            *sum += each;
        }
        for row in own {
            changes += &format!("{}\n", row.line());
        }
    }
    counts += &line("all", total);
    let planted = total[0];
    let fold = format!("<details>\n<summary>{planted} changes</summary>\n\n{changes}\n</details>");
    let new = format!("{front}{COUNTS}\n\n{counts}\n{CHANGES}\n\n{fold}\n");
    fs::write(&path, new).expect("docs/MUTATIONS.md");
}

fn line(name: &str, [planted, fact, shape, survived]: [usize; 4]) -> String {
    format!("| {name} | {planted} | {fact} | {shape} | {survived} |\n")
}

#[cfg(test)]
mod tests {
    use super::*;

    #[test]
    fn a_row_is_read_as_it_was_written() {
        let row = Row {
            crate_name: "rows".to_string(),
            function: "parts.rt: same_bytes".to_string(),
            sort: "statement".to_string(),
            before: "if a || b { return 0; }".to_string(),
            after: String::new(),
            result: SURVIVED.to_string(),
            reason: String::new(),
        };
        let line = row.line();
        assert_eq!(Row::read(&line).map(|read| read.line()), Some(line));
    }
}
