//! The changes that a function can have, each of one place.

use crate::source::{parts, text, Declared, Function, Sort as TokenSort, Token};
use std::ops::Range;

/// A change: what stands at `at` in the file becomes `new`.
#[derive(Clone)]
pub struct Change {
    pub sort: Sort,
    pub at: Range<usize>,
    pub new: String,
}

/// The sorts of changes, in the order in which they are taken in turn.
#[derive(Clone, Copy, PartialEq, Debug)]
pub enum Sort {
    /// A field, an argument or a named constant for another one of the same value, call or body.
    Operand,
    /// `<` for `<=` and back.
    Bound,
    /// Two arguments, two fields' values or two elements change places.
    Order,
    /// A number or a byte by one.
    Constant,
    /// The condition of an early return is never met.
    Check,
    /// `true` for `false` and back.
    Truth,
    /// `==` for `!=`, `+` for `-`, and back.
    Operator,
    /// Two statements change places, or one is dropped, an early return among them.
    Statement,
}

pub const SORTS: [Sort; 8] = [
    Sort::Operand,
    Sort::Bound,
    Sort::Order,
    Sort::Constant,
    Sort::Check,
    Sort::Truth,
    Sort::Operator,
    Sort::Statement,
];

impl Sort {
    pub fn name(self) -> &'static str {
        match self {
            Sort::Operand => "operand",
            Sort::Bound => "bound",
            Sort::Order => "order",
            Sort::Constant => "constant",
            Sort::Check => "check",
            Sort::Truth => "truth",
            Sort::Operator => "operator",
            Sort::Statement => "statement",
        }
    }
}

/// Functions that answer the same when two arguments change places.
const SYMMETRIC: [&str; 3] = ["equal", "same_bytes", "sooner"];

/// A function's body, with what is needed to change it.
struct Body<'a> {
    source: &'a str,
    tokens: &'a [Token],
    declared: &'a Declared,
    changes: Vec<Change>,
}

/// All changes of a function, in the order of their places for each sort.
pub fn changes(source: &str, function: &Function, declared: &Declared) -> Vec<Change> {
    let mut body = Body {
        source,
        tokens: &function.body,
        declared,
        changes: Vec::new(),
    };
    for index in 0..function.body.len() {
        body.at_token(index);
    }
    body.statements();
    body.changes
}

impl Body<'_> {
    fn word(&self, index: usize) -> &str {
        self.tokens
            .get(index)
            .map_or("", |token| &self.source[token.at.clone()])
    }

    fn before(&self, index: usize) -> &str {
        if index == 0 {
            ""
        } else {
            self.word(index - 1)
        }
    }

    fn place(&self, range: &Range<usize>) -> Range<usize> {
        self.tokens[range.start].at.start..self.tokens[range.end - 1].at.end
    }

    fn add(&mut self, sort: Sort, at: Range<usize>, new: String) {
        if self.source[at.clone()] != new {
            self.changes.push(Change { sort, at, new });
        }
    }

    fn at_token(&mut self, index: usize) {
        let at = self.tokens[index].at.clone();
        let word = self.word(index).to_string();
        let is_value = match index.checked_sub(1).map(|before| &self.tokens[before]) {
            Some(token) => {
                token.sort != TokenSort::Mark || [")", "]"].contains(&self.before(index))
            }
            None => false,
        };
        let other = match word.as_str() {
            "<" => Some((Sort::Bound, "<=")),
            "<=" => Some((Sort::Bound, "<")),
            "==" => Some((Sort::Operator, "!=")),
            "!=" => Some((Sort::Operator, "==")),
            "+" => Some((Sort::Operator, "-")),
            "-" if is_value => Some((Sort::Operator, "+")),
            "true" => Some((Sort::Truth, "false")),
            "false" => Some((Sort::Truth, "true")),
            _ => None,
        };
        if let Some((sort, new)) = other {
            self.add(sort, at.clone(), new.to_string());
        }
        match self.tokens[index].sort {
            TokenSort::Number => self.number(index),
            TokenSort::Byte => self.byte(index),
            _ => {}
        }
        if is_constant(&word) {
            self.named_constant(index);
        }
        match word.as_str() {
            "(" => self.call(index),
            "[" => self.elements(index),
            "{" => self.literal(index),
            "." => self.field(index),
            "if" => self.check(index),
            _ => {}
        }
    }

    /// A number by one; not that of a field or of an array's length.
    fn number(&mut self, index: usize) {
        let length = self.before(index) == ";" && self.word(index + 1) == "]";
        let Ok(number) = self.word(index).parse::<u64>() else {
            return;
        };
        if self.before(index) == "." || length {
            return;
        }
        let new = number.checked_add(1).unwrap_or(number - 1);
        self.add(
            Sort::Constant,
            self.tokens[index].at.clone(),
            new.to_string(),
        );
    }

    /// A byte by one.
    fn byte(&mut self, index: usize) {
        let [b'b', b'\'', byte, b'\''] = *self.word(index).as_bytes() else {
            return;
        };
        let new = if [b'&', b'[', b'~'].contains(&byte) {
            byte - 1
        } else {
            byte + 1
        };
        let new = format!("b'{}'", char::from(new));
        self.add(Sort::Constant, self.tokens[index].at.clone(), new);
    }

    /// A named constant for the next other one of the body.
    fn named_constant(&mut self, index: usize) {
        let word = self.word(index).to_string();
        let all = (index + 1..self.tokens.len()).chain(0..index);
        let others = all.map(|at| self.word(at));
        let other = others
            .filter(|other| is_constant(other))
            .find(|other| *other != word);
        if let Some(new) = other.map(str::to_string) {
            self.add(Sort::Operand, self.tokens[index].at.clone(), new);
        }
    }

    /// Two parts change places; the first is taken for the second, or the second for the first.
    fn exchange(&mut self, a: &Range<usize>, b: &Range<usize>, order: bool, operands: bool) {
        let (first, second) = (self.place(a), self.place(b));
        let (old, other) = (&self.source[first.clone()], &self.source[second.clone()]);
        let between = &self.source[first.end..second.start];
        let (old, other, between) = (old.to_string(), other.to_string(), between.to_string());
        if old == other || old == "_" || other == "_" {
            return;
        }
        if order {
            let both = first.start..second.end;
            self.add(Sort::Order, both, format!("{other}{between}{old}"));
        }
        if operands {
            self.add(Sort::Operand, second, old);
            self.add(Sort::Operand, first, other);
        }
    }

    /// The arguments of a call that have one type.
    fn call(&mut self, open: usize) {
        let name = self.before(open).to_string();
        let (parts, _) = parts(self.tokens, self.source, open);
        for i in 0..parts.len() {
            for j in i + 1..parts.len() {
                if self.declared.alike(&name, parts.len(), i, j) {
                    let order = !SYMMETRIC.contains(&name.as_str());
                    self.exchange(&parts[i], &parts[j], order, true);
                }
            }
        }
    }

    /// The elements of an array.
    fn elements(&mut self, open: usize) {
        if !["=", "(", "&", ",", "return"].contains(&self.before(open)) {
            return;
        }
        let (parts, _) = parts(self.tokens, self.source, open);
        for pair in parts.windows(2) {
            self.exchange(&pair[0], &pair[1], true, false);
        }
    }

    /// The values of two fields of a struct that have one type.
    fn literal(&mut self, open: usize) {
        let Some(fields) = self.declared.fields.get(self.before(open)) else {
            return;
        };
        let fields = fields.clone();
        let (parts, _) = parts(self.tokens, self.source, open);
        let named = parts
            .iter()
            .all(|part| self.word(part.start + 1) == ":" && part.len() > 2);
        if !named || parts.len() != fields.len() {
            return;
        }
        let sort_of = |name: &str| fields.iter().find(|(field, _)| field == name).map(|f| &f.1);
        for pair in parts.windows(2) {
            let (a, b) = (self.word(pair[0].start), self.word(pair[1].start));
            if sort_of(a) == sort_of(b) {
                self.fields_exchange(&pair[0], &pair[1]);
            }
        }
    }

    fn fields_exchange(&mut self, a: &Range<usize>, b: &Range<usize>) {
        let (first, second) = (
            self.place(&(a.start + 2..a.end)),
            self.place(&(b.start + 2..b.end)),
        );
        let (old, other) = (&self.source[first.clone()], &self.source[second.clone()]);
        if old == other {
            return;
        }
        let new = format!("{other}{}{old}", &self.source[first.end..second.start]);
        self.add(Sort::Order, first.start..second.end, new);
    }

    /// A field for another one that the function reads of the same name.
    fn field(&mut self, dot: usize) {
        let (base, field) = (self.before(dot).to_string(), self.word(dot + 1).to_string());
        if self.word(dot + 2) == "(" || self.tokens[dot + 1].sort != TokenSort::Word {
            return;
        }
        let all = 1..self.tokens.len().saturating_sub(2);
        let others: Vec<usize> = all
            .filter(|at| self.word(*at) == "." && self.before(*at) == base)
            .filter(|at| self.word(*at + 1) != field && self.word(*at + 2) != "(")
            .collect();
        for other in others {
            let new = self.word(other + 1).to_string();
            let at = self.tokens[dot + 1].at.clone();
            let known = |change: &Change| change.at == at && change.new == new;
            if !self.changes.iter().any(known) {
                self.add(Sort::Operand, at, new);
            }
        }
    }

    /// `if .. { return ..; }` with nothing after it: its condition is never met, or it is dropped.
    fn check(&mut self, index: usize) {
        let mut open = index + 1;
        let mut depth = 0;
        while open < self.tokens.len() && (depth > 0 || self.word(open) != "{") {
            match self.word(open) {
                "(" | "[" => depth += 1,
                ")" | "]" => depth -= 1,
                _ => {}
            }
            open += 1;
        }
        let (_, close) = parts(self.tokens, self.source, open);
        let inside = open + 1..close;
        let ends = inside.clone().filter(|at| self.word(*at) == ";").count();
        let returns = self.word(open + 1) == "return" && ends == 1 && self.before(close) == ";";
        if !returns || self.word(close + 1) == "else" || self.before(index) == "else" {
            return;
        }
        let never = self.never(index + 1..open);
        self.add(Sort::Check, self.place(&(index + 1..open)), never);
        self.add(
            Sort::Statement,
            self.place(&(index..close + 1)),
            String::new(),
        );
    }

    /// A condition that is never met: of a comparison `x < 0`, for unsigned numbers.
    fn never(&self, condition: Range<usize>) -> String {
        let marks = ["<", "<=", "==", "!="];
        let is_mark = |at: &usize| marks.contains(&self.word(*at));
        let compared: Vec<usize> = condition.clone().filter(is_mark).collect();
        let mixed = condition
            .clone()
            .any(|at| ["&&", "||", "!"].contains(&self.word(at)));
        if compared.len() != 1 || mixed {
            return "false".to_string();
        }
        let left = condition.start..compared[0];
        let right = compared[0] + 1..condition.end;
        let is_number = left.len() == 1 && self.tokens[left.start].sort == TokenSort::Number;
        let side = if is_number { right } else { left };
        format!("{} < 0", text(self.tokens, self.source, &side))
    }

    /// The statements of one line, of which two that follow each other change places where one
    /// stores what the other reads, and one that stores is dropped.
    fn statements(&mut self) {
        let mut lines: Vec<(Range<usize>, Option<String>)> = Vec::new();
        let mut start = 0;
        for index in 0..self.tokens.len() {
            if ["{", "}"].contains(&self.word(index)) {
                start = index + 1;
            }
            if self.word(index) == ";" && start < index {
                let range = start..index + 1;
                let inside = range.clone();
                let open = |word: &str| inside.clone().filter(|at| self.word(*at) == word).count();
                if open("[") == open("]") && open("(") == open(")") {
                    lines.push((range, self.stored(start, index)));
                    start = index + 1;
                }
            }
        }
        for (range, stored) in &lines {
            if stored.is_some() {
                self.add(Sort::Statement, self.place(range), String::new());
            }
        }
        for pair in lines.windows(2) {
            let [(a, stored_a), (b, stored_b)] = pair else {
                continue;
            };
            let reads = |range: &Range<usize>, name: &Option<String>| {
                let name = name.as_deref();
                range.clone().any(|at| Some(self.word(at)) == name)
            };
            let moved = reads(b, stored_a) || reads(a, stored_b);
            if a.end != b.start || !moved || self.word(b.start) == "return" {
                continue;
            }
            let (first, second) = (self.place(a), self.place(b));
            let between = &self.source[first.end..second.start];
            let new = format!(
                "{}{between}{}",
                &self.source[second.clone()],
                &self.source[first.clone()]
            );
            self.add(Sort::Statement, first.start..second.end, new);
        }
    }

    /// The name that a statement stores to.
    fn stored(&self, start: usize, end: usize) -> Option<String> {
        let word = self.word(start);
        if ["let", "return"].contains(&word) || self.tokens[start].sort != TokenSort::Word {
            return None;
        }
        let stores = ["=", "+=", "-=", "*="];
        let found = (start..end).any(|at| stores.contains(&self.word(at)));
        found.then(|| word.to_string())
    }
}

fn is_constant(word: &str) -> bool {
    let mut bytes = word.bytes();
    word.len() > 1
        && word.starts_with(|first: char| first.is_ascii_uppercase())
        && bytes.all(|byte| byte.is_ascii_uppercase() || byte == b'_')
}

#[cfg(test)]
mod tests {
    use super::*;
    use crate::source::functions;

    const SOURCE: &str = "\
fn least(a: usize, b: usize, c: u8) -> usize
    ensures { result ≡ 0 < 1 }
{
    // a < b
    if a <= 7 {
        return b;
    }
    let mut n = a.at;
    n = least(n, b, c);
    n += a.next;
    n
}
";

    #[test]
    fn of_a_function() {
        let mut declared = Declared::default();
        declared.read(SOURCE);
        let found = functions(SOURCE);
        assert_eq!(found.len(), 1);
        let changes = changes(SOURCE, &found[0], &declared);
        let of = |sort: Sort| {
            let own = changes.iter().filter(|change| change.sort == sort);
            let shown =
                own.map(|change| format!("{} -> {}", &SOURCE[change.at.clone()], change.new));
            shown.collect::<Vec<String>>()
        };
        assert_eq!(of(Sort::Bound), ["<= -> <"]);
        assert_eq!(of(Sort::Constant), ["7 -> 8"]);
        assert_eq!(of(Sort::Order), ["n, b -> b, n"]);
        assert_eq!(
            of(Sort::Operand),
            ["at -> next", "b -> n", "n -> b", "next -> at"]
        );
        assert_eq!(of(Sort::Check), ["a <= 7 -> a < 0"]);
        let dropped = of(Sort::Statement);
        assert_eq!(
            dropped[1..3],
            ["n = least(n, b, c); -> ", "n += a.next; -> "]
        );
        assert_eq!(dropped.len(), 5);
    }
}
