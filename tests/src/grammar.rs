//! Document 01, "Grammar", with document 02's FLOAT: the rules as data, and the stage of refusals 3 to 5 found by
//! following all derivations at once.

use crate::token::{step, Sort, Step, WORDS};
use std::sync::OnceLock;

/// The grammar of document 01, widened by document 02's FLOAT. A rule's name stands before
/// the colon, its forms after it, separated by bars; a form may be empty. `name`, `number`,
/// `float` and `string` are sorts of tokens, all else that is no rule's name is a token itself.
pub const RULES: &[&str] = &[
    "file: version implementation application",
    "version: OIL_VERSION = string D ;",
    "implementation: IMPLEMENTATION name { specs } D ;",
    "specs: | spec specs",
    "spec: kind { definitions } D ;",
    "kind: OS | APPMODE | TASK | ISR | COUNTER | ALARM | RESOURCE | EVENT | COM | MESSAGE \
     | NETWORKMESSAGE | IPDU | NM",
    "definitions: | definition definitions",
    "definition: attribute | reference",
    "attribute: integer auto integer_range name mark integer_default D ; \
     | STRING auto name mark string_default D ; \
     | BOOLEAN auto boolean_range name mark boolean_default D ; \
     | ENUM auto enum_range name mark enum_default D ; \
     | FLOAT auto float_range name mark float_default D ;",
    "reference: kind_type name mark D ;",
    "kind_type: OS_TYPE | APPMODE_TYPE | TASK_TYPE | ISR_TYPE | COUNTER_TYPE | ALARM_TYPE \
     | RESOURCE_TYPE | EVENT_TYPE | COM_TYPE | MESSAGE_TYPE | NETWORKMESSAGE_TYPE | IPDU_TYPE \
     | NM_TYPE",
    "integer: UINT32 | INT32 | UINT64 | INT64",
    "auto: | WITH_AUTO",
    "integer_range: | [ number .. number ] | [ numbers ]",
    "numbers: number | number , numbers",
    "boolean_range: | [ TRUE P D , FALSE P D ]",
    "enum_range: [ enumerators ]",
    "enumerators: enumerator | enumerator , enumerators",
    "enumerator: name P D",
    "float_range: | [ float .. float ]",
    "P: | { definitions }",
    "mark: | [ ]",
    "integer_default: | = AUTO | = NO_DEFAULT | = number",
    "string_default: | = AUTO | = NO_DEFAULT | = string",
    "boolean_default: | = AUTO | = NO_DEFAULT | = TRUE | = FALSE",
    "enum_default: | = AUTO | = NO_DEFAULT | = name",
    "float_default: | = AUTO | = NO_DEFAULT | = float",
    "application: CPU name { objects } D ;",
    "objects: | object objects",
    "object: kind name D ; | kind name { statements } D ;",
    "statements: | statement statements",
    "statement: name = value D ;",
    "value: number | float | string | AUTO | named | named { statements }",
    "named: name | TRUE | FALSE",
    "D: | : string",
];

/// What stands in a form: a rule, told by its index, or a token.
#[derive(Clone, Copy, Debug, PartialEq, Eq)]
pub enum Symbol {
    Rule(usize),
    Word(u8),
    Name,
    Number,
    Float,
    Quoted,
    Punctuator(u8),
}

impl Symbol {
    /// Whether a token of this sort may stand where the symbol does. "Reserved: TRUE, FALSE,
    /// AUTO, NO_DEFAULT, WITH_AUTO. Every other word may be a name."
    pub fn admits(self, sort: Sort) -> bool {
        match (self, sort) {
            (Symbol::Word(word), Sort::Word(code)) => word == code,
            (Symbol::Name, Sort::Word(code)) => !(1..=5).contains(&code),
            (Symbol::Number, Sort::Number { .. }) | (Symbol::Quoted, Sort::Quoted) => true,
            (Symbol::Float, Sort::Float(_)) => true,
            (Symbol::Punctuator(sign), Sort::Punctuator(byte)) => sign == byte,
            _ => false,
        }
    }
}

/// The forms of each rule, in the order of `RULES`; file is rule 0.
pub struct Grammar {
    pub forms: Vec<Vec<Vec<Symbol>>>,
}

/// The grammar read from `RULES`.
pub fn grammar() -> &'static Grammar {
    static READ: OnceLock<Grammar> = OnceLock::new();
    READ.get_or_init(|| {
        let split = |rule: &'static str| rule.split_once(": ").expect("a rule has a colon");
        let rules: Vec<_> = RULES.iter().map(|rule| split(rule)).collect();
        let symbol = |word: &str| {
            if let Some(rule) = rules.iter().position(|(name, _)| *name == word) {
                return Symbol::Rule(rule);
            }
            if let Some(code) = WORDS.iter().position(|known| *known == word) {
                return Symbol::Word(code as u8 + 1);
            }
            match word {
                "name" => Symbol::Name,
                "number" => Symbol::Number,
                "float" => Symbol::Float,
                "string" => Symbol::Quoted,
                _ => Symbol::Punctuator(word.as_bytes()[0]),
            }
        };
        let form = |form: &str| form.split_whitespace().map(symbol).collect();
        let forms = |(_, forms): &(_, &str)| forms.split('|').map(form).collect();
        Grammar {
            forms: rules.iter().map(forms).collect(),
        }
    })
}

/// All ways in which tokens read so far can begin a list that the grammar derives: one
/// stack for each, of the symbols that are still to come, the next one on top. As each
/// rule derives something, hope ends exactly where no stack is left.
struct Hopes {
    grammar: &'static Grammar,
    /// A symbol and the stack below it. Stack 0 is the empty one.
    stacks: Vec<(Symbol, usize)>,
    alive: Vec<usize>,
}

const EMPTY: usize = 0;

impl Hopes {
    /// Before the first token a file is to come.
    fn new() -> Hopes {
        Hopes {
            grammar: grammar(),
            stacks: vec![(Symbol::Name, EMPTY), (Symbol::Rule(0), EMPTY)],
            alive: vec![1],
        }
    }

    /// Puts the symbols of a form on a stack, its first one on top.
    fn put(&mut self, form: &[Symbol], onto: usize) -> usize {
        form.iter().rev().fold(onto, |below, &symbol| {
            self.stacks.push((symbol, below));
            self.stacks.len() - 1
        })
    }

    /// Reads a token, or the end where there is none; tells whether there is hope with it. On
    /// top of each stack a rule gives way to each of its forms, until there is a token.
    fn read(&mut self, sort: Option<Sort>) -> bool {
        let mut waiting = std::mem::take(&mut self.alive);
        let mut next = Vec::new();
        while let Some(stack) = waiting.pop() {
            if stack == EMPTY {
                next.extend(sort.is_none().then_some(EMPTY));
                continue;
            }
            match self.stacks[stack] {
                (Symbol::Rule(rule), below) => {
                    for form in &self.grammar.forms[rule] {
                        waiting.push(self.put(form, below));
                    }
                }
                (token, below) if sort.is_some_and(|sort| token.admits(sort)) => next.push(below),
                _ => (),
            }
        }
        self.alive = next;
        !self.alive.is_empty()
    }
}

impl Hopes {
    /// The tokens that may come next, and whether the text may end.
    fn coming(&mut self) -> (Vec<Symbol>, bool) {
        let mut waiting = self.alive.clone();
        let mut tokens = Vec::new();
        let mut end = false;
        while let Some(stack) = waiting.pop() {
            if stack == EMPTY {
                end = true;
                continue;
            }
            match self.stacks[stack] {
                (Symbol::Rule(rule), below) => {
                    for form in &self.grammar.forms[rule] {
                        waiting.push(self.put(form, below));
                    }
                }
                (token, _) if !tokens.contains(&token) => tokens.push(token),
                _ => (),
            }
        }
        (tokens, end)
    }
}

/// What may stand where a text is refused with 4.
#[derive(Clone, Debug, PartialEq, Eq)]
pub struct Expected {
    pub place: usize,
    pub tokens: Vec<Symbol>,
    pub end: bool,
}

/// Of a text that is refused with 4: each token with which some derivation goes on after the
/// tokens before the place, and whether one ends there.
pub fn expected(text: &[u8]) -> Option<Expected> {
    if text.len() > 65_535 {
        return None;
    }
    let Stage::Refused { number: 4, place } = stage(text) else {
        return None;
    };
    let mut hopes = Hopes::new();
    let mut from = 0;
    while let Step::Token(token, next) = step(text, from) {
        if token.place >= place {
            break;
        }
        hopes.read(Some(token.sort));
        from = next;
    }
    let (tokens, end) = hopes.coming();
    Some(Expected { place, tokens, end })
}

/// What the stage of refusals 3 to 5 says of a text.
#[derive(Clone, Copy, Debug, PartialEq, Eq)]
pub enum Stage {
    Passes,
    Refused { number: u8, place: usize },
}

/// "The first stage with a fault answers, by the leftmost place": the tokens are read from
/// the left, and the first that is none, is not admitted or opens too much is the answer.
pub fn stage(text: &[u8]) -> Stage {
    let refused = |number, place| Stage::Refused { number, place };
    let mut hopes = Hopes::new();
    let mut open = 0;
    let mut from = 0;
    loop {
        let token = match step(text, from) {
            Step::Refused(place) => return refused(3, place),
            Step::End(_) if hopes.read(None) => return Stage::Passes,
            Step::End(place) => return refused(4, place),
            Step::Token(token, next) => {
                from = next;
                token
            }
        };
        if !hopes.read(Some(token.sort)) {
            return refused(4, token.place);
        }
        match token.sort {
            Sort::Punctuator(b'{') if open == 16 => return refused(5, token.place),
            Sort::Punctuator(b'{') => open += 1,
            Sort::Punctuator(b'}') => open -= 1,
            _ => (),
        }
    }
}

#[cfg(test)]
mod tests {
    use super::*;
    use crate::corpus;

    /// The rules for which `holds` is found true by asking again and again, each time with
    /// those found before.
    fn least(holds: impl Fn(&[Vec<Symbol>], &dyn Fn(Symbol) -> bool) -> bool) -> Vec<bool> {
        let rules = &grammar().forms;
        let mut found = vec![false; rules.len()];
        for _ in 0..rules.len() {
            let known = found.clone();
            let is_known = |symbol| matches!(symbol, Symbol::Rule(rule) if known[rule]);
            for (rule, forms) in rules.iter().enumerate() {
                found[rule] |= holds(forms, &is_known);
            }
        }
        found
    }

    #[test]
    fn each_rule_derives_something() {
        let derives = least(|forms, known| {
            let token_or_known = |&symbol| !matches!(symbol, Symbol::Rule(_)) || known(symbol);
            forms.iter().any(|form| form.iter().all(token_or_known))
        });
        assert!(derives.iter().all(|derives| *derives));
    }

    #[test]
    fn no_rule_begins_with_itself() {
        let empty = least(|forms, known| {
            forms
                .iter()
                .any(|form| form.iter().all(|&symbol| known(symbol)))
        });
        for start in 0..RULES.len() {
            let begins_with_start = least(|forms, known| {
                forms.iter().any(|form| {
                    let mut front = form.iter().scan(true, |still, &symbol| {
                        let here = *still;
                        *still &= matches!(symbol, Symbol::Rule(rule) if empty[rule]);
                        here.then_some(symbol)
                    });
                    front.any(|symbol| symbol == Symbol::Rule(start) || known(symbol))
                })
            });
            assert!(!begins_with_start[start], "{}", RULES[start]);
        }
    }

    #[test]
    fn the_rules_name_all_words_and_signs() {
        let symbols: Vec<Symbol> = grammar()
            .forms
            .iter()
            .flatten()
            .flatten()
            .copied()
            .collect();
        for code in 1..=42 {
            assert!(symbols.contains(&Symbol::Word(code)));
        }
        for (rule, text) in RULES.iter().enumerate().skip(1) {
            assert!(symbols.contains(&Symbol::Rule(rule)), "{text}");
        }
        for symbol in symbols {
            if let Symbol::Punctuator(byte) = symbol {
                assert!(b"{}[]=;:,.".contains(&byte), "{byte}");
            }
        }
    }

    #[test]
    fn corpus_agrees() {
        for sample in corpus::all() {
            let expected = match sample.refusal() {
                Some((2, _)) => continue,
                Some((number @ 3..=5, place)) => Stage::Refused { number, place },
                _ => Stage::Passes,
            };
            assert_eq!(stage(&sample.text), expected, "{}", sample.name);
        }
    }

    #[test]
    fn starred_edges() {
        let refused = |number, place| Stage::Refused { number, place };
        assert_eq!(stage(b""), refused(4, 0));
        assert_eq!(stage(b"}"), refused(4, 0));
        assert_eq!(stage(b"007"), refused(3, 0));
        assert_eq!(stage(b"#"), refused(3, 0));
        assert_eq!(stage(b"/* x"), refused(3, 0));
        assert_eq!(stage(b"OIL_VERSION = 2;"), refused(4, 14));
        assert_eq!(stage(b"OIL_VERSION = \"2.5\""), refused(4, 19));
        assert_eq!(stage(b"OIL_VERSION = AUTO"), refused(4, 14));
        assert_eq!(stage(b"18446744073709551615"), refused(4, 0));
        assert_eq!(stage(b"18446744073709551616"), refused(3, 0));
        assert_eq!(stage(b"OIL_VERSION = 2.5;"), refused(4, 14));
        assert_eq!(stage(b"OIL_VERSION = 2.5x;"), refused(3, 14));
    }
}
