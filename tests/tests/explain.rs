//! The program `oil_explain` against an implementation of its own: the answer is the
//! reference's, and so are the line, the column and the mark.

use std::path::Path;
use tests::explaining::explained;
use tests::families::PLANTED;
use tests::including::{self, Refused};
use tests::programs::{command, run, Folder};
use tests::random::Random;
use tests::{answered, corpus, texts, tree};

/// What the program writes for a text on standard input.
fn written(text: &[u8]) -> Vec<u8> {
    tests::programs::written("oil_explain", text)
}

/// The same where it is asked which attribute a refusal is about, of a text in a file `-`.
fn written_which(folder: &Folder, text: &[u8]) -> Vec<u8> {
    folder.with("-", text);
    let mut command = command("oil_explain");
    let command = command.args(["-", "--which"]).current_dir(&folder.path);
    run(command, b"").written()
}

/// What the refusals mean, from 1 on; nothing where a number is not given.
const MEANINGS: [&str; 30] = [
    "the lent tables are too short",
    "",
    "no token begins here, or a string or comment that begins here is not ended",
    "what was found and what is expected",
    "this brace is the seventeenth open one; at most sixteen may be open",
    "the version string is not 2.5",
    "more than 512 definitions, or more than 1,024 enumerators, TRUE and FALSE not counted",
    "a kind specified, an attribute defined in its scope, or an enumerator listed a second time",
    "the name stands under another value of the same attribute with other type words",
    "",
    "more than 256 objects, more than 512 parts, or more than 2,048 statements",
    "",
    "the name is not defined in its scope",
    "an attribute that is no list is stated again, in its braces or in a part of its object",
    "the value does not fit its attribute: wrong sort, out of range, unknown enumerator, or AUTO not allowed; or braces after a reference",
    "an attribute of this object or value must be stated and is not",
    "a second OS, COM or NM, or no OS or no APPMODE",
    "the reference names no object of its kind",
    "more than 2,048 resolved values",
    "the written text is longer than the output's room",
    "a bound or listed number outside its type, or a low bound above the high one",
    "a default outside type, range or list",
    "AUTO as a default without WITH_AUTO",
    "the name is used before by an object of another kind",
    "",
    "",
    "the text is included while it is still open",
    "the file is not there, cannot be opened, or would be the ninth text",
    "a `#` that is not that of an include line",
    "more than 65,535 bytes in one text or after expansion",
];

/// The last word before a place, WITH_AUTO aside: before a bound that of its type.
fn type_word(text: &[u8], place: usize) -> &[u8] {
    use tests::token::{part, step, Sort, Step};
    let mut word: &[u8] = b"";
    let mut from = 0;
    while let Step::Token(token, next) = step(text, from) {
        if token.place >= place {
            break;
        }
        let bytes = part(text, token.place, token.length);
        if matches!(token.sort, Sort::Word(_)) && bytes != b"WITH_AUTO" {
            word = bytes;
        }
        from = next;
    }
    word
}

/// Which fault refusal 21 is given for: the number at the place is outside its type, or else a
/// low above its high. A FLOAT has no bounds of its own.
fn bound_meaning(text: &[u8], place: usize) -> &'static str {
    use tests::token::{step, Sort, Step};
    let bounds: (i128, i128) = match type_word(text, place) {
        b"UINT32" => (0, u32::MAX.into()),
        b"INT32" => (i32::MIN.into(), i32::MAX.into()),
        b"UINT64" => (0, u64::MAX.into()),
        b"INT64" => (i64::MIN.into(), i64::MAX.into()),
        _ => (i128::MIN, i128::MAX),
    };
    let number = match step(text, place) {
        Step::Token(token, _) => match token.sort {
            Sort::Number { negative, amount } if negative => -i128::from(amount),
            Sort::Number { amount, .. } => i128::from(amount),
            _ => 0,
        },
        _ => 0,
    };
    if number < bounds.0 || bounds.1 < number {
        return "the bound or listed number lies outside its type";
    }
    "the low bound is above the high one"
}

/// The most bytes of a token that are said to be found.
const FOUND: usize = 40;

/// What stands at a place: the token, or the text's end.
fn found(text: &[u8], place: usize) -> String {
    use tests::token::{part, step, Sort, Step};
    let Step::Token(token, _) = step(text, place) else {
        return "the text ends here".to_string();
    };
    let bytes = String::from_utf8_lossy(part(text, token.place, token.length));
    let bytes = match token.length {
        0..=FOUND => format!("`{bytes}`"),
        _ => format!("`{}...`", &bytes[..FOUND]),
    };
    let reserved = ["TRUE", "FALSE", "AUTO", "NO_DEFAULT", "WITH_AUTO"];
    let is_reserved = reserved.iter().any(|word| bytes == format!("`{word}`"));
    match token.sort {
        Sort::Word(_) if is_reserved => format!("found the reserved word {bytes}"),
        Sort::Word(_) => format!("found the word {bytes}"),
        Sort::Number { .. } => format!("found the number {bytes}"),
        Sort::Float { .. } => format!("found the float {bytes}"),
        Sort::Quoted => "found a string".to_string(),
        Sort::Punctuator(_) => format!("found {bytes}"),
    }
}

/// What refusal 4 means at a place: what was found, and what is expected.
fn unexpected(text: &[u8], place: usize) -> String {
    let told = tests::expecting::told(text).expect("a text that is refused with 4");
    format!("{}; {told}", found(text, place))
}

/// The refusal of a text where no file can be opened.
fn refusal(text: &[u8]) -> Option<Refused> {
    including::read(&including::alone(text)).err()
}

/// What the program is to write for a text where no file can be opened.
fn expected(text: &[u8]) -> Vec<u8> {
    answer(text, false)
}

/// The same, where it is asked which attribute a refusal is about, or is not.
fn answer(text: &[u8], which: bool) -> Vec<u8> {
    let Some(Refused { number, place }) = refusal(text) else {
        return b"accepted\n".to_vec();
    };
    let place = place.byte;
    let first = match number {
        8 | 24 => first_of(text, number, place),
        13..=16 | 18 if which => which::second(text, number, place),
        _ => None,
    };
    let meaning = match number {
        4 => unexpected(text, place),
        14..=16 | 18 if which => which::meaning(text, number, place),
        21 => bound_meaning(text, place).to_string(),
        _ => MEANINGS[usize::from(number) - 1].to_string(),
    };
    let refusal = format!("refusal {number}: {meaning}\n");
    let page = format!("see docs/REFUSALS.md, {number}\n");
    if [1, 19, 20, 30].contains(&number) {
        return [refusal, page].concat().into_bytes();
    }
    let mut whole = shown(text, place, &refusal);
    if let Some(first) = first {
        let label = match number {
            13 => "this is its scope\n",
            14 => "it is stated first here\n",
            15 | 16 | 18 => "the attribute is defined here\n",
            _ => "it stands first here\n",
        };
        whole.extend(shown(text, first, label));
    }
    whole.extend(page.bytes());
    whole
}

/// Which attribute a refusal of 13 to 16 or 18 is about: a search of its own over the tree.
mod which {
    use super::FOUND;
    use tests::token::{part, step, Sort, Step};
    use tests::tree::{self, Definition, Range, Statement, Type};

    /// The statements of a block: those of all parts of an object, or those in braces.
    type Block<'a> = Vec<&'a Statement>;

    /// A statement with the word of its scope, the definitions there, and its block.
    struct Site<'a> {
        scope: Option<usize>,
        definitions: &'a [Definition],
        block: Block<'a>,
        statement: &'a Statement,
    }

    fn named<'a>(
        text: &[u8],
        definitions: &'a [Definition],
        name: &[u8],
    ) -> Option<&'a Definition> {
        definitions.iter().find(|one| one.name.of(text) == name)
    }

    /// The definitions under a value of an attribute, with the value's word there.
    fn under<'a>(
        text: &[u8],
        definition: &'a Definition,
        word: &[u8],
    ) -> (Option<usize>, &'a [Definition]) {
        let Range::Choices(choices) = &definition.range else {
            return (None, &[]);
        };
        match choices.iter().find(|choice| choice.word.of(text) == word) {
            Some(choice) => (Some(choice.word.place), &choice.definitions),
            None => (None, &[]),
        }
    }

    fn inside<'a>(
        text: &[u8],
        definitions: &'a [Definition],
        statement: &Statement,
    ) -> (Option<usize>, &'a [Definition]) {
        match named(text, definitions, statement.name.of(text)) {
            Some(definition) => under(text, definition, statement.value.word.of(text)),
            None => (None, &[]),
        }
    }

    fn seek<'a>(
        text: &[u8],
        scope: Option<usize>,
        definitions: &'a [Definition],
        block: &Block<'a>,
        place: usize,
    ) -> Option<Site<'a>> {
        for statement in block {
            let places = [statement.name.place, statement.value.word.place];
            if places.contains(&place) || statement.brace == Some(place) {
                return Some(Site {
                    scope,
                    definitions,
                    block: block.clone(),
                    statement,
                });
            }
            let (word, under) = inside(text, definitions, statement);
            let found = seek(
                text,
                word,
                under,
                &statement.statements.iter().collect(),
                place,
            );
            if found.is_some() {
                return found;
            }
        }
        None
    }

    /// Each object, its parts as one: where it stands, the word of its kind and its definitions, its statements.
    fn objects<'a>(
        text: &[u8],
        file: &'a tree::File,
    ) -> Vec<(usize, Option<usize>, &'a [Definition], Block<'a>)> {
        let mut whole: Vec<(&tree::Object, Block)> = Vec::new();
        for object in &file.objects {
            let statements = object.statements.iter();
            match whole.iter_mut().find(|(one, _)| {
                one.kind == object.kind && one.name.of(text) == object.name.of(text)
            }) {
                Some((_, block)) => block.extend(statements),
                None => whole.push((object, statements.collect())),
            }
        }
        let of_kind =
            |object: &tree::Object| match file.specs.iter().find(|spec| spec.kind == object.kind) {
                Some(spec) => (Some(spec.kind_word.place), spec.definitions.as_slice()),
                None => (None, &[] as &[Definition]),
            };
        whole
            .into_iter()
            .map(|(object, block)| {
                let (word, definitions) = of_kind(object);
                (object.name.place, word, definitions, block)
            })
            .collect()
    }

    /// The name of an attribute that is missing, or is under a default.
    fn missing(text: &[u8], definitions: &[Definition], block: &[&Statement]) -> Option<usize> {
        for definition in definitions {
            let name = definition.name.of(text);
            if block.iter().any(|one| one.name.of(text) == name) {
                continue;
            }
            let default = definition.default.as_ref().map(|value| value.word.of(text));
            let lacking = match default {
                None | Some(b"NO_DEFAULT") => {
                    (!definition.is_list).then_some(definition.name.place)
                }
                Some(word) => missing(text, under(text, definition, word).1, &[]),
            };
            if lacking.is_some() {
                return lacking;
            }
        }
        None
    }

    fn site<'a>(text: &[u8], file: &'a tree::File, place: usize) -> Option<Site<'a>> {
        objects(text, file)
            .iter()
            .find_map(|(_, word, definitions, block)| seek(text, *word, definitions, block, place))
    }

    fn lacking(text: &[u8], file: &tree::File, place: usize) -> Option<usize> {
        if let Some((_, _, definitions, block)) =
            objects(text, file).iter().find(|one| one.0 == place)
        {
            return missing(text, definitions, block);
        }
        let site = site(text, file, place)?;
        let block: Block = site.statement.statements.iter().collect();
        missing(
            text,
            inside(text, site.definitions, site.statement).1,
            &block,
        )
    }

    /// The place that belongs to the refusal.
    pub fn second(text: &[u8], number: u8, place: usize) -> Option<usize> {
        let file = tree::file(text);
        if number == 16 {
            return lacking(text, &file, place);
        }
        let site = site(text, &file, place)?;
        let name = site.statement.name.of(text);
        match number {
            13 => site.scope,
            14 => site
                .block
                .iter()
                .find(|one| one.name.of(text) == name)
                .map(|one| one.name.place),
            _ => named(text, site.definitions, name).map(|one| one.name.place),
        }
    }

    fn quoted(bytes: &[u8]) -> String {
        let bytes = String::from_utf8_lossy(bytes);
        match bytes.len() {
            0..=FOUND => format!("`{bytes}`"),
            _ => format!("`{}...`", &bytes[..FOUND]),
        }
    }

    /// Bytes as the program shows them.
    fn plain(bytes: &[u8]) -> String {
        let shown = |byte: &u8| match byte {
            b'\\' => format!("\\x{byte:02x}"),
            b' '..=b'~' => char::from(*byte).to_string(),
            _ => format!("\\x{byte:02x}"),
        };
        bytes.iter().map(shown).collect()
    }

    /// What the refusal means.
    pub fn meaning(text: &[u8], number: u8, place: usize) -> String {
        let file = tree::file(text);
        if number == 16 {
            let name = lacking(text, &file, place).expect("an attribute that is missing");
            let Step::Token(token, _) = step(text, name) else {
                panic!("a name");
            };
            let name = quoted(part(text, token.place, token.length));
            return format!(
                "the attribute {name} of this object or value must be stated and is not"
            );
        }
        let site = site(text, &file, place).expect("a statement");
        let attribute =
            named(text, site.definitions, site.statement.name.of(text)).expect("an attribute");
        let name = quoted(attribute.name.of(text));
        let word = plain(attribute.type_word.of(text));
        match number {
            14 => format!("the attribute {name} is no list and is stated again, in its braces or in a part of its object"),
            18 => format!("the reference {name} names no object of its kind, {}", word.trim_end_matches("_TYPE")),
            _ => {
                let range = match attribute.range_part.length {
                    0 => String::new(),
                    1..=40 => format!(" {}", plain(attribute.range_part.of(text))),
                    _ => " [...]".to_string(),
                };
                let is_auto = match step(text, place) {
                    Step::Token(token, _) => matches!(token.sort, Sort::Word(_)) && part(text, token.place, token.length) == b"AUTO",
                    _ => false,
                };
                let takes = match attribute.sort {
                    _ if is_auto => "it has no WITH_AUTO",
                    Type::Reference(_) => "it takes the name of an object, without braces",
                    Type::String => "it takes a string",
                    Type::Boolean => "it takes TRUE or FALSE",
                    Type::Enum => "it takes an enumerator of its list",
                    Type::Float => "it takes a float in its range",
                    _ => "it takes a whole number in its range",
                };
                format!("the value does not fit its attribute {name}, {word}{range}: {takes}")
            }
        }
    }
}

/// A place with its position and what is said of it, and the two lines that show it, each behind a
/// gutter.
fn shown(text: &[u8], place: usize, said: &str) -> Vec<u8> {
    let shown = explained(text, place);
    let [over, under] = &shown.picture;
    let (line, column) = (shown.line, shown.column);
    let front = format!("-:{line}:{column}: {said}{line:5} | ");
    [front.as_bytes(), over, b"      | ", under].concat()
}

/// Where it stands first what a refusal of 8 or 24 is given for: an attribute in its scope, the
/// name of an object.
fn first_of(text: &[u8], number: u8, place: usize) -> Option<usize> {
    let file = tree::file(text);
    let scopes: Vec<Vec<tree::Part>> = match number {
        8 => {
            let mut scopes = Vec::new();
            for spec in &file.specs {
                names_of(&spec.definitions, &mut scopes);
            }
            scopes
        }
        _ => vec![file.objects.iter().map(|object| object.name).collect()],
    };
    let scope = scopes
        .iter()
        .find(|names| names.iter().any(|name| name.place == place))?;
    let own = scope.iter().find(|name| name.place == place)?.of(text);
    let first = scope.iter().find(|name| name.of(text) == own)?;
    (first.place != place).then_some(first.place)
}

/// The names of each scope.
fn names_of(definitions: &[tree::Definition], scopes: &mut Vec<Vec<tree::Part>>) {
    scopes.push(definitions.iter().map(|one| one.name).collect());
    for definition in definitions {
        if let tree::Range::Choices(choices) = &definition.range {
            for choice in choices {
                names_of(&choice.definitions, scopes);
            }
        }
    }
}

/// Holds the program to `expected`; gives the refusal's number, or 0.
fn compare(text: &[u8], name: &str) -> u8 {
    let (found, wanted) = (written(text), expected(text));
    assert_eq!(
        String::from_utf8_lossy(&found),
        String::from_utf8_lossy(&wanted),
        "{name}: {:?}",
        String::from_utf8_lossy(&text[..text.len().min(2000)])
    );
    assert_eq!(found, wanted, "{name}");
    refusal(text).map_or(0, |refused| refused.number)
}

#[test]
fn explains_the_corpus() {
    let mut numbers = [0; MEANINGS.len() + 1];
    for sample in corpus::all() {
        numbers[usize::from(compare(&sample.text, &sample.name))] += 1;
    }
    compare(b"#include <>", "the main text includes itself");
    numbers[27] += 1;
    // Refusal 1 needs other tables, and 20 an output.
    for number in 0..numbers.len() {
        let is_given = number == 0 || !MEANINGS[number - 1].is_empty();
        let is_met = numbers[number] > 0 || [1, 20].contains(&number);
        assert_eq!(is_given, is_met, "a text with refusal {number}");
    }
}

/// The two lines as they are written out, by hand.
#[test]
fn shows_known_places() {
    let known: [(&[u8], &str, &str); 12] = [
        (b"", "1:1", "    1 | \n      | ^"),
        (
            b"OIL_VERSION",
            "1:12",
            "    1 | OIL_VERSION\n      |            ^",
        ),
        (b"OIL_VERSION\n", "2:1", "    2 | \n      | ^"),
        (b"OIL_VERSION\r\n", "2:1", "    2 | \n      | ^"),
        (
            b"OIL_VERSION\r",
            "1:13",
            "    1 | OIL_VERSION?\n      |             ^",
        ),
        (b"\r\n\t=\t}\r\n", "2:2", "    2 | \t=\t}\n      | \t^"),
        (
            b"OIL_VERSION\t=\t}\r\n;",
            "1:15",
            "    1 | OIL_VERSION\t=\t}\n      |            \t \t^",
        ),
        (
            b"/*\x1b[2J\xff*/ #\x7f",
            "1:11",
            "    1 | /*?[2J?*/ #?\n      |           ^",
        ),
        // The whole token is marked, a string to the end of its line.
        (
            b"OIL_VERSION = 2.50;",
            "1:15",
            "    1 | OIL_VERSION = 2.50;\n      |               ^~~~",
        ),
        (
            b"\n\"a\tb\nc\" = 2.5;",
            "2:1",
            "    2 | \"a\tb\n      | ^~\t~",
        ),
        // Columns are characters where the bytes before the place are UTF-8, else bytes.
        (
            b"/* \xc3\xbc \xe2\x82\xac \xf0\x9f\x98\x80 */ IMPLEMENTATION",
            "1:13",
            "    1 | /* ?? ??? ???? */ IMPLEMENTATION\n      |                   ^~~~~~~~~~~~~~",
        ),
        (
            b"/* \xfc \xe2\x82\xac */ IMPLEMENTATION",
            "1:13",
            "    1 | /* ? ??? */ IMPLEMENTATION\n      |             ^~~~~~~~~~~~~~",
        ),
    ];
    for (text, place, lines) in known {
        let found = String::from_utf8(written(text)).expect("printable bytes");
        let (first, rest) = found.split_once('\n').expect("a first line");
        assert!(
            first.starts_with(&format!("-:{place}: refusal ")),
            "{first}"
        );
        let (number, _) = first["-:".len() + place.len() + ": refusal ".len()..]
            .split_once(':')
            .expect("a number");
        assert_eq!(rest, format!("{lines}\nsee docs/REFUSALS.md, {number}\n"));
        assert_eq!(found.as_bytes(), expected(text));
    }
}

/// What refusal 4 says, by hand: each sort of token, a long one, and the text's end.
#[test]
fn says_what_was_found() {
    let front = "OIL_VERSION=\"2.5\";IMPLEMENTATION m{};CPU c{";
    let long = "a".repeat(41);
    let cases = [
        (
            String::new(),
            "the text ends here; expected OIL_VERSION".to_string(),
        ),
        (
            "OIL_VERSION = 2.5;".to_string(),
            "found the float `2.5`; expected a string".to_string(),
        ),
        (
            "OIL_VERSION = -25;".to_string(),
            "found the number `-25`; expected a string".to_string(),
        ),
        (
            "IMPLEMENTATION m".to_string(),
            "found the word `IMPLEMENTATION`; expected OIL_VERSION".to_string(),
        ),
        (
            "OIL_VERSION \"2.5\"".to_string(),
            "found a string; expected `=`".to_string(),
        ),
        (
            format!("{front}TASK AUTO;"),
            "found the reserved word `AUTO`; expected a name".to_string(),
        ),
        (
            format!("{front}TASK t {long};"),
            format!(
                "found the word `{}...`; expected `{{`, `;` or `:`",
                &long[..40]
            ),
        ),
        (
            format!("{front}TASK t..;"),
            "found `..`; expected `{`, `;` or `:`".to_string(),
        ),
        (
            format!("{front}}};}}"),
            "found `}`; expected the end of the text".to_string(),
        ),
    ];
    for (text, says) in cases {
        let found = String::from_utf8(written(text.as_bytes())).expect("printable bytes");
        let first = found.lines().next().expect("a first line");
        assert!(first.ends_with(&format!(": refusal 4: {says}")), "{first}");
        assert_eq!(found.as_bytes(), expected(text.as_bytes()));
    }
}

/// What docs/REFUSALS.md shows of the program: each block that begins with a place of the text on
/// standard input and ends with where to read on is what it writes for the next example.
#[test]
fn writes_as_documented() {
    let path = Path::new(env!("CARGO_MANIFEST_DIR")).join("../docs/REFUSALS.md");
    let document = std::fs::read_to_string(path).expect("the document");
    let mut blocks = 0;
    let mut rest = document.as_str();
    while let Some(at) = rest.find("\n    -:") {
        rest = &rest[at + 1..];
        let block: String = rest
            .lines()
            .map_while(|line| line.strip_prefix("    "))
            .map(|line| format!("{line}\n"))
            .collect();
        let (_, behind) = rest.split_once("\n```oil\n").expect("an example");
        let (text, _) = behind.split_once("\n```\n").expect("its end");
        let found = String::from_utf8(written(text.as_bytes())).expect("printable bytes");
        match block.contains("\nsee docs/REFUSALS.md, ") {
            true => assert_eq!(found, block),
            false => assert!(found.starts_with(&block), "{found}"),
        }
        blocks += 1;
        rest = behind;
    }
    assert_eq!(blocks, 2);
}

/// The second place, by hand: an attribute of a kind's scope and of a value's, the first of three
/// parts, names in several lines; a kind and an enumerator have none.
#[test]
fn shows_the_first_one() {
    let front = "OIL_VERSION = \"2.5\";\nIMPLEMENTATION m {\n";
    let back = "};\nCPU c { OS o; APPMODE a; };";
    let object = "OIL_VERSION = \"2.5\";\nIMPLEMENTATION m {};\nCPU c { OS o; APPMODE a;\n";
    let cases = [
        (
            format!("{front}TASK {{ UINT32 A;\n UINT32 B; INT32 A; }};\n{back}"),
            Some("-:3:15: it stands first here\n    3 | TASK { UINT32 A;\n      |               ^\n"),
        ),
        (
            format!("{front}TASK {{ UINT32 AB; ENUM [ X {{ UINT32 AB;\n STRING AB; }} ] E; }};\n{back}"),
            Some("-:3:37: it stands first here\n    3 | TASK { UINT32 AB; ENUM [ X { UINT32 AB;\n      |                                     ^~\n"),
        ),
        (format!("{front}TASK {{ }}; TASK {{ }};\n{back}"), None),
        (format!("{front}TASK {{ ENUM [ X, X ] E; }};\n{back}"), None),
        (
            format!("{object}TASK tick; TASK\ntick; EVENT tick; }};"),
            Some("-:4:6: it stands first here\n    4 | TASK tick; TASK\n      |      ^~~~\n"),
        ),
    ];
    for (text, second) in cases {
        let found = String::from_utf8(written(text.as_bytes())).expect("printable bytes");
        match second {
            Some(second) => assert!(found.contains(second), "{found}"),
            None => assert!(!found.contains("first here"), "{found}"),
        }
        assert_eq!(found.as_bytes(), expected(text.as_bytes()));
    }
}

/// Which attribute a refusal of 13 to 16 or 18 is about, by hand: the meaning, and the place that
/// belongs to it.
#[test]
fn says_which_attribute() {
    let front = "OIL_VERSION = \"2.5\";\nIMPLEMENTATION m {\n";
    let tasks = |definitions: &str, objects: &str| {
        format!("{front}TASK {{ {definitions} }};\n}};\nCPU c {{ OS o; APPMODE a;\n{objects} }};")
    };
    let long = "A".repeat(41);
    let cases = [
        // In a kind's scope and in a value's; a kind that is not specified has none.
        (
            tasks("UINT32 A = 1;", "TASK t { B = 1; };"),
            "13: the name is not defined in its scope",
            Some("3:1: this is its scope"),
        ),
        (
            tasks("ENUM [X, Y { UINT32 B; }] A;", "TASK t { A = X { B = 1; }; };"),
            "13: the name is not defined in its scope",
            Some("3:14: this is its scope"),
        ),
        (
            tasks("", "EVENT e { B = 1; };"),
            "13: the name is not defined in its scope",
            None,
        ),
        // The first of three, in another part; in braces, where the object states it too.
        (
            tasks("UINT32 A = 1;", "TASK t { A = 1; };\nTASK t; TASK t { A = 2; A = 3; };"),
            "14: the attribute `A` is no list and is stated again, in its braces or in a part of its object",
            Some("6:10: it is stated first here"),
        ),
        (
            tasks("UINT32 A = 1; ENUM [X { UINT32 A; }] B;", "TASK t { A = 1;\nB = X { A = 1; A = 2; }; };"),
            "14: the attribute `A` is no list and is stated again, in its braces or in a part of its object",
            Some("7:9: it is stated first here"),
        ),
        // Each type, AUTO, a long range, a long name.
        (
            tasks("UINT64 WITH_AUTO [1, 2] A = 1;", "TASK t { A = 3; };"),
            "15: the value does not fit its attribute `A`, UINT64 [1, 2]: it takes a whole number in its range",
            Some("3:32: the attribute is defined here"),
        ),
        (
            tasks("INT32 A = 1;", "TASK t { A = AUTO; };"),
            "15: the value does not fit its attribute `A`, INT32: it has no WITH_AUTO",
            Some("3:14: the attribute is defined here"),
        ),
        (
            tasks("STRING A;", "TASK t { A = AB; };"),
            "15: the value does not fit its attribute `A`, STRING: it takes a string",
            Some("3:15: the attribute is defined here"),
        ),
        (
            tasks("BOOLEAN [TRUE { UINT32 B = 1; },\tFALSE] A;", "TASK t { A = \"\"; };"),
            "15: the value does not fit its attribute `A`, BOOLEAN [TRUE { UINT32 B = 1; },\\x09FALSE]: it takes TRUE or FALSE",
            Some("3:48: the attribute is defined here"),
        ),
        (
            tasks(&format!("ENUM [{long}] A;"), "TASK t { A = 1; };"),
            "15: the value does not fit its attribute `A`, ENUM [...]: it takes an enumerator of its list",
            Some("3:57: the attribute is defined here"),
        ),
        (
            tasks(&format!("FLOAT {long};"), &format!("TASK t {{ {long} = 1; }};")),
            "15: the value does not fit its attribute `AAAAAAAAAAAAAAAAAAAAAAAAAAAAAAAAAAAAAAAA...`, FLOAT: it takes a float in its range",
            Some("3:14: the attribute is defined here"),
        ),
        (
            tasks("EVENT_TYPE A;", "TASK t { A = e { }; }; EVENT e;"),
            "15: the value does not fit its attribute `A`, EVENT_TYPE: it takes the name of an object, without braces",
            Some("3:19: the attribute is defined here"),
        ),
        // Of an object in two parts, of a value, and of a value taken by default.
        (
            tasks("UINT32 A; UINT32 B[]; UINT32 C;", "TASK t { A = 1; }; TASK t;"),
            "16: the attribute `C` of this object or value must be stated and is not",
            Some("3:37: the attribute is defined here"),
        ),
        (
            tasks("ENUM [X { UINT32 B; }] A;", "TASK t { A = X; };"),
            "16: the attribute `B` of this object or value must be stated and is not",
            Some("3:25: the attribute is defined here"),
        ),
        (
            tasks("ENUM [X { ENUM [Y { UINT32 B = NO_DEFAULT; }] C = Y; }] A = X;", "TASK t;"),
            "16: the attribute `B` of this object or value must be stated and is not",
            Some("3:35: the attribute is defined here"),
        ),
        (
            tasks("RESOURCE_TYPE A[];", "TASK t { A = e; }; EVENT e;"),
            "18: the reference `A` names no object of its kind, RESOURCE",
            Some("3:22: the attribute is defined here"),
        ),
    ];
    let folder = Folder::new("which");
    for (text, meaning, second) in cases {
        let found = written_which(&folder, text.as_bytes());
        let found = String::from_utf8(found).expect("printable bytes");
        let lines: Vec<&str> = found.lines().collect();
        assert!(
            lines[0].ends_with(&format!(": refusal {meaning}")),
            "{found}"
        );
        match second {
            Some(second) => assert_eq!(lines[3], format!("-:{second}"), "{found}"),
            None => assert!(lines[3].starts_with("see "), "{found}"),
        }
        assert_eq!(found.as_bytes(), answer(text.as_bytes(), true));
        compare(text.as_bytes(), meaning);
    }
    for seed in 0..600 {
        let number = [13, 14, 15, 16, 18][seed as usize % 5];
        if let Some(planted) = answered::with_faults(seed, &[number]) {
            let found = written_which(&folder, &planted.text);
            assert_eq!(found, answer(&planted.text, true), "seed {seed}");
        }
    }
}

/// A place in a line of each length about the window's, with few and many bytes before it.
#[test]
fn cuts_long_lines() {
    for before in (0..=4).chain(34..=40).chain(68..=80).chain([500]) {
        for behind in (0..=3).chain(33..=40).chain(68..=76).chain([500]) {
            for end in ["", "\n", "\r\n", "\r"] {
                let mut text = b"OIL_VERSION\n".to_vec();
                text.extend(b" \t  ".iter().cycle().take(before));
                let front = text.len();
                text.push(b'#');
                text.extend(b"ab \t\x80".iter().cycle().take(behind));
                text.extend(end.bytes());
                compare(&text, &format!("{before} before, {behind} behind"));
                // A string, which the grammar does not admit here, is marked to its end.
                text[front..front + 1 + behind].fill(b'a');
                text[front] = b'"';
                text[front + behind] = b'"';
                compare(&text, &format!("{before} before, {behind} in a string"));
            }
        }
    }
}

#[test]
fn explains_generated_texts() {
    for seed in 0..600 {
        let random = &mut Random::new(seed);
        let length = random.below(300);
        compare(&texts::few_bytes(random, length), "few bytes");
        compare(&texts::any(seed), "any text");
        let sound = answered::accepted(seed).text;
        compare(&sound, "an accepted text");
        let number = PLANTED[seed as usize % PLANTED.len()];
        if let Some(planted) = answered::with_faults(seed, &[number]) {
            compare(&planted.text, "a planted fault");
        }
        compare(&texts::damaged(random, &sound), "a damaged text");
        // The same with CR LF, and with tabs.
        let damaged = texts::damaged(random, &sound);
        let with_cr: Vec<u8> = damaged
            .iter()
            .flat_map(|&byte| match byte {
                b'\n' => b"\r\n".to_vec(),
                b' ' if random.once_in(3) => b"\t".to_vec(),
                byte => vec![byte],
            })
            .collect();
        compare(&with_cr, "a damaged text with CR LF and tabs");
        let cut = random.below(sound.len() + 1);
        compare(&sound[..cut], "a text cut short");
    }
}

#[test]
fn explains_long_texts() {
    for length in [65_534, 65_535, 65_536, 65_537, 200_000] {
        for part in ["a ", "\n", "\r\n", "a"] {
            let text = part.repeat(length).into_bytes()[..length].to_vec();
            compare(&text, &format!("{length} bytes of {part:?}"));
        }
    }
}
