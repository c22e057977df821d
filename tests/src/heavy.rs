//! Texts that take much work: full tables, and texts made against loops over rows or over
//! the text, as heavy as they get within the longest text.

use crate::configuration::configuration;
use crate::meaning::LONGEST_TEXT;

/// A text, and the number of its refusal; 0 where it is accepted.
pub struct Heavy {
    pub name: &'static str,
    pub text: Vec<u8>,
    pub number: u8,
}

/// All heavy texts.
pub fn heavy() -> Vec<Heavy> {
    let mut all = full();
    all.extend(against_numbers());
    all.extend(against_floats());
    all.extend(against_names());
    all.extend(against_defaults());
    all.extend(against_scopes());
    all.extend(against_all());
    all.extend(in_parts());
    all.extend(against_kinds());
    all.extend(against_summaries());
    all.extend(against_stack());
    all
}

fn file(specs: &str, objects: &str) -> String {
    format!("OIL_VERSION=\"2.5\";IMPLEMENTATION m{{{specs}}};CPU c{{OS o;APPMODE a;{objects}}};")
}

fn accepted(name: &'static str, specs: &str, objects: &str) -> Heavy {
    refused(name, specs, objects, 0)
}

fn refused(name: &'static str, specs: &str, objects: &str, number: u8) -> Heavy {
    Heavy {
        name,
        text: file(specs, objects).into_bytes(),
        number,
    }
}

/// An accepted text in which `#` stands for as many pieces as there is room for.
fn filled(name: &'static str, specs: &str, objects: &str, piece: &str) -> Heavy {
    let text = file(specs, objects);
    let count = (LONGEST_TEXT + 1 - text.len()) / piece.len();
    Heavy {
        name,
        text: text.replacen('#', &piece.repeat(count), 1).into_bytes(),
        number: 0,
    }
}

/// What `one` writes for each number below `count`.
fn each(count: usize, one: impl Fn(usize) -> String) -> String {
    (0..count).map(one).collect()
}

/// A name of so many bytes; names of one length differ in their last two bytes only.
fn name(length: usize, number: usize) -> String {
    const BYTES: &[u8; 63] = b"abcdefghijklmnopqrstuvwxyzABCDEFGHIJKLMNOPQRSTUVWXYZ0123456789_";
    let last = [BYTES[number / 63], BYTES[number % 63]].map(char::from);
    "n".repeat(length - 2) + &String::from_iter(last)
}

/// A name of so many bytes; names of one length differ in the two bytes after the first only.
fn inner(length: usize, number: usize) -> String {
    let last = name(2, number);
    "n".to_string() + &last + &"n".repeat(length - 3)
}

/// Texts that fill the tables.
fn full() -> Vec<Heavy> {
    let definitions = each(512, |number| format!("UINT32 d{number}=1;"));
    let enumerators = each(1_023, |number| format!("e{number},"));
    let lists = each(500, |number| format!("UINT32 d{number}[];"));
    let tasks = each(254, |number| format!("TASK t{number};"));
    let comment = "x".repeat(65_000);
    vec![
        Heavy {
            name: "51 KB, 250 objects",
            text: configuration(51_000).into_bytes(),
            number: 0,
        },
        accepted(
            "512 definitions in one scope",
            &format!("OS{{{definitions}}};"),
            "",
        ),
        accepted(
            "1,024 enumerators",
            &format!("OS{{ENUM[{enumerators}e]x=e;}};"),
            "",
        ),
        accepted(
            "2,048 statements in one object",
            "TASK{UINT32 x[];};",
            &format!("TASK t{{{}}};", "x=1;".repeat(2_048)),
        ),
        accepted(
            "256 objects, 500 list attributes",
            &format!("TASK{{{lists}}};"),
            &tasks,
        ),
        accepted(
            "one comment of 65,000 bytes",
            &format!("/*{comment}*/"),
            "TASK t;",
        ),
    ]
}

/// Numbers and ranges that are read from the text again and again.
fn against_numbers() -> Vec<Heavy> {
    let stated = format!("TASK t{{{}}};", "x=0;".repeat(2_048));
    vec![
        filled(
            "a number sought in a long list",
            "TASK{UINT32[#0]x[];};",
            &stated,
            "1,",
        ),
        filled(
            "a range with a long comment",
            "TASK{UINT32[0../*#*/9]x[];};",
            &stated,
            "x",
        ),
        filled(
            "a range with many small comments",
            "TASK{UINT32[0..#9]x[];};",
            &stated,
            "/**/",
        ),
        filled(
            "a range with many blanks",
            "TASK{UINT32[0..#9]x[];};",
            &stated,
            " ",
        ),
        filled(
            "a range with a long bound",
            "TASK{UINT32[0..0x#9]x[];};",
            &stated,
            "0",
        ),
        filled(
            "a long number by default, taken 1,024 times",
            "TASK{ENUM[A{UINT32 y=0x#9;}]x[];};",
            &format!("TASK t{{{}}};", "x=A;".repeat(1_024)),
            "0",
        ),
    ]
}

/// Floats (document 02, Q-4): many of them, far apart, and long words that are read from the
/// text again and again.
fn against_floats() -> Vec<Heavy> {
    let stated = |value: &str| format!("TASK t{{{}}};", format!("x={value};").repeat(2_048));
    let ranged = each(512, |number| {
        format!(
            "FLOAT[-{number}.5e-64..{number}.5e64]{}=0.{number}e{};",
            name(2, number),
            number % 65
        )
    });
    let different = each(2_048, |number| {
        format!("x=0.1234567890123{number:04}e-{};", number % 65)
    });
    vec![
        accepted(
            "2,048 floats far from their bounds",
            "TASK{FLOAT[-99999999999999999.9e64..99999999999999999.9e64]x[];};",
            &stated("0.00000000000000001e-64"),
        ),
        accepted(
            "2,048 floats near to their bounds",
            "TASK{FLOAT[0.10000000000000000..0.10000000000000002]x[];};",
            &stated("100000000000.000010e-12"),
        ),
        accepted(
            "2,048 different floats of 17 digits",
            "TASK{FLOAT[0.0..1.0]x[];};",
            &format!("TASK t{{{different}}};"),
        ),
        accepted(
            "512 FLOATs with ranges and defaults",
            &format!("TASK{{{ranged}}};"),
            "TASK t;",
        ),
        filled(
            "a range of floats with a long comment",
            "TASK{FLOAT[0.0../*#*/9.0]x[];};",
            &stated("0.0"),
            "x",
        ),
        filled(
            "a range of floats with many small comments",
            "TASK{FLOAT[0.0..#9.0]x[];};",
            &stated("0.0"),
            "/**/",
        ),
        filled(
            "a range of floats with a long bound",
            "TASK{FLOAT[0.0..1.0e#9]x[];};",
            &stated("0.0"),
            "0",
        ),
        filled(
            "a long float by default, taken 1,024 times",
            "TASK{ENUM[A{FLOAT[0.0..1.0e9]y=1.0e#9;}]x[];};",
            &format!("TASK t{{{}}};", "x=A;".repeat(1_024)),
            "0",
        ),
    ]
}

/// Names that agree but in their last two bytes, sought in the rows.
fn against_names() -> Vec<Heavy> {
    let definitions = |count, length, mark: &str| {
        each(count, |number| {
            format!("INT32 {}{mark};", name(length, number))
        })
    };
    let statements = |count, length, from: usize, step: usize| {
        each(count, |number| {
            format!("{}=1;", name(length, from + step * number))
        })
    };
    // All but the last definition must be stated, and are so after a long list.
    let needed = format!(
        "TASK{{{}INT32 {}[];}};",
        definitions(511, 20, ""),
        name(20, 511)
    );
    let late = format!(
        "TASK t{{{}{}}};",
        statements(1_520, 20, 511, 0),
        statements(511, 20, 0, 1)
    );
    let lists = format!("TASK{{{}}};", definitions(512, 20, "[]"));
    let spread = each(254, |number| {
        format!("TASK {}{{{}}};", name(2, number), statements(7, 20, 505, 1))
    });

    let behind = format!(
        "TASK{{{}ENUM[A]{}[];}};",
        definitions(511, 2, "[]"),
        name(2, 511)
    );
    let list = format!("{}=A;", name(2, 511)).repeat(2_048);

    let enumerators = |length| each(1_024, |number| format!(",{}", name(length, number)));
    let enumerated = format!("TASK{{ENUM[{}]x[];}};", &enumerators(18)[1..]);
    let values = format!("x={};", name(18, 1_023)).repeat(2_048);
    let long = format!("TASK{{ENUM[{}]x;}};", &enumerators(62)[1..]);

    let objects = |count, length| each(count, |number| format!("TASK {};", name(length, number)));
    let references = format!("x={};", name(25, 252)).repeat(2_048);
    let halves = format!(
        "TASK{{ENUM[A{{{}}},B{{{}}}]x;}};",
        definitions(255, 117, ""),
        each(256, |number| format!("INT32 {};", name(117, 255 + number)))
    );
    vec![
        accepted(
            "511 needed attributes stated behind a long list",
            &needed,
            &late,
        ),
        refused(
            "statements of no definition",
            &lists,
            &format!("TASK t{{{}}};", statements(2_040, 20, 600, 1)),
            13,
        ),
        refused(
            "one attribute stated again and again",
            &format!("TASK{{{}}};", definitions(512, 20, "=1")),
            &format!("TASK t{{{}}};", statements(2_040, 20, 511, 0)),
            14,
        ),
        accepted("statements in 254 objects", &lists, &spread),
        accepted(
            "a list behind 511 others, stated 2,048 times",
            &behind,
            &format!("TASK t{{{list}}};"),
        ),
        accepted(
            "an enumerator sought 2,048 times",
            &enumerated,
            &format!("TASK t{{{values}}};"),
        ),
        refused(
            "no enumerator, sought 2,048 times",
            &enumerated,
            &format!(
                "TASK t{{{}}};",
                format!("x={};", name(18, 1_024)).repeat(2_048)
            ),
            15,
        ),
        accepted("long enumerators", &long, ""),
        accepted(
            "an object sought 2,048 times",
            "ISR{TASK_TYPE x[];};",
            &format!("{}ISR i{{{references}}};", objects(253, 25)),
        ),
        accepted("long object names", "", &objects(254, 250)),
        accepted(
            "512 long definitions in one scope",
            &format!("TASK{{{}}};", definitions(512, 120, "")),
            "",
        ),
        accepted("512 long definitions under two values", &halves, ""),
    ]
}

/// Values taken by default.
fn against_defaults() -> Vec<Heavy> {
    let stated = format!("TASK t{{{}}};", "x=A;".repeat(1_024));
    let enumerators = each(1_022, |number| format!("{},", name(56, number)));
    let long = "n".repeat(30_500);
    let open = "ENUM[A{".repeat(14);
    let close = each(14, |number| format!("}}]{}=A;", name(2, number)));
    let rows = each(498, |number| format!("INT32 {}[];", name(3, number)));
    let tasks = each(146, |number| format!("TASK {};", name(2, number)));
    let presets = each(512, |number| format!("INT32 {}=1;", name(60, number)));
    vec![
        accepted(
            "an enumerator by default, sought 1,024 times",
            &format!(
                "TASK{{ENUM[A{{ENUM[{enumerators}{last}]y={last};}}]x[];}};",
                last = name(56, 1_022)
            ),
            &stated,
        ),
        accepted(
            "a long enumerator by default, taken 1,024 times",
            &format!("TASK{{ENUM[A{{ENUM[{long}]y={long};}}]x[];}};"),
            &stated,
        ),
        accepted(
            "defaults fourteen deep",
            &format!("TASK{{{rows}{open}{close}}};"),
            &tasks,
        ),
        refused(
            "more values than there may be",
            &format!("TASK{{{presets}}};"),
            &each(254, |number| format!("TASK {};", name(2, number))),
            19,
        ),
    ]
}

/// Names that agree in their lengths, their first and their last bytes, sought in the rows.
fn against_summaries() -> Vec<Heavy> {
    let definitions = |count, length, mark: &str| {
        each(count, |number| {
            format!("INT32 {}{mark};", inner(length, number))
        })
    };
    let statements = |count, from: usize, step: usize| {
        each(count, |number| {
            format!("{}=1;", inner(20, from + step * number))
        })
    };
    let needed = format!(
        "TASK{{{}INT32 {}[];}};",
        definitions(511, 20, ""),
        inner(20, 511)
    );
    let late = format!(
        "TASK t{{{}{}}};",
        statements(1_520, 511, 0),
        statements(511, 0, 1)
    );
    let lists = format!("TASK{{{}}};", definitions(512, 20, "[]"));
    let enumerators = each(1_024, |number| format!(",{}", inner(18, number)));
    let values = format!("x={};", inner(18, 1_023)).repeat(2_048);
    let objects = |count, length| each(count, |number| format!("TASK {};", inner(length, number)));
    let references = format!("x={};", inner(25, 252)).repeat(2_048);
    vec![
        accepted("511 needed attributes, alike at both ends", &needed, &late),
        refused(
            "statements of no definition, alike at both ends",
            &lists,
            &format!("TASK t{{{}}};", statements(2_040, 600, 1)),
            13,
        ),
        accepted(
            "an enumerator sought 2,048 times, alike at both ends",
            &format!("TASK{{ENUM[{}]x[];}};", &enumerators[1..]),
            &format!("TASK t{{{values}}};"),
        ),
        accepted(
            "an object sought 2,048 times, alike at both ends",
            "ISR{TASK_TYPE x[];};",
            &format!("{}ISR i{{{references}}};", objects(253, 25)),
        ),
        accepted(
            "512 long definitions, alike at both ends",
            &format!("TASK{{{}}};", definitions(512, 120, "")),
            "",
        ),
        accepted(
            "long object names, alike at both ends",
            "",
            &objects(254, 250),
        ),
    ]
}

/// One name in many lists or scopes.
fn against_scopes() -> Vec<Heavy> {
    let lists = format!(
        "TASK{{{}}};",
        each(512, |number| format!("ENUM[A]{}[];", name(2, number)))
    );
    let stated = |from, count| each(count, |number| format!("{}=A;", name(2, from + number)));
    let last = stated(511, 1);
    let four = each(4, |number| {
        format!("TASK {}{{{}}};", name(2, number), stated(0, 511))
    });
    let needed = format!(
        "TASK{{{}ENUM[A]{}[];}};",
        each(511, |number| format!("ENUM[A]{};", name(2, number))),
        name(2, 511)
    );
    let scopes = each(511, |number| format!(",{}{{INT32 n;}}", name(2, number)));
    let subs = each(500, |number| format!("INT32 {}[];", name(2, number)));
    let opened = format!("TASK{{ENUM[A{{{subs}}}]x[];}};");
    vec![
        accepted(
            "one word in 512 lists, that of the last sought 2,048 times",
            &lists,
            &format!("TASK t{{{}}};", last.repeat(2_048)),
        ),
        accepted(
            "one word in 512 lists, that of each sought four times",
            &lists,
            &format!("TASK t{{{}}};", stated(0, 512).repeat(4)),
        ),
        accepted(
            "one word in 512 lists, sought by four objects",
            &lists,
            &four,
        ),
        accepted(
            "one word in 512 lists, 511 stated behind the last",
            &needed,
            &format!("TASK t{{{}{}}};", last.repeat(1_537), stated(0, 511)),
        ),
        accepted(
            "one name under 511 values, the last opened 1,024 times",
            &format!("TASK{{ENUM[{}]x[];}};", &scopes[1..]),
            &format!(
                "TASK t{{{}}};",
                format!("x={}{{n=1;}};", name(2, 510)).repeat(1_024)
            ),
        ),
        accepted(
            "500 lists under a value, opened 2,048 times",
            &opened,
            &format!("TASK t{{{}}};", "x=A;".repeat(2_048)),
        ),
        accepted(
            "500 lists under a value, one stated 1,024 times",
            &opened,
            &format!(
                "TASK t{{{}}};",
                format!("x=A{{{}=1;}};", name(2, 499)).repeat(1_024)
            ),
        ),
        accepted(
            "500 lists under a value, one stated 64 times in each of 31 blocks",
            &opened,
            &format!(
                "TASK t{{{}}};",
                format!("x=A{{{}}};", format!("{}=1;", name(2, 499)).repeat(64)).repeat(31)
            ),
        ),
    ]
}

/// What `one` writes for the numbers of each object, once for each of two parts.
fn twice(one: impl Fn(usize) -> String) -> String {
    let parts = each(254, one);
    format!("{parts}OS o;APPMODE a;{parts}")
}

/// Objects in parts (document 02, Q-2): 512 of them, with the OS and the mode.
fn in_parts() -> Vec<Heavy> {
    let lists = each(500, |number| format!("UINT32 {}[];", name(2, number)));
    let stated = |number: usize| format!("{}=1;", name(2, number % 500));
    // Four statements in each of 510 parts, and eight more in the first.
    let statements = format!(
        "TASK t{{{}}};{}",
        "x=1;".repeat(12),
        "TASK t{x=1;x=2;x=3;x=4;};".repeat(509)
    );
    vec![
        accepted("512 parts of one object", "", &"TASK t;".repeat(510)),
        accepted(
            "256 objects in two parts each, interleaved",
            "TASK{UINT32 x[];};",
            &twice(|number| format!("TASK t{number}{{x=1;}};")),
        ),
        accepted(
            "2,048 statements over 512 parts",
            "TASK{UINT32 x[];};",
            &statements,
        ),
        accepted(
            "256 objects in two parts each, names of 110 bytes",
            "",
            &twice(|number| format!("TASK {};", name(110, number))),
        ),
        accepted(
            "512 parts of one object with a name of 110 bytes",
            "",
            &format!("TASK {};", name(110, 0)).repeat(510),
        ),
        accepted(
            "500 lists stated in turn over 512 parts",
            &format!("TASK{{{lists}}};"),
            &each(510, |number| {
                let four = each(4, |one| stated(4 * number + one));
                format!("TASK t{{{four}}};")
            }),
        ),
        refused(
            "500 attributes over 500 parts, the first again in the last",
            &format!("TASK{{{}}};", lists.replace("[]", "")),
            &format!(
                "{}TASK t{{{}}};",
                each(500, |number| format!("TASK t{{{}}};", stated(number))),
                stated(0)
            ),
            14,
        ),
        refused(
            "512 parts of 256 objects, part 513 behind them",
            "",
            &format!(
                "{}TASK {};",
                twice(|number| format!("TASK {};", name(100, number))),
                name(100, 253)
            ),
            11,
        ),
    ]
}

/// Names in several kinds (document 02, Q-5).
fn against_kinds() -> Vec<Heavy> {
    const WORDS: [&str; 4] = ["TASK", "EVENT", "MESSAGE", "IPDU"];
    let object = |number: usize| format!("{} {};", WORDS[number % 4], name(230, number));
    let all = each(254, object);
    // 255 objects in two parts each; the last part is of another kind.
    let parts = each(253, |number| format!("TASK {};", name(115, number)));
    let last = name(115, 252);
    let front = parts.strip_suffix(&format!("TASK {last};"));
    let front = front.expect("the last part");
    vec![
        accepted("256 objects of five kinds, names of 230 bytes", "", &all),
        refused(
            "510 parts, the last of another kind",
            "",
            &format!("{parts}OS o;APPMODE a;{front}ISR {last};"),
            24,
        ),
        refused(
            "254 objects, each name in two kinds",
            "",
            &each(254, |number| {
                format!("{} {};", WORDS[number / 127], name(250, number % 127))
            }),
            24,
        ),
    ]
}

/// Numbers of one byte, as many as there can be.
const DIGITS: &str = "9,8,7,6,5,4,3,2,1,0,";

/// The two words of a list of enumerators.
fn words(number: usize) -> [&'static str; 2] {
    [["A", "C"], ["B", "D"]][number % 2]
}

/// Several of these at once.
fn against_all() -> Vec<Heavy> {
    let needed =
        |sort: &str, end: &str| each(510, |number| format!("{sort}{}{end};", name(2, number)));
    let late = |value| each(510, |number| format!("{}={value};", name(2, number)));
    let list = name(2, 511);
    let stated = |value| {
        format!(
            "TASK t{{{}{}}};",
            format!("{list}={value};").repeat(1_537),
            late(value)
        )
    };
    vec![
        filled(
            "510 attributes behind a list of numbers from a long list",
            &format!("TASK{{{}UINT32[#0]{list}[];}};", needed("UINT32 ", "")),
            &stated("0"),
            "1,",
        ),
        filled(
            "510 attributes behind a list of enumerators, beside a long list",
            &format!(
                "TASK{{{}ENUM[A,B]{list}[];}};ISR{{UINT32[#0]x[];}};",
                needed("ENUM[A,B]", "")
            ),
            &stated("B"),
            DIGITS,
        ),
        filled(
            "510 attributes with defaults behind a list, beside a long list",
            &format!(
                "TASK{{{}ENUM[A,B]{list}[]=B;}};ISR{{UINT32[#0]x[];}};",
                needed("ENUM[A,B]", "=B")
            ),
            &stated("B"),
            DIGITS,
        ),
        filled(
            "511 attributes with defaults in four objects, beside a long list",
            &format!(
                "TASK{{{}}};ISR{{UINT32[#0]x[];}};",
                each(511, |number| format!("ENUM[A,B]{}=B;", name(2, number)))
            ),
            &each(4, |object| {
                let stated = each(511, |number| format!("{}=B;", name(2, number)));
                format!("TASK t{object}{{{stated}}};")
            }),
            DIGITS,
        ),
        filled(
            "511 lists stated in turn, beside a long list",
            &format!(
                "TASK{{{}}};ISR{{INT64[#0]x[];}};",
                each(511, |number| {
                    let [first, second] = words(number);
                    format!("ENUM[{first},{second}]{}[]={second};", name(2, number))
                })
            ),
            &format!(
                "TASK t{{{}}};",
                each(511, |number| format!(
                    "{}={};",
                    name(2, number),
                    words(number)[1]
                ))
                .repeat(4)
            ),
            DIGITS,
        ),
        filled(
            "509 lists under a value, opened 2,048 times, beside a long list",
            &format!(
                "TASK{{ENUM[A{{{}}}]x[];}};ISR{{INT64[#0]x[];}};",
                each(509, |number| format!("ENUM[A,B]{}[];", name(2, number)))
            ),
            &format!("TASK t{{{}}};", "x=A;".repeat(2_048)),
            DIGITS,
        ),
    ]
}

/// Sixteen open braces, 64 definitions and more, and a list of more than 1,024 numbers: the most stack that a
/// reading takes. Each block has eight rows or more.
fn against_stack() -> Vec<Heavy> {
    let list = each(1_100, |number| format!(",{number}"));
    let definitions = each(64, |number| format!("UINT32 d{number}=1;"));
    let mut specs = format!("{definitions}UINT32[{}]l[];", &list[1..]);
    let mut statements = each(39, |number| format!("l={number};"));
    for _ in 0..14 {
        specs = format!("ENUM[A{{{specs}}}]e=A;");
        statements = format!("e=A{{{statements}}};");
    }
    let specs = format!("TASK{{{specs}}};");
    let refused_inside = statements.replace("l=38;", "l=9999;");
    let task = |statements: &str| format!("TASK t{{{statements}}};");
    vec![
        accepted("sixteen braces", &specs, &task(&statements)),
        accepted("sixteen braces, by default", &specs, "TASK t;"),
        refused(
            "sixteen braces, refused in the last",
            &specs,
            &task(&refused_inside),
            15,
        ),
    ]
}

#[cfg(test)]
mod tests {
    use super::*;
    use crate::meaning::read;

    #[test]
    fn are_answered() {
        for heavy in heavy() {
            let number = read(&heavy.text).map_or_else(|refusal| refusal.number, |_| 0);
            assert!(
                heavy.text.len() <= LONGEST_TEXT,
                "{}: {} bytes",
                heavy.name,
                heavy.text.len()
            );
            assert_eq!(number, heavy.number, "{}", heavy.name);
        }
    }
}
