//! Texts at each limit of document 01, and one past it, with their refusal.

use crate::meaning::Refusal;
use crate::normal::normal;

/// A text and its refusal; none where it is accepted.
pub struct Limit {
    pub name: String,
    pub text: Vec<u8>,
    pub refusal: Option<Refusal>,
}

const OBJECTS: &str = "OS o;\nAPPMODE a;\n";

/// A text with these specs and objects. Where there is an `@`, it is taken out, and the text
/// is refused by this number at that place.
fn limit(name: String, specs: &str, objects: &str, number: u8) -> Limit {
    let text = format!(
        "OIL_VERSION = \"2.5\";\nIMPLEMENTATION m {{\n{specs}}};\nCPU c {{\n{objects}}};\n"
    );
    let refusal = text.find('@').map(|place| Refusal { number, place });
    Limit {
        name,
        text: text.replacen('@', "", 1).into_bytes(),
        refusal,
    }
}

/// What `one` writes for each number from 1 to `count`, which is told whether to mark it.
fn each(count: usize, marked: usize, one: impl Fn(usize, &str) -> String) -> String {
    (1..=count)
        .map(|number| one(number, if number == marked { "@" } else { "" }))
        .collect()
}

/// All texts at the limits.
pub fn limits() -> Vec<Limit> {
    let mut all = Vec::new();
    for count in [511, 512, 513, 514, 600] {
        all.extend(definitions(count));
    }
    for count in [1_023, 1_024, 1_025, 1_100] {
        all.extend(enumerators(count));
    }
    for count in [255, 256, 257, 300] {
        all.extend(objects(count));
    }
    for count in [511, 512, 513, 514, 600] {
        all.extend(parts(count));
    }
    for count in [2_047, 2_048, 2_049, 2_060] {
        all.extend(statements(count));
        all.extend(values(count));
    }
    for count in [65_534, 65_535, 65_536, 70_000] {
        all.extend(bytes(count));
    }
    for count in 14..=18 {
        all.extend(braces(count));
    }
    for digits in 16..=20 {
        all.extend(float_digits(digits));
    }
    for exponent in [-128, -66, -65, -64, -63, 0, 63, 64, 65, 66, 128, 320] {
        all.extend(float_exponents(exponent));
    }
    all.extend(two_limits());
    all.extend(object_limits());
    all
}

fn definitions(count: usize) -> Vec<Limit> {
    let name = |shape: &str| format!("{count} definitions, {shape}");
    let one = |number, mark: &str| format!("UINT32 {mark}d{number} = 1;\n");
    let flat = format!("OS {{\n{}}};\n", each(count, 513, one));

    // The attribute's name stands after its list, so that it is the last one.
    let inside = each(count - 1, 513, one);
    let mark = if count == 513 { "@" } else { "" };
    let nested = format!("TASK {{\nENUM [A {{\n{inside}}}, B] {mark}last = B;\n}};\n");

    // The attribute of the last list is definition 512 or the next one after it.
    let first = each(count - 2, 513, one);
    let mark = if count == 514 { "@" } else { "" };
    let next = if count == 513 { "@" } else { "" };
    let parted = format!(
        "OS {{\n{first}}};\nTASK {{\nBOOLEAN [TRUE {{ TASK_TYPE {mark}x; }}, FALSE] {next}b = FALSE;\n}};\n"
    );
    vec![
        limit(name("in one kind"), &flat, OBJECTS, 7),
        limit(name("under a value"), &nested, OBJECTS, 7),
        limit(name("in two kinds"), &parted, OBJECTS, 7),
    ]
}

fn enumerators(count: usize) -> Vec<Limit> {
    let name = |shape: &str| format!("{count} enumerators, {shape}");
    let one = |number, mark: &str| format!(", {mark}e{number}");
    let list = each(count, 1_025, one);
    let flat = format!("OS {{\nENUM [{}] x = e1;\n}};\n", &list[2..]);

    // Eight in each list, TRUE and FALSE not counted.
    let eight = |number, mark: &str| match number % 8 {
        1 => format!("BOOLEAN [TRUE {{ ENUM [{mark}e1"),
        0 => format!(", {mark}e8] x = e1; }}, FALSE] b{number} = FALSE;\n"),
        index => format!(", {mark}e{index}"),
    };
    let rest = match count % 8 {
        0 => "",
        _ => "] x = e1; }, FALSE] b = FALSE;\n",
    };
    let eights = format!("TASK {{\n{}{rest}}};\n", each(count, 1_025, eight));
    vec![
        limit(name("in one list"), &flat, OBJECTS, 7),
        limit(name("in many lists"), &eights, OBJECTS, 7),
    ]
}

fn objects(count: usize) -> Vec<Limit> {
    let name = |shape: &str| format!("{count} objects, {shape}");
    let task = |number, mark: &str| format!("{mark}TASK t{number};\n");
    let after = format!("{OBJECTS}{}", each(count - 2, 255, task));

    // The OS is the last object.
    let mark = if count == 257 { "@" } else { "" };
    let before = each(count - 2, 256, |number, mark| {
        format!("{mark}EVENT e{number} {{}};\n")
    });
    let last = format!("APPMODE a;\n{before}{mark}OS o;\n");

    // Each task in two parts: object 257 comes before part 513.
    let task = |number, mark: &str| format!("{mark}TASK t{number};\nTASK t{number} {{}};\n");
    let twice = format!("{OBJECTS}{}", each((count - 2).min(255), 255, task));
    vec![
        limit(name("in two parts each"), "", &twice, 11),
        limit(name("OS first"), "", &after, 11),
        limit(name("OS last"), "", &last, 11),
    ]
}

/// Parts of objects; 512 counts all of them, first ones too.
fn parts(count: usize) -> Vec<Limit> {
    let name = |shape: &str| format!("{count} parts, {shape}");
    let specs = "TASK { UINT32 x[]; };\n";
    let one = |number, mark: &str| match number % 3 {
        0 => format!("{mark}TASK t;\n"),
        1 => format!("{mark}TASK t {{}};\n"),
        _ => format!("{mark}TASK t {{ x = {number}; }};\n"),
    };
    let of_one = format!("{OBJECTS}{}", each(count - 2, 511, one));

    // Each of 254 tasks, then the same again, then the rest.
    let task = |number, mark: &str| {
        let task = (number - 1) % 254;
        format!("{mark}TASK t{task} {{ x = {number}; }};\n")
    };
    let in_turn = format!("{OBJECTS}{}", each(count - 2, 511, task));

    // Each object in two parts, one right after the other, the OS and the mode last. With more
    // parts there are more than 256 objects.
    let task = |number, _: &str| format!("TASK t{};\n", (number - 1) / 2);
    let behind = each(count.min(512) - 4, 0, task);
    let behind = format!("{behind}OS o;\nOS o {{}};\nAPPMODE a {{}};\nAPPMODE a;\n");

    // Further parts of the OS are no second one.
    let system = |_, mark: &str| format!("{mark}OS o {{}};\n");
    let systems = format!("{OBJECTS}{}", each(count - 2, 511, system));
    vec![
        limit(name("of one object"), specs, &of_one, 11),
        limit(name("of 256 objects in turn"), specs, &in_turn, 11),
        limit(name("at most 512, each behind the other"), "", &behind, 11),
        limit(name("of the OS"), "", &systems, 11),
    ]
}

fn statements(count: usize) -> Vec<Limit> {
    let name = |shape: &str| format!("{count} statements, {shape}");
    let specs = "TASK { BOOLEAN [TRUE { UINT32 x[]; }, FALSE] b[]; };\n";
    let flat = each(count, 2_049, |_, mark| format!("{mark}b = FALSE;\n"));
    let flat = format!("{OBJECTS}TASK t {{\n{flat}}};\n");

    // One statement holds all others.
    let inside = each(count - 1, 2_048, |_, mark| format!("{mark}x = 1;\n"));
    let nested = format!("{OBJECTS}TASK t {{\nb = TRUE {{\n{inside}}};\n}};\n");

    // In 510 parts of one object: four in each but the first, which has the rest.
    let first = count - 509 * 4;
    let in_parts = each(count, 2_049, |number, mark| {
        let ends = number >= first && number < count && (number - first).is_multiple_of(4);
        let end = if ends { "};\nTASK t {\n" } else { "" };
        format!("{mark}b = FALSE;\n{end}")
    });
    let in_parts = format!("{OBJECTS}TASK t {{\n{in_parts}}};\n");

    // Statements that are at fault count too; those faults are of a later stage.
    let wrong = each(count, 2_049, |_, mark| format!("{mark}y = 1;\n"));
    let mut wrong = limit(
        name("none of them defined"),
        specs,
        &format!("{OBJECTS}TASK t {{\n{wrong}}};\n"),
        11,
    );
    wrong.refusal = wrong.refusal.or(Some(Refusal {
        number: 13,
        place: find(&wrong.text, "y = 1"),
    }));
    vec![
        limit(name("in one block"), specs, &flat, 11),
        limit(name("under a value"), specs, &nested, 11),
        limit(name("in parts"), specs, &in_parts, 11),
        wrong,
    ]
}

fn find(text: &[u8], word: &str) -> usize {
    let places = text.windows(word.len());
    let mut places = places.map(|window| window == word.as_bytes());
    places.position(|is_there| is_there).expect("the word")
}

/// Resolved values: eight by default for each of 254 tasks, and the entries of a list.
fn values(count: usize) -> Vec<Limit> {
    let defaults = each(8, 0, |number, _| format!("UINT32 d{number} = {number};\n"));
    let specs = format!("OS {{ UINT32 x[]; }};\nTASK {{\n{defaults}}};\n");
    let tasks = each(254, 0, |number, _| format!("TASK t{number};\n"));
    let entries = each(count - 254 * 8, 0, |number, _| format!("x = {number};\n"));
    let objects = format!("OS o {{\n{entries}}};\nAPPMODE a;\n{tasks}");
    let mut all = limit(format!("{count} values"), &specs, &objects, 19);
    if count > 2_048 {
        all.refusal = Some(Refusal {
            number: 19,
            place: 0,
        });
    }
    vec![all]
}

/// Texts of this length.
fn bytes(count: usize) -> Vec<Limit> {
    let small = limit(String::new(), "", OBJECTS, 0).text;
    let refusal = (count > 65_535).then_some(Refusal {
        number: 2,
        place: 0,
    });
    let padded = |name: &str, pad: u8| {
        let mut text = small.clone();
        text.extend(b"//");
        text.resize(count, pad);
        Limit {
            name: format!("{count} bytes, {name}"),
            text,
            refusal,
        }
    };
    // No token at all, but the length comes first.
    let nothing = Limit {
        name: format!("{count} bytes, no token"),
        text: vec![b'#'; count],
        refusal: refusal.or(Some(Refusal {
            number: 3,
            place: 0,
        })),
    };
    vec![
        padded("a comment", b'x'),
        padded("empty lines", b'\n'),
        nothing,
    ]
}

/// Braces open at once, of definitions and of statements.
fn braces(count: usize) -> Vec<Limit> {
    let open = |start: usize, one: &dyn Fn(&str) -> String| -> String {
        let marked = |number| if number == 17 { "@" } else { "" };
        (start..=count).map(|number| one(marked(number))).collect()
    };
    let definitions = open(3, &|mark| format!("ENUM [A {mark}{{ "));
    let ends = "} ] e = A; ".repeat(count - 2);
    let specs = format!("TASK {{ {definitions}{ends}}};\n");
    let deep = limit(format!("{count} braces in definitions"), &specs, OBJECTS, 5);

    let specs = "TASK { BOOLEAN [TRUE { UINT32 x[]; }, FALSE] b[]; };\n";
    let statements = open(3, &|mark| format!("b = TRUE {mark}{{ "));
    let ends = "}; ".repeat(count - 2);
    let objects = format!("{OBJECTS}TASK t {{ {statements}{ends}}};\n");
    let mut blocks = limit(format!("{count} braces in statements"), specs, &objects, 5);
    // The second b is in a scope that does not have it.
    blocks.refusal = blocks.refusal.or(Some(Refusal {
        number: 13,
        place: find(&blocks.text, "{ b = TRUE { b") + 13,
    }));
    vec![deep, blocks]
}

/// A float as default, as bound and as value; refused where it is none.
fn float(word: &str, is_float: bool) -> Vec<Limit> {
    let mark = if is_float { "" } else { "@" };
    let name = |shape: &str| format!("{word} as {shape}");
    let default = format!("OS {{ FLOAT f = {mark}{word}; }};\n");
    let bound = format!("OS {{ FLOAT [{mark}{word}..{word}] f = {word}; }};\n");
    let value = format!("OS o {{ f = {mark}{word}; }};\nAPPMODE a;\n");
    vec![
        limit(name("default"), &default, OBJECTS, 3),
        limit(name("bound"), &bound, OBJECTS, 3),
        limit(name("value"), "OS { FLOAT f; };\n", &value, 3),
    ]
}

/// Floats with so many digits around the dot.
fn float_digits(count: usize) -> Vec<Limit> {
    let mut all = Vec::new();
    for digit in ["0", "1", "9"] {
        for before in [1, 2, count / 2, count - 1] {
            let (before, after) = (digit.repeat(before), digit.repeat(count - before));
            all.extend(float(&format!("{before}.{after}"), count <= 18));
            all.extend(float(&format!("-{before}.{after}E-64"), count <= 18));
            all.extend(float(&format!("+{before}.{after}e+064"), count <= 18));
        }
    }
    all
}

/// Floats with this exponent.
fn float_exponents(exponent: i32) -> Vec<Limit> {
    let is_float = (-64..=64).contains(&exponent);
    let sign = if exponent < 0 { "-" } else { "" };
    let plus = if exponent < 0 { "-" } else { "+" };
    let amount = exponent.abs();
    let mut all = Vec::new();
    for word in [
        format!("1.0e{sign}{amount}"),
        format!("-0.0E{plus}{amount}"),
        format!("99999999999999999.9e{plus}{amount}"),
        format!("0.00000000000000001e{sign}00{amount}"),
        format!("1.5E{plus}{}{amount}", "0".repeat(300)),
    ] {
        all.extend(float(&word, is_float));
    }
    all
}

/// Accepted texts whose normal text has this length: the implementation, which is copied, has a
/// comment in the place of `#`.
pub fn written(length: usize) -> Vec<Limit> {
    let string = "s".repeat(32_000);
    let strings = format!("OS {{ STRING s = \"{string}\"; /*#*/ }};\n");
    let defaults = each(8, 0, |number, _| format!("UINT32 d{number} = {number};\n"));
    let defaults = format!("TASK {{\n{defaults}}}; // #\n");
    let tasks = each(254, 0, |number, _| format!("TASK t{number};\n"));
    let shapes = [
        ("nothing but a comment", "/*#*/".to_string(), OBJECTS.into()),
        ("a long string by default", strings, OBJECTS.into()),
        (
            "many values by default",
            defaults,
            format!("{OBJECTS}{tasks}"),
        ),
    ];
    shapes
        .into_iter()
        .map(|(shape, specs, objects)| {
            let made = |pad: usize| {
                let name = format!("{length} bytes written, {shape}");
                limit(name, &specs.replacen('#', &"x".repeat(pad), 1), &objects, 0)
            };
            let least = normal(&made(0).text).expect("an accepted text").len();
            made(length - least)
        })
        .collect()
}

/// Two limits passed in one stage, or one of them and another fault.
fn two_limits() -> Vec<Limit> {
    let definition = |number, mark: &str| format!("UINT32 {mark}d{number} = 1;\n");
    let enumerator = |number, mark: &str| format!(", {mark}e{number}");
    let task = |number, mark: &str| format!("{mark}TASK t{number};\n");
    let statement = |_, mark: &str| format!("{mark}x = 1;\n");
    let lists = "OS { UINT32 x[]; };\n";

    let definitions = each(513, 513, definition);
    let enumerators = each(1_025, 0, enumerator);
    let before = format!(
        "OS {{\n{definitions}ENUM [{}] e = e1;\n}};\n",
        &enumerators[2..]
    );
    let definitions = each(513, 0, definition);
    let enumerators = each(1_025, 1_025, enumerator);
    let behind = format!(
        "OS {{\nENUM [{}] e = e1;\n{definitions}}};\n",
        &enumerators[2..]
    );

    let statements = each(2_049, 2_049, statement);
    let tasks = each(255, 0, task);
    let early = format!("OS o {{\n{statements}}};\nAPPMODE a;\n{tasks}");
    let statements = each(2_049, 0, statement);
    let tasks = each(256, 255, task);
    let late = format!("COM p;\nAPPMODE a;\n{tasks}OS o {{\n{statements}}};\n");
    vec![
        limit("definition before enumerator".into(), &before, OBJECTS, 7),
        limit("enumerator before definition".into(), &behind, OBJECTS, 7),
        limit("statement before object".into(), lists, &early, 11),
        limit("object before statement".into(), lists, &late, 11),
    ]
}

/// A limit of objects or parts passed, and another fault of their stage.
fn object_limits() -> Vec<Limit> {
    let task = |number, mark: &str| format!("{mark}TASK t{number};\n");
    // Object 257 is a second OS: 11 and 17. Of the same name it is no object of its own.
    let tasks = each(254, 0, task);
    let second = format!("OS o;\nAPPMODE a;\n{tasks}@OS p;\n");
    let again = format!("OS o;\nAPPMODE a;\n{tasks}OS o;\n");

    // Part 513 is object 257 too, or comes before it, or after it.
    let further = each(256, 0, |_, _| "TASK t1;\n".into());
    let both = format!("{OBJECTS}{tasks}{further}@TASK u;\n");
    let part = format!("{OBJECTS}{tasks}{further}@OS o;\nTASK u;\n");
    let object = format!("{OBJECTS}{tasks}@TASK u;\n{further}OS o;\n");
    // A name of another kind at object 257, before it and after it.
    let used = format!("{OBJECTS}{tasks}@EVENT t1;\n");
    let earlier = format!("{OBJECTS}TASK t1;\nEVENT @t1;\n{tasks}TASK u;\n");
    let later = format!("{OBJECTS}{tasks}@TASK u;\nEVENT t1;\n");
    // The second OS in parts is at its first part's kind word.
    let systems = "OS o;\nOS o {};\nAPPMODE a;\n@OS p;\nOS o;\nOS p;\n";
    vec![
        limit("object and kind".into(), "", &second, 11),
        limit("a part behind 256 objects".into(), "", &again, 11),
        limit("object 257 and part 513".into(), "", &both, 11),
        limit("part before object".into(), "", &part, 11),
        limit("object before part".into(), "", &object, 11),
        limit("object 257 with a used name".into(), "", &used, 11),
        limit("a used name before object 257".into(), "", &earlier, 24),
        limit("a used name behind object 257".into(), "", &later, 11),
        limit("a second OS in parts".into(), "", systems, 17),
    ]
}
