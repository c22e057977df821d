//! Document 01, "Tempting but wrong": texts that a tempting but wrong reading answers
//! otherwise, with their answer.

use crate::meaning::Refusal;

/// A text and its refusal; none where it is accepted.
pub struct Tempting {
    pub name: &'static str,
    pub text: Vec<u8>,
    pub refusal: Option<Refusal>,
}

/// All of these texts.
pub fn tempting() -> Vec<Tempting> {
    TEMPTING.into_iter().map(marked).collect()
}

/// The text with these specs, and the objects after an OS and an APPMODE. Where there is an
/// `@`, it is taken out, and the text is refused by this number at that place.
fn marked((name, specs, objects, number): (&'static str, &str, &str, u8)) -> Tempting {
    let text = format!(
        "OIL_VERSION = \"2.5\";\nIMPLEMENTATION m {{ {specs} }};\nCPU c {{ OS o; APPMODE a; {objects} }};\n"
    );
    let refusal = text.find('@').map(|place| Refusal { number, place });
    Tempting {
        name,
        text: text.replacen('@', "", 1).into_bytes(),
        refusal,
    }
}

/// Each name, the specs, the objects with an `@` at the place of the refusal, and its number.
const TEMPTING: [(&str, &str, &str, u8); 24] = [
    (
        "a reference is not found by name alone",
        "TASK { EVENT_TYPE EVENT; };",
        "EVENT x; RESOURCE r; TASK t { EVENT = @r; };",
        18,
    ),
    (
        "a name is used for one kind only, though references are found by kind and name",
        "TASK { EVENT_TYPE EVENT; };",
        "RESOURCE r; TASK @r { EVENT = r; }; EVENT r;",
        24,
    ),
    (
        "a sub-attribute is not taken from another enumerator's scope",
        "TASK { ENUM [A { UINT32 x = 1; }, B { UINT32 y = 2; }] e; };",
        "TASK t { e = B { @x = 3; }; };",
        13,
    ),
    (
        "a sub-attribute is taken from its own enumerator's scope",
        "TASK { ENUM [A { UINT32 [1..2] x = 1; }, B { UINT32 [3..4] x = 3; }] e; };",
        "TASK t { e = B { x = 4; }; }; TASK u { e = A { x = @4; }; };",
        15,
    ),
    (
        "a sub-attribute is not taken from the scope around it",
        "TASK { UINT32 x = 1; ENUM [A, B] e; };",
        "TASK t { e = B { @x = 3; }; };",
        13,
    ),
    (
        "the attribute name RESOURCE is no keyword",
        "TASK { RESOURCE_TYPE RESOURCE[]; };",
        "TASK t { RESOURCE = r; RESOURCE = RESOURCE; }; RESOURCE r; RESOURCE RESOURCE;",
        0,
    ),
    (
        "RESOURCE names an attribute, an enumerator and an object",
        "RESOURCE { ENUM [RESOURCE { RESOURCE_TYPE RESOURCE; }] RESOURCE; };",
        "RESOURCE RESOURCE { RESOURCE = RESOURCE { RESOURCE = RESOURCE; }; };",
        0,
    ),
    (
        "a missing value is at the object's name",
        "TASK { UINT32 x; UINT32 y; };",
        "TASK @t { x = 1; };",
        16,
    ),
    (
        "a missing value is at the value word",
        "TASK { ENUM [A { UINT32 x; }, B] e; };",
        "TASK t { e = @A { }; };",
        16,
    ),
    (
        "a missing value under a default is at the nearest owner stated",
        "TASK { ENUM [A { BOOLEAN [TRUE { UINT32 x; }, FALSE] b = TRUE; }] e; };",
        "TASK t { e = @A { }; };",
        16,
    ),
    (
        "a missing value of an object in parts is at its first part's name",
        "TASK { UINT32 x; UINT32 y; };",
        "TASK @t; TASK u { x = 1; y = 1; }; TASK t { x = 1; }; TASK t {};",
        16,
    ),
    (
        "a single attribute is stated again in another part",
        "TASK { UINT32 x; UINT32 l[]; };",
        "TASK t { x = 1; l = 2; }; TASK u { x = 3; }; TASK t { l = 4; @x = 1; };",
        14,
    ),
    (
        "a value's braces are not continued in another part",
        "TASK { ENUM [A { UINT32 x; UINT32 y; }] e; };",
        "TASK t { e = @A { x = 1; }; }; TASK t { e = A { y = 1; }; };",
        16,
    ),
    (
        "a part of another kind is another object",
        "TASK { UINT32 x; }; ISR { UINT32 x; };",
        "TASK t { x = 1; }; ISR @t; TASK t; ALARM t;",
        24,
    ),
    (
        "a further part of an OS is no second one",
        "OS { UINT32 x[] = 1; };",
        "OS o { x = 3; }; APPMODE a; OS o { x = 2; };",
        0,
    ),
    (
        "a reference leads to an object in parts, also to a later one",
        "TASK { TASK_TYPE r[]; };",
        "TASK t { r = u; }; TASK u; TASK t { r = t; r = @v; }; TASK u { r = t; };",
        18,
    ),
    (
        "1..0xff is no number with a dot",
        "TASK { UINT32 [1..0xff] x = 1; };",
        "TASK t { x = 0xff; }; TASK u { x = @256; };",
        15,
    ),
    (
        "a fault is at the hopeless token, not at the one after it",
        "TASK { UINT32 x; };",
        "TASK t { x @x = 1; };",
        4,
    ),
    (
        "floats are equal by amount, not by digits",
        "TASK { FLOAT [1.50..1.5] x = 15.0e-1; };",
        "TASK t { x = 1500.0E-3; };",
        0,
    ),
    (
        "a float is not rounded",
        "TASK { FLOAT [0.3..0.3] x; };",
        "TASK t { x = 0.30000000000000000; }; TASK u { x = @0.30000000000000001; };",
        15,
    ),
    (
        "the exponent's sign counts",
        "TASK { FLOAT [0.0..1.0] x; };",
        "TASK t { x = 1.0e-1; }; TASK u { x = @1.0e1; };",
        15,
    ),
    (
        "a dot behind a number makes no float",
        "TASK { FLOAT x; };",
        "TASK t { x = 1@.; };",
        3,
    ),
    (
        "a whole number is no float",
        "TASK { FLOAT [0.0..1.0] x; };",
        "TASK t { x = @1; };",
        15,
    ),
    (
        "the type FLOAT may be a name",
        "TASK { FLOAT FLOAT = 0.5; TASK_TYPE f; };",
        "TASK FLOAT { FLOAT = -0.5; f = FLOAT; };",
        0,
    ),
];
