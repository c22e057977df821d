//! The proved library. This is the only module with `unsafe` in it: it gives every function a slice
//! as its pointer and length, as the library's declarations ask.

/// The pointer of a slice that is read (`in`) or written (`out`): its type, or the pointer itself.
#[allow(unused_macros)]
macro_rules! pointer {
    (type in $cell:ty) => { *const $cell };
    (type out $cell:ty) => { *mut $cell };
    (of in $slice:expr) => { $slice.as_ptr() };
    (of out $slice:expr) => { $slice.as_mut_ptr() };
}

/// Declares functions of the library all of whose parameters are slices.
#[allow(unused_macros)]
macro_rules! declare {
    ($(fn $name:ident($($way:tt $cell:ty),*) -> $result:ty;)*) => {
        extern "C" {
            $(fn $name($(_: pointer!(type $way $cell), _: usize),*) -> $result;)*
        }
    };
}

/// Calls a function so declared.
#[allow(unused_macros)]
macro_rules! call {
    ($name:ident($($way:tt $slice:expr),*)) => {
        unsafe { $name($(pointer!(of $way $slice), $slice.len()),*) }
    };
}

/// Whether the library is linked with the functions of `layer`. Where it is not, a test
/// that compares with it has nothing to do; but it fails where `KAUKSLINI_REQUIRE_PROVED`
/// is 1 and the layer is among those asked for.
pub fn is_linked(layer: &str) -> bool {
    let linked = match layer {
        "token" => cfg!(proved_token),
        "grammar" => cfg!(proved_grammar),
        "reading" => cfg!(proved_reading),
        "writing" => cfg!(proved_writing),
        "heading" => cfg!(proved_heading),
        "masks" => cfg!(proved_masks),
        "releases" => cfg!(proved_releases),
        "standard" => cfg!(proved_standard),
        "exporting" => cfg!(proved_exporting),
        "including" => cfg!(proved_including),
        "questions" => cfg!(proved_questions),
        "expecting" => cfg!(proved_expecting),
        "mending" => cfg!(proved_mending),
        _ => panic!("no layer {layer}"),
    };
    let mut asked = env!("KAUKSLINI_LAYERS_ASKED").split(',');
    let required = std::env::var("KAUKSLINI_REQUIRE_PROVED").is_ok_and(|value| value == "1");
    if !linked && required && asked.any(|asked| asked == layer) {
        panic!("the proved library is required for the layer {layer}, and it is not built");
    }
    if !linked {
        eprintln!("NOT COMPARED: the proved library's layer {layer} is not linked");
    }
    linked
}

#[cfg(proved_token)]
pub mod token {
    use crate::token::{Sort, Step, Token};

    extern "C" {
        fn kaukslini_step_sort(text: *const u8, length: usize, place: usize) -> u8;
        fn kaukslini_step_place(text: *const u8, length: usize, place: usize) -> usize;
        fn kaukslini_step_next(text: *const u8, length: usize, place: usize) -> usize;
        fn kaukslini_step_detail(text: *const u8, length: usize, place: usize) -> u64;
        fn kaukslini_step_negative(text: *const u8, length: usize, place: usize) -> bool;
        fn kaukslini_part_place(text: *const u8, length: usize, at: usize, part: usize) -> usize;
        fn kaukslini_part_length(text: *const u8, length: usize, at: usize, part: usize) -> usize;
    }

    /// The numbers that the library's five questions answer for one step.
    #[derive(Clone, Copy, Debug, PartialEq, Eq)]
    pub struct Answers {
        pub sort: u8,
        pub place: usize,
        pub next: usize,
        pub detail: u64,
        pub negative: bool,
    }

    /// What the proved token reader answers.
    pub fn step(text: &[u8], place: usize) -> Answers {
        let (text, length) = (text.as_ptr(), text.len());
        unsafe {
            Answers {
                sort: kaukslini_step_sort(text, length, place),
                place: kaukslini_step_place(text, length, place),
                next: kaukslini_step_next(text, length, place),
                detail: kaukslini_step_detail(text, length, place),
                negative: kaukslini_step_negative(text, length, place),
            }
        }
    }

    /// Only the place after the token.
    pub fn next(text: &[u8], place: usize) -> usize {
        unsafe { kaukslini_step_next(text.as_ptr(), text.len(), place) }
    }

    /// Only the sort: 0 end, 1 refused, and the tokens above these.
    pub fn sort(text: &[u8], place: usize) -> u8 {
        unsafe { kaukslini_step_sort(text.as_ptr(), text.len(), place) }
    }

    /// Place and length of the part that is returned for a place and a length.
    pub fn part(text: &[u8], place: usize, part: usize) -> (usize, usize) {
        let (text, length) = (text.as_ptr(), text.len());
        unsafe {
            (
                kaukslini_part_place(text, length, place, part),
                kaukslini_part_length(text, length, place, part),
            )
        }
    }

    /// The numbers that the library's questions answer for a step.
    pub fn answers(step: Step) -> Answers {
        let (sort, place, next, detail, negative) = match step {
            Step::End(place) => (0, place, place, 0, false),
            Step::Refused(place) => (1, place, place, 0, false),
            Step::Token(Token { sort, place, .. }, next) => match sort {
                Sort::Word(code) => (2, place, next, u64::from(code), false),
                Sort::Number { negative, amount } => (3, place, next, amount, negative),
                Sort::Quoted => (4, place, next, 0, false),
                Sort::Punctuator(byte) => (5, place, next, u64::from(byte), false),
                Sort::Float(float) => (6, place, next, float.digits, float.negative),
            },
        };
        Answers {
            sort,
            place,
            next,
            detail,
            negative,
        }
    }
}

#[cfg(proved_grammar)]
pub mod grammar {
    use crate::grammar::Stage;

    extern "C" {
        fn kaukslini_stage_number(text: *const u8, length: usize) -> u8;
        fn kaukslini_stage_place(text: *const u8, length: usize) -> usize;
    }

    /// Number and place that the proved grammar stage answers; 0 and 0 where a text passes.
    pub fn stage(text: &[u8]) -> (u8, usize) {
        let (text, length) = (text.as_ptr(), text.len());
        unsafe {
            (
                kaukslini_stage_number(text, length),
                kaukslini_stage_place(text, length),
            )
        }
    }

    /// Only the number.
    pub fn number(text: &[u8]) -> u8 {
        unsafe { kaukslini_stage_number(text.as_ptr(), text.len()) }
    }

    /// The two numbers for a stage's answer.
    pub fn answers(stage: Stage) -> (u8, usize) {
        match stage {
            Stage::Passes => (0, 0),
            Stage::Refused { number, place } => (number, place),
        }
    }
}

#[cfg(proved_reading)]
pub mod reading {
    declare! {
        fn kaukslini_read(in u8, out usize, out usize, out usize, out usize, out usize) -> u8;
    }

    /// Reads a text into lent tables of definitions, enumerators, objects and values. The
    /// number of the refusal, 0 where the text is accepted; what else is answered is told in
    /// `told`: the place, how many rows of each table are used, the objects of each kind.
    pub fn read(text: &[u8], tables: [&mut [usize]; 4], told: &mut [usize]) -> u8 {
        let [definitions, enumerators, objects, values] = tables;
        call!(kaukslini_read(
            in text, out definitions, out enumerators, out objects, out values, out told
        ))
    }
}

#[cfg(proved_writing)]
pub mod writing {
    declare! {
        fn kaukslini_write(
            in u8, out usize, out usize, out usize, out usize, out u8, out usize
        ) -> u8;
    }

    /// Writes the normal text of a text into a lent output, over lent tables of definitions,
    /// enumerators, objects and values. The number of the refusal, 0 where the text is
    /// accepted; told in `told` are the place and the length of the normal text.
    pub fn write(
        text: &[u8],
        tables: [&mut [usize]; 4],
        output: &mut [u8],
        told: &mut [usize],
    ) -> u8 {
        let [definitions, enumerators, objects, values] = tables;
        call!(kaukslini_write(
            in text, out definitions, out enumerators, out objects, out values, out output,
            out told
        ))
    }
}

#[cfg(proved_heading)]
pub mod heading {
    declare! {
        fn kaukslini_heading_cells(in u8, out usize) -> u8;
    }

    /// The number of the refusal of a text's heading, 0 where there is none; told in `told` are
    /// the refusal's place, or place and length of the version string and of the name.
    pub fn heading(text: &[u8], told: &mut [usize]) -> u8 {
        call!(kaukslini_heading_cells(in text, out told))
    }
}

#[cfg(proved_masks)]
pub mod masks {
    use crate::masks::{Checked, Planned};
    use crate::meaning::Refusal;

    declare! {
        fn kaukslini_check_masks(in u8, in u64, out usize) -> u8;
        fn kaukslini_plan_masks(in u8, out u64, out usize) -> u8;
    }

    /// Noise before a call: what is not told stays.
    const NOISE: usize = 0x7777;

    fn refusal(told: [usize; 3]) -> Refusal {
        assert_eq!(told[2], NOISE);
        Refusal {
            number: u8::try_from(told[0]).expect("a refusal's number"),
            place: told[1],
        }
    }

    /// The event or count told first; nothing else is told.
    fn first(told: [usize; 3]) -> usize {
        assert_eq!(told[1..], [0, NOISE]);
        told[0]
    }

    fn nothing(told: [usize; 3]) {
        assert_eq!(told, [0, 0, NOISE]);
    }

    /// What the proved checker answers.
    pub fn check_masks(text: &[u8], masks: &[u64]) -> Checked {
        let mut told = [NOISE; 3];
        let answer = call!(kaukslini_check_masks(in text, in masks, out told));
        match answer {
            0 => Checked::Refused(refusal(told)),
            3 => Checked::Breaks(first(told)),
            _ => {
                nothing(told);
                match answer {
                    1 => Checked::NotPlannable,
                    2 => Checked::WrongLength,
                    4 => Checked::Accepted,
                    _ => panic!("no answer {answer}"),
                }
            }
        }
    }

    /// What the proved planner answers; the list is lent to it.
    pub fn plan_masks(text: &[u8], masks: &mut [u64]) -> Planned {
        let mut told = [NOISE; 3];
        let answer = call!(kaukslini_plan_masks(in text, out masks, out told));
        match answer {
            0 => Planned::Refused(refusal(told)),
            3 => Planned::Full(first(told)),
            4 => Planned::Made(first(told)),
            _ => {
                nothing(told);
                match answer {
                    1 => Planned::NotPlannable,
                    2 => Planned::WrongLength,
                    _ => panic!("no answer {answer}"),
                }
            }
        }
    }
}

#[cfg(proved_releases)]
pub mod releases {
    use crate::comparing_releases::{Answer, Record};

    declare! {
        fn kaukslini_compare(in u8, in u8, out Record) -> Answer;
    }

    /// What the proved call answers for two texts; the list is lent to it.
    pub fn compare(texts: [&[u8]; 2], list: &mut [Record]) -> Answer {
        let [first, second] = texts;
        call!(kaukslini_compare(in first, in second, out list))
    }
}

#[cfg(proved_standard)]
pub mod standard {
    use crate::meaning::Refusal;
    use crate::standard::{Checked, Finding};

    declare! {
        fn kaukslini_check_standard(in u8, out usize) -> u8;
    }

    /// Noise before a call: what is not told stays.
    const NOISE: usize = 0x7777;

    /// What the proved call answers.
    pub fn check_standard(text: &[u8]) -> Checked {
        let mut told = [NOISE; 4];
        let answer = call!(kaukslini_check_standard(in text, out told));
        assert_eq!(told[3], NOISE);
        let number = u8::try_from(told[0]).expect("a number");
        match answer {
            0 => {
                assert_eq!(told[2], 0);
                Checked::Refused(Refusal {
                    number,
                    place: told[1],
                })
            }
            1 => {
                assert_eq!(told[..3], [0, 0, 0]);
                Checked::NothingWrong
            }
            2 => Checked::Wrong(Finding {
                place: told[1],
                number,
                attribute: told[2],
            }),
            _ => panic!("no answer {answer}"),
        }
    }
}

#[cfg(not(proved_including))]
pub mod including {
    use crate::including::{Buffer, Told};

    pub fn expand(_: &Buffer, _: &mut [u8], _: &mut [usize], _: &mut [usize]) -> usize {
        unreachable!("only asked where it is linked")
    }

    pub fn read(
        _: &Buffer,
        _: &mut [u8],
        _: &mut [usize],
        _: [&mut [usize]; 4],
        _: &mut [usize],
    ) -> u8 {
        unreachable!("only asked where it is linked")
    }

    pub fn write(
        _: &Buffer,
        _: &mut [u8],
        _: &mut [usize],
        _: [&mut [usize]; 4],
        _: &mut [u8],
    ) -> Told {
        unreachable!("only asked where it is linked")
    }
}

#[cfg(proved_including)]
pub mod including {
    use crate::including::{Buffer, Told};

    declare! {
        fn kaukslini_expand(in u8, in usize, out u8, out usize, out usize) -> usize;
        fn kaukslini_read_texts(
            in u8, in usize, out u8, out usize, out usize, out usize, out usize, out usize,
            out usize
        ) -> u8;
        fn kaukslini_write_texts(
            in u8, in usize, out u8, out usize, out usize, out usize, out usize, out usize, out u8
        ) -> Told;
    }

    /// Expands lent texts into lent memory, with the origins of the bytes. The number of the first
    /// fault, 0 where there is none, or 30; told in `told` are its place and how long the expanded
    /// text is.
    pub fn expand(
        buffer: &Buffer,
        expanded: &mut [u8],
        origins: &mut [usize],
        told: &mut [usize],
    ) -> usize {
        call!(kaukslini_expand(
            in buffer.bytes, in buffer.lengths, out expanded, out origins, out told
        ))
    }

    /// Reads lent texts into lent tables, as `reading::read` does one text.
    pub fn read(
        buffer: &Buffer,
        expanded: &mut [u8],
        origins: &mut [usize],
        tables: [&mut [usize]; 4],
        told: &mut [usize],
    ) -> u8 {
        let [definitions, enumerators, objects, values] = tables;
        call!(kaukslini_read_texts(
            in buffer.bytes, in buffer.lengths, out expanded, out origins, out definitions,
            out enumerators, out objects, out values, out told
        ))
    }

    /// Writes the normal text of lent texts, as `writing::write` does that of one text.
    pub fn write(
        buffer: &Buffer,
        expanded: &mut [u8],
        origins: &mut [usize],
        tables: [&mut [usize]; 4],
        output: &mut [u8],
    ) -> Told {
        let [definitions, enumerators, objects, values] = tables;
        call!(kaukslini_write_texts(
            in buffer.bytes, in buffer.lengths, out expanded, out origins, out definitions,
            out enumerators, out objects, out values, out output
        ))
    }
}

#[cfg(not(proved_questions))]
pub mod questions {
    use crate::including::Buffer;

    pub fn heading(_: &Buffer, _: [&mut [usize]; 2], _: &mut [u8]) -> u8 {
        unreachable!("only asked where it is linked")
    }

    pub fn check_masks(_: &Buffer, _: [&mut [usize]; 2], _: &mut [u8], _: &[u64]) -> u8 {
        unreachable!("only asked where it is linked")
    }

    pub fn plan_masks(_: &Buffer, _: [&mut [usize]; 2], _: &mut [u8], _: &mut [u64]) -> u8 {
        unreachable!("only asked where it is linked")
    }

    pub fn check_standard(_: &Buffer, _: [&mut [usize]; 2], _: &mut [u8]) -> u8 {
        unreachable!("only asked where it is linked")
    }
}

/// The questions over lent texts. Each is lent memory for the origins and for what is told, in this
/// order, and for the expanded text; what is told is that of the same question about one text.
#[cfg(proved_questions)]
pub mod questions {
    use crate::including::Buffer;

    declare! {
        fn kaukslini_heading_texts(in u8, in usize, out u8, out usize, out usize) -> u8;
        fn kaukslini_check_masks_texts(in u8, in usize, out u8, out usize, in u64, out usize) -> u8;
        fn kaukslini_plan_masks_texts(in u8, in usize, out u8, out usize, out u64, out usize) -> u8;
        fn kaukslini_check_standard_texts(in u8, in usize, out u8, out usize, out usize) -> u8;
    }

    pub fn heading(buffer: &Buffer, cells: [&mut [usize]; 2], expanded: &mut [u8]) -> u8 {
        let [origins, told] = cells;
        call!(kaukslini_heading_texts(
            in buffer.bytes, in buffer.lengths, out expanded, out origins, out told
        ))
    }

    pub fn check_masks(
        buffer: &Buffer,
        cells: [&mut [usize]; 2],
        expanded: &mut [u8],
        masks: &[u64],
    ) -> u8 {
        let [origins, told] = cells;
        call!(kaukslini_check_masks_texts(
            in buffer.bytes, in buffer.lengths, out expanded, out origins, in masks, out told
        ))
    }

    pub fn plan_masks(
        buffer: &Buffer,
        cells: [&mut [usize]; 2],
        expanded: &mut [u8],
        masks: &mut [u64],
    ) -> u8 {
        let [origins, told] = cells;
        call!(kaukslini_plan_masks_texts(
            in buffer.bytes, in buffer.lengths, out expanded, out origins, out masks, out told
        ))
    }

    pub fn check_standard(buffer: &Buffer, cells: [&mut [usize]; 2], expanded: &mut [u8]) -> u8 {
        let [origins, told] = cells;
        call!(kaukslini_check_standard_texts(
            in buffer.bytes, in buffer.lengths, out expanded, out origins, out told
        ))
    }
}

#[cfg(proved_expecting)]
pub mod expecting {
    extern "C" {
        fn kaukslini_expected(text: *const u8, length: usize, place: usize, flag: usize) -> bool;
    }

    /// Whether a flag is set at a place of a text.
    pub fn expected(text: &[u8], place: usize, flag: usize) -> bool {
        unsafe { kaukslini_expected(text.as_ptr(), text.len(), place, flag) }
    }
}

/// The calls of include/kaukslini.h.
#[cfg(proved_exporting)]
pub mod exporting {
    use crate::exporting::{Answer, Heading, Position};
    use crate::values::Question;

    declare! {
        fn kaukslini_normal_text(in u8, out u8) -> Answer;
        fn kaukslini_value(in u8, in u8, in u8, in u8, out u8) -> Answer;
    }

    extern "C" {
        fn kaukslini_heading(text: *const u8, text_length: usize) -> Heading;
        fn kaukslini_explain(
            text: *const u8,
            text_length: usize,
            place: usize,
            output: *mut u8,
            output_length: usize,
        ) -> Position;
    }

    /// The version string and the implementation's name of a text.
    pub fn heading(text: &[u8]) -> Heading {
        unsafe { kaukslini_heading(text.as_ptr(), text.len()) }
    }

    /// Line and column of a place; the output is lent to the call.
    pub fn explain(text: &[u8], place: usize, output: &mut [u8]) -> Position {
        unsafe {
            kaukslini_explain(
                text.as_ptr(),
                text.len(),
                place,
                output.as_mut_ptr(),
                output.len(),
            )
        }
    }

    /// The normal text of a text; the output is lent to the call.
    pub fn normal_text(text: &[u8], output: &mut [u8]) -> Answer {
        call!(kaukslini_normal_text(in text, out output))
    }

    /// The value of one attribute; the output is lent to the call.
    pub fn value(text: &[u8], question: &Question, output: &mut [u8]) -> Answer {
        let Question { kind, name, path } = question;
        call!(kaukslini_value(in text, in kind, in name, in path, out output))
    }
}

#[cfg(not(proved_mending))]
pub mod mending {
    use crate::including::Buffer;

    pub fn mend(_: &Buffer, _: [&mut [usize]; 2], _: [&mut [u8]; 3]) -> u8 {
        unreachable!("only asked where it is linked")
    }
}

#[cfg(proved_mending)]
pub mod mending {
    use crate::including::Buffer;

    declare! {
        fn kaukslini_mend_texts(
            in u8, in usize, out u8, out usize, out u8, out u8, out usize
        ) -> u8;
    }

    /// Mends lent texts: memory for the origins and for what is told; for the expanded text, the
    /// mended text and the lines. Gives the number of the refusal, 0 where there is none; told are
    /// its place, and the lengths of the mended text and of the lines.
    pub fn mend(buffer: &Buffer, cells: [&mut [usize]; 2], bytes: [&mut [u8]; 3]) -> u8 {
        let [origins, told] = cells;
        let [expanded, text, lines] = bytes;
        call!(kaukslini_mend_texts(
            in buffer.bytes, in buffer.lengths, out expanded, out origins, out text, out lines,
            out told
        ))
    }
}
