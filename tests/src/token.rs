//! Document 01, "Tokens", with document 02's floats: the token that begins at or after a
//! place of a text.

/// The known words; a word's code is its number in this list, counted from 1.
pub const WORDS: [&str; 42] = [
    "TRUE",
    "FALSE",
    "AUTO",
    "NO_DEFAULT",
    "WITH_AUTO",
    "OIL_VERSION",
    "IMPLEMENTATION",
    "CPU",
    "OS",
    "APPMODE",
    "TASK",
    "ISR",
    "COUNTER",
    "ALARM",
    "RESOURCE",
    "EVENT",
    "COM",
    "MESSAGE",
    "NETWORKMESSAGE",
    "IPDU",
    "NM",
    "OS_TYPE",
    "APPMODE_TYPE",
    "TASK_TYPE",
    "ISR_TYPE",
    "COUNTER_TYPE",
    "ALARM_TYPE",
    "RESOURCE_TYPE",
    "EVENT_TYPE",
    "COM_TYPE",
    "MESSAGE_TYPE",
    "NETWORKMESSAGE_TYPE",
    "IPDU_TYPE",
    "NM_TYPE",
    "UINT32",
    "INT32",
    "UINT64",
    "INT64",
    "STRING",
    "BOOLEAN",
    "ENUM",
    "FLOAT",
];

/// The thirteen kinds, in document 01's order.
pub const KINDS: [&str; 13] = *WORDS.split_at(8).1.first_chunk().unwrap();

/// What a token is. A known word has its code, every other word 0. A punctuator is
/// told by its byte, `..` by its dot. The number 0 is never negative.
#[derive(Clone, Copy, Debug, PartialEq, Eq)]
pub enum Sort {
    Word(u8),
    Number { negative: bool, amount: u64 },
    Float(Float),
    Quoted,
    Punctuator(u8),
}

/// The digits around the dot as one whole number, times ten to a power. Where the digits are
/// all 0 it is never negative.
#[derive(Clone, Copy, Debug, PartialEq, Eq)]
pub struct Float {
    pub negative: bool,
    pub digits: u64,
    pub power: i32,
}

/// A token, the place of its first byte and the count of its bytes.
#[derive(Clone, Copy, Debug, PartialEq, Eq)]
pub struct Token {
    pub sort: Sort,
    pub place: usize,
    pub length: usize,
}

/// "hands back the token and the place after it, or the refusal"; or the end, at the
/// text's length.
#[derive(Clone, Copy, Debug, PartialEq, Eq)]
pub enum Step {
    Token(Token, usize),
    Refused(usize),
    End(usize),
}

/// The first token at or after `place`, read as if the text began there.
pub fn step(text: &[u8], place: usize) -> Step {
    let rest = after_blanks(text.get(place..).unwrap_or(&[]));
    let place = text.len() - rest.len();
    if rest.is_empty() {
        return Step::End(place);
    }
    match first(rest) {
        Some((sort, length)) => Step::Token(
            Token {
                sort,
                place,
                length,
            },
            place + length,
        ),
        None => Step::Refused(place),
    }
}

/// "Space, tab, CR, LF, VT, FF and comments part tokens." What is left of a text when
/// these are taken from its front; a `/*` that never ends is left standing.
fn after_blanks(mut text: &[u8]) -> &[u8] {
    loop {
        text = match text {
            [b' ' | b'\t' | b'\r' | b'\n' | 0x0b | 0x0c, rest @ ..] => rest,
            [b'/', b'/', rest @ ..] => &rest[run(rest, |byte| byte != b'\n')..],
            [b'/', b'*', rest @ ..] => match rest.windows(2).position(|pair| pair == b"*/") {
                Some(end) => &rest[end + 2..],
                None => return text,
            },
            _ => return text,
        }
    }
}

/// The token at the front of a text and the count of its bytes.
fn first(text: &[u8]) -> Option<(Sort, usize)> {
    match text {
        [b'a'..=b'z' | b'A'..=b'Z' | b'_', ..] => {
            let length = run(text, of_a_run);
            Some((Sort::Word(code(&text[..length])), length))
        }
        [b'0'..=b'9' | b'+' | b'-', rest @ ..] => {
            let length = 1 + run(rest, of_a_run);
            // "A number's run followed by a dot and a digit is a float or no token".
            if let [b'.', b'0'..=b'9', ..] = text[length..] {
                let length = length + 1 + run_of_float(&text[length + 1..]);
                return Some((Sort::Float(float(&text[..length])?), length));
            }
            Some((number(&text[..length])?, length))
        }
        [b'"', rest @ ..] => {
            let inside = rest.iter().position(|&byte| byte == b'"')?;
            Some((Sort::Quoted, inside + 2))
        }
        [b'.', b'.', ..] => Some((Sort::Punctuator(b'.'), 2)),
        [byte @ (b'{' | b'}' | b'[' | b']' | b'=' | b';' | b':' | b','), ..] => {
            Some((Sort::Punctuator(*byte), 1))
        }
        _ => None,
    }
}

/// The count of bytes at the front of a text that are all as asked for.
fn run(text: &[u8], asked: impl Fn(u8) -> bool) -> usize {
    text.iter().take_while(|&&byte| asked(byte)).count()
}

/// "letters, digits, underscores"
fn of_a_run(byte: u8) -> bool {
    byte.is_ascii_alphanumeric() || byte == b'_'
}

fn code(word: &[u8]) -> u8 {
    match WORDS.iter().position(|known| known.as_bytes() == word) {
        Some(index) => index as u8 + 1,
        None => 0,
    }
}

/// "The run must be `0`, or decimal with no leading zero, or (unsigned only) `0x` with
/// one or more hex digits. Value from -9223372036854775808 to 18446744073709551615."
fn number(word: &[u8]) -> Option<Sort> {
    let word = std::str::from_utf8(word).ok()?;
    let unsigned = word.strip_prefix(['+', '-']).unwrap_or(word);
    let amount = if let Some(digits) = word.strip_prefix("0x") {
        u64::from_str_radix(digits, 16).ok()?
    } else if unsigned == "0" || !unsigned.starts_with('0') {
        unsigned.parse().ok()?
    } else {
        return None;
    };
    let negative = word.starts_with('-') && amount > 0;
    (!negative || amount <= 1 << 63).then_some(Sort::Number { negative, amount })
}

/// "the longest run after the dot belongs to it, through one sign right after its first e or
/// E": the sign stands right after the run, whose only e or E is its last byte.
fn run_of_float(after: &[u8]) -> usize {
    let length = run(after, of_a_run);
    let mark = after[..length].iter().position(|byte| b"eE".contains(byte));
    match after[length..] {
        [b'+' | b'-', ref rest @ ..] if mark == length.checked_sub(1) => {
            length + 1 + run(rest, of_a_run)
        }
        _ => length,
    }
}

/// "A float is an optional sign, digits, a dot, digits and optionally e or E with an optional
/// sign and digits. It has at most 18 digits around the dot and an exponent from -64 to 64".
fn float(word: &[u8]) -> Option<Float> {
    let word = std::str::from_utf8(word).ok()?;
    let (before, rest) = word.split_once('.')?;
    let before = before.strip_prefix(['+', '-']).unwrap_or(before);
    let (after, exponent) = match rest.split_once(['e', 'E']) {
        Some((after, exponent)) => (after, exponent_of(exponent)?),
        None => (rest, 0),
    };
    if !are_digits(before) || !are_digits(after) || before.len() + after.len() > 18 {
        return None;
    }
    let digits = [before, after].concat().parse().ok()?;
    Some(Float {
        negative: word.starts_with('-') && digits > 0,
        digits,
        power: exponent - after.len() as i32,
    })
}

fn exponent_of(word: &str) -> Option<i32> {
    let digits = word.strip_prefix(['+', '-']).unwrap_or(word);
    if !are_digits(digits) {
        return None;
    }
    // However many zeros stand before it, what is left has two digits at most.
    let digits = digits.trim_start_matches('0');
    let amount: i32 = match digits.len() {
        0 => 0,
        1 | 2 => digits.parse().ok()?,
        _ => return None,
    };
    let signed = if word.starts_with('-') {
        -amount
    } else {
        amount
    };
    (-64..=64).contains(&signed).then_some(signed)
}

/// One or more digits.
fn are_digits(word: &str) -> bool {
    !word.is_empty() && word.bytes().all(|byte| byte.is_ascii_digit())
}

/// "Given the text, a place and a length, a public call hands back that part of the lent
/// text itself; where it does not lie inside, the empty part at the start."
pub fn part(text: &[u8], place: usize, length: usize) -> &[u8] {
    let inside = place
        .checked_add(length)
        .and_then(|end| text.get(place..end));
    inside.unwrap_or(&text[..0])
}

#[cfg(test)]
mod tests {
    use super::*;

    /// All tokens of a text, and the step that ends them.
    fn tokens(text: &[u8]) -> (Vec<Token>, Step) {
        let mut found = Vec::new();
        let mut place = 0;
        loop {
            match step(text, place) {
                Step::Token(token, next) => {
                    found.push(token);
                    place = next;
                }
                last => return (found, last),
            }
        }
    }

    /// The words of all tokens of a text, and the step that ends them.
    fn words(text: &str) -> (Vec<&str>, Step) {
        let (found, last) = tokens(text.as_bytes());
        let words = found
            .iter()
            .map(|token| &text[token.place..token.place + token.length]);
        (words.collect(), last)
    }

    #[track_caller]
    fn divides(text: &str, parts: &[&str]) {
        assert_eq!(words(text), (parts.to_vec(), Step::End(text.len())));
    }

    #[track_caller]
    fn refuses(text: &str, parts: &[&str], place: usize) {
        assert_eq!(words(text), (parts.to_vec(), Step::Refused(place)));
    }

    #[track_caller]
    fn is_number(text: &str, negative: bool, amount: u64) {
        let sort = Sort::Number { negative, amount };
        let length = text.len();
        let token = Token {
            sort,
            place: 0,
            length,
        };
        assert_eq!(step(text.as_bytes(), 0), Step::Token(token, length));
    }

    #[track_caller]
    fn is_none(text: &str) {
        assert_eq!(step(text.as_bytes(), 0), Step::Refused(0));
    }

    #[test]
    fn starred_edges() {
        divides("", &[]);
        divides("}", &["}"]);
        is_none("007");
        is_none("#");
        is_none("/* x");
        divides("OIL_VERSION = 2;", &["OIL_VERSION", "=", "2", ";"]);
        divides("OIL_VERSION = \"2.5\"", &["OIL_VERSION", "=", "\"2.5\""]);
        is_number("18446744073709551615", false, u64::MAX);
        is_none("18446744073709551616");
    }

    #[test]
    fn codes_of_words() {
        for (index, word) in WORDS.iter().enumerate() {
            let length = word.len();
            let token = Token {
                sort: Sort::Word(index as u8 + 1),
                place: 0,
                length,
            };
            assert_eq!(step(word.as_bytes(), 0), Step::Token(token, length));
        }
        for word in [
            "true", "TASKS", "_TASK", "TASK_", "FLOATS", "CPU_TYPE", "x", "_",
        ] {
            assert_eq!(tokens(word.as_bytes()).0[0].sort, Sort::Word(0));
        }
    }

    #[test]
    fn t1_letters_start_words() {
        divides("abc _1 a1_", &["abc", "_1", "a1_"]);
    }

    #[test]
    fn t2_signed_zero() {
        is_number("+0", false, 0);
        is_number("-0", false, 0);
    }

    #[test]
    fn t3_signed_hex() {
        is_none("-0x1");
        is_none("+0x1");
    }

    #[test]
    fn t4_runs_that_are_no_numbers() {
        for text in [
            "0X1", "0x", "0xG", "0x1G", "0x_1", "1u", "1_0", "1e5", "00", "12ab", "01", "0_",
            "-01", "+00", "-1a",
        ] {
            is_none(text);
        }
        is_number("0xAbCdEf", false, 0xabcdef);
        is_number("+7", false, 7);
        is_number("-7", true, 7);
    }

    #[test]
    fn t5_sign_alone() {
        for text in [
            "+", "-", "- 5", "-/**/5", "--5", "+-5", "+\"a\"", "-_", "-a",
        ] {
            is_none(text);
        }
    }

    #[test]
    fn t6_number_and_dot() {
        refuses("1.", &["1"], 1);
        refuses("1.x", &["1"], 1);
        is_none("1.0xff");
        divides("1..0xff", &["1", "..", "0xff"]);
    }

    #[track_caller]
    fn is_float(text: &str, negative: bool, digits: u64, power: i32) {
        let float = Float {
            negative,
            digits,
            power,
        };
        let length = text.len();
        let token = Token {
            sort: Sort::Float(float),
            place: 0,
            length,
        };
        assert_eq!(step(text.as_bytes(), 0), Step::Token(token, length));
    }

    #[test]
    fn c4_1_floats() {
        is_float("1.5", false, 15, -1);
        is_float("007.5", false, 75, -1);
        is_float("+1.0", false, 10, -1);
        is_float("-1.0", true, 10, -1);
        is_float("-0.0", false, 0, -1);
        is_float("1.0e5", false, 10, 4);
        is_float("1.0E+5", false, 10, 4);
        is_float("1.0e-064", false, 10, -65);
        is_float("1.0e-64", false, 10, -65);
        is_float("1.0e64", false, 10, 63);
        is_float("1.0e-0", false, 10, -1);
        is_float("1.0e00000000000000000000064", false, 10, 63);
        is_float("00000000000000000.0", false, 0, -1);
        is_float("-99999999999999999.9", true, 999_999_999_999_999_999, -1);
        is_float("0.00000000000000001e-64", false, 1, -81);
    }

    #[test]
    fn c4_1_no_floats() {
        for text in [
            "0x1.5",
            "1a.5",
            "1.5x",
            "1.5e",
            "1.5E",
            "1.5e+",
            "1.5e-",
            "1.5e+5e+6",
            "1.5ee+5",
            "1.5e5e5",
            "1.5e+5x",
            "1.5_",
            "1_.5",
            "1.5e_5",
            "1.5eE5",
            "1.5e++5",
            "+.5",
            "-.5",
            "1.0e65",
            "1.0e-65",
            "1.0e+65",
            "1.0e064x",
            "1.0e100",
            "1.0e18446744073709551616",
            "1.0e4294967296",
            "1.0e-4294967297",
            "0000000000000000000.0",
            "123456789012345678.9",
            "1.234567890123456789",
            "1234567890.123456789",
        ] {
            is_none(text);
        }
    }

    #[test]
    fn c4_1_floats_and_what_follows() {
        divides("1..2", &["1", "..", "2"]);
        divides("1.5..2.5", &["1.5", "..", "2.5"]);
        divides("1.5-3", &["1.5", "-3"]);
        divides("1.5e5-3", &["1.5e5", "-3"]);
        divides("1.5e+5+3", &["1.5e+5", "+3"]);
        divides("1.5e5-3.0", &["1.5e5", "-3.0"]);
        refuses("1.5e5+", &["1.5e5"], 5);
        refuses("1.", &["1"], 1);
        refuses("1.e5", &["1"], 1);
        refuses(".5", &[], 0);
        refuses("abc.5", &["abc"], 3);
        refuses("1.5.5", &["1.5"], 3);
        refuses("1.5.", &["1.5"], 3);
        refuses("1 .5", &["1"], 2);
        refuses("1. 5", &["1"], 1);
        refuses("1...5", &["1", ".."], 3);
    }

    #[test]
    fn t7_dots() {
        refuses("...", &[".."], 2);
        refuses(". .", &[], 0);
        refuses("./**/.", &[], 0);
        divides("....", &["..", ".."]);
    }

    #[test]
    fn t8_a_sign_starts_a_number() {
        divides("1-2", &["1", "-2"]);
        divides("5+3", &["5", "+3"]);
        divides("a-2", &["a", "-2"]);
    }

    #[test]
    fn t9_comments_part_tokens() {
        divides("TA/**/SK", &["TA", "SK"]);
        divides("\"/*\" a // \"", &["\"/*\"", "a"]);
        divides("/*\"*/ a", &["a"]);
    }

    #[test]
    fn t10_slash_star_slash() {
        is_none("/*/");
        divides("/**/", &[]);
        divides("/*/*/", &[]);
        refuses("/* /* */ */", &[], 9);
    }

    #[test]
    fn t11_line_comments() {
        divides("// a\rb", &[]);
        divides("// a\\\nb", &["b"]);
        divides("//", &[]);
        divides("///*\na", &["a"]);
    }

    #[test]
    fn t12_strings_hold_any_bytes() {
        let text = b"\"\n\0\xff\\\" \"\"";
        let (found, last) = tokens(text);
        let ends: Vec<_> = found
            .iter()
            .map(|token| (token.place, token.length))
            .collect();
        assert_eq!((ends, last), (vec![(0, 6), (7, 2)], Step::End(9)));
        is_none("\"abc");
        is_none("\"");
    }

    #[test]
    fn t13_other_bytes() {
        let starts =
            |byte: u8| byte.is_ascii_alphanumeric() || b"_ \t\r\n\x0b\x0c{}[]=;:,".contains(&byte);
        for byte in (0..=255).filter(|&byte| !starts(byte)) {
            assert_eq!(step(&[byte, b' ', b'a'], 0), Step::Refused(0), "{byte}");
        }
    }

    #[test]
    fn t14_tokens_need_not_be_parted() {
        divides("a{1}\"b\"c;", &["a", "{", "1", "}", "\"b\"", "c", ";"]);
    }

    #[test]
    fn t15_values_decide() {
        is_number("0x0000000000000000000000000000000000000001", false, 1);
        is_number("0xffffffffffffffff", false, u64::MAX);
        is_none("0x10000000000000000");
        is_number("-9223372036854775808", true, 1 << 63);
        is_none("-9223372036854775809");
        is_number("+18446744073709551615", false, u64::MAX);
        is_none("+18446744073709551616");
    }

    #[test]
    fn t16_any_place() {
        let text = b"/* ab */";
        assert!(matches!(
            step(text, 4),
            Step::Token(
                Token {
                    place: 4,
                    length: 1,
                    ..
                },
                5
            )
        ));
        assert_eq!(step(text, 7), Step::Refused(7));
        assert_eq!(step(text, 8), Step::End(8));
    }

    #[test]
    fn t17_long_texts() {
        let text = [b"a ".repeat(100_000), b"#".to_vec()].concat();
        let (found, last) = tokens(&text);
        assert_eq!((found.len(), last), (100_000, Step::Refused(200_000)));
    }

    #[test]
    fn t18_the_place_after() {
        assert!(matches!(
            step(b" ab  c", 0),
            Step::Token(
                Token {
                    place: 1,
                    length: 2,
                    ..
                },
                3
            )
        ));
        assert_eq!(step(b"ab", 2), Step::End(2));
        assert_eq!(step(b"ab", 9), Step::End(2));
        assert_eq!(step(b"ab", usize::MAX), Step::End(2));
        assert_eq!(step(b"", 1), Step::End(0));
    }

    #[test]
    fn t19_blanks_only() {
        divides(" \n\t", &[]);
        divides("\x0b\x0c\r /* */ // ", &[]);
    }

    #[test]
    fn parts_of_a_text() {
        assert_eq!(part(b"abc", 1, 2), b"bc");
        assert_eq!(part(b"abc", 3, 0), b"");
        assert_eq!(part(b"abc", 1, 3), b"");
        assert_eq!(part(b"abc", usize::MAX, 2), b"");
    }
}
