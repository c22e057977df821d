//! The call `compare` and `oil FIRST SECOND` against the reference (document 02, Q-8): which text is
//! refused, number and place, the total, every record of the lent list, and the memory beside it;
//! what the program writes, byte for byte.

use std::fs;
use std::path::{Path, PathBuf};
use tests::comparing_releases::{compare, lend, report, Answer, Compared, Record};
use tests::corpus::{asking, Case};
use tests::families;
use tests::including;
use tests::masks::damaged;
use tests::normal::normal;
use tests::programs::{command, example, repository, waited, Folder, Ran};
use tests::random::Random;
use tests::release_texts::{heavy, pair, with_differences};

#[cfg(proved_releases)]
use tests::proved::releases::compare as proved;

#[cfg(not(proved_releases))]
fn proved(_: [&[u8]; 2], _: &mut [Record]) -> Answer {
    panic!("the proved library is not linked")
}

/// Guards beside the lent list.
const PAST: usize = 4;

/// The lengths of lists that are lent.
const LENGTHS: [usize; 6] = [0, 1, 63, 64, 65, 100];

fn is_linked() -> bool {
    tests::proved::is_linked("releases")
}

/// Records that tell nothing.
fn noise(random: &mut Random, count: usize) -> Vec<Record> {
    let mut one = || random.number() as usize;
    let record = |_| Record {
        first_object: one(),
        second_object: one(),
        first_value: one(),
        second_value: one(),
    };
    (0..count).map(record).collect()
}

/// What the call answers with a list of so many records, and the list afterwards; it lies between
/// noise and is noise before.
fn answered(random: &mut Random, texts: [&[u8]; 2], length: usize) -> (Answer, [Vec<Record>; 2]) {
    let before = noise(random, PAST + length + PAST);
    let mut memory = before.clone();
    let answer = proved(texts, &mut memory[PAST..PAST + length]);
    assert_eq!(memory[..PAST], before[..PAST], "in front of the list");
    assert_eq!(
        memory[PAST + length..],
        before[PAST + length..],
        "past the list"
    );
    let list = |memory: &[Record]| memory[PAST..PAST + length].to_vec();
    (answer, [list(&before), list(&memory)])
}

/// How many pairs had which answer.
#[derive(Debug, Default)]
struct Seen {
    pairs: usize,
    refused: [usize; 2],
    both_refused: usize,
    equal: usize,
    some: usize,
    full: usize,
    more: usize,
}

impl Seen {
    fn count(&mut self, compared: &Compared, texts: [&[u8]; 2]) {
        self.pairs += 1;
        match compared {
            Err((which, _)) => {
                self.refused[which - 1] += 1;
                let second = tests::meaning::read(texts[1]);
                self.both_refused += usize::from(*which == 1 && second.is_err());
            }
            Ok(found) => match found.len() {
                0 => self.equal += 1,
                1..=63 => self.some += 1,
                64 => self.full += 1,
                _ => self.more += 1,
            },
        }
    }
}

/// The call on one pair, with lists of some of the lengths; how many differences there are.
fn check(
    random: &mut Random,
    texts: [&[u8]; 2],
    lengths: &[usize],
    seen: &mut Seen,
) -> Option<usize> {
    let compared = compare(texts);
    for &length in lengths {
        let (answer, [mut expected, list]) = answered(random, texts, length);
        let told = lend(&compared, &mut expected);
        let [first, second] = texts.map(String::from_utf8_lossy);
        assert_eq!(answer, told, "{length}: {first}\n{second}");
        assert_eq!(list, expected, "{length}: {first}\n{second}");
    }
    seen.count(&compared, texts);
    compared.ok().map(|found| found.len())
}

/// Two of the lengths, others from pair to pair; now and then all.
fn some_lengths(number: usize) -> Vec<usize> {
    if number % 16 == 0 {
        return LENGTHS.to_vec();
    }
    vec![LENGTHS[number % 6], LENGTHS[(number / 6 + 3) % 6]]
}

/// "Swapping the texts swaps the sides in the whole set": totals are equal, and so are the records,
/// sides exchanged, where the list has all of them.
fn check_swapped(random: &mut Random, texts: [&[u8]; 2]) {
    let key = |record: &Record| {
        let Record {
            first_object,
            second_object,
            first_value,
            second_value,
        } = *record;
        [first_object, second_object, first_value, second_value]
    };
    let [first, second] = texts;
    let (answer, [_, list]) = answered(random, [first, second], 64);
    let (back, [_, other]) = answered(random, [second, first], 64);
    assert_eq!(answer.total, back.total);
    if answer.total <= 64 {
        let mut records: Vec<_> = list[..answer.total].iter().map(key).collect();
        let swapped = |[a, b, c, d]: [usize; 4]| [b, a, d, c];
        let mut others: Vec<_> = other[..back.total].iter().map(key).map(swapped).collect();
        records.sort();
        others.sort();
        assert_eq!(records, others);
    }
}

/// Pairs of which the second is like the first but for some choices.
#[test]
fn like_pairs() {
    if !is_linked() {
        return;
    }
    let mut random = Random::new(8);
    let mut seen = Seen::default();
    for seed in 0..14_000 {
        let [first, second] = pair(seed);
        let texts = [&first[..], &second[..]];
        let total = check(&mut random, texts, &some_lengths(seed as usize), &mut seen);
        if total.is_some() {
            check_swapped(&mut random, texts);
        }
    }
    println!("{seen:?}");
    assert!(
        seen.equal > 1_000 && seen.some > 3_000 && seen.more > 20,
        "{seen:?}"
    );
}

/// Exactly so many differences, below and above what a list takes.
#[test]
fn counted_pairs() {
    if !is_linked() {
        return;
    }
    let mut random = Random::new(88);
    let mut seen = Seen::default();
    for total in [
        0, 1, 2, 62, 63, 64, 65, 66, 100, 127, 128, 400, 1_000, 1_700,
    ] {
        for _ in 0..100 {
            let [first, second] = with_differences(&mut random, total);
            let texts = [&first[..], &second[..]];
            assert_eq!(check(&mut random, texts, &LENGTHS, &mut seen), Some(total));
            check_swapped(&mut random, texts);
        }
    }
    println!("{seen:?}");
    assert!(seen.full >= 100 && seen.more >= 800, "{seen:?}");
}

/// Accepted texts of every sort with a neighbour, with themselves with tokens exchanged, and with
/// their own normal text.
#[test]
fn accepted_pairs() {
    if !is_linked() {
        return;
    }
    let mut random = Random::new(888);
    let mut seen = Seen::default();
    for seed in 0..2_500 {
        let text = |seed| tests::answered::accepted(seed).text;
        let own = text(seed);
        let other = text(seed + 1);
        let mut changed = Vec::new();
        families::exchanged_texts(seed, &mut |case| changed.push(case.text));
        let written = normal(&own).expect("an accepted text");
        let lengths = some_lengths(seed as usize);
        check(&mut random, [&own, &other], &lengths, &mut seen);
        for changed in &changed {
            check(&mut random, [&own, changed], &lengths[..1], &mut seen);
        }
        if written.len() <= 65_535 {
            let total = check(&mut random, [&own, &written], &lengths, &mut seen);
            assert_eq!(total, Some(0));
        }
        assert_eq!(check(&mut random, [&own, &own], &[64], &mut seen), Some(0));
    }
    println!("{seen:?}");
    assert!(seen.equal > 4_000 && seen.some > 1_000, "{seen:?}");
}

/// Cut off or damaged: the first, the second or both.
#[test]
fn damaged_pairs() {
    if !is_linked() {
        return;
    }
    let mut random = Random::new(8_888);
    let mut seen = Seen::default();
    for seed in 0..6_000 {
        let [mut first, mut second] = pair(seed);
        let which = random.below(4);
        if which != 1 {
            first = damaged(&mut random, &first);
        }
        if which != 0 {
            second = damaged(&mut random, &second);
        }
        let lengths = some_lengths(seed as usize);
        check(&mut random, [&first, &second], &lengths, &mut seen);
    }
    println!("{seen:?}");
    assert!(seen.refused.iter().all(|&count| count > 800), "{seen:?}");
    assert!(seen.both_refused > 500, "{seen:?}");
}

/// Full tables, long lists, names alike but for their ends, objects in the other order; any two of
/// these texts, and the texts at the limits.
#[test]
fn heavy_pairs() {
    if !is_linked() {
        return;
    }
    let mut random = Random::new(88_888);
    let mut seen = Seen::default();
    let mut texts = Vec::new();
    for heavy in heavy() {
        let [first, second] = heavy.texts;
        let pair = [&first[..], &second[..]];
        let total = check(&mut random, pair, &LENGTHS, &mut seen);
        assert!(total.is_some(), "{}", heavy.name);
        check_swapped(&mut random, pair);
        texts.extend([first, second]);
    }
    (families::LIMITS.texts)(&mut |case| texts.push(case.text));
    for number in 0..texts.len() {
        let other = &texts[(number * 7 + 3) % texts.len()];
        check(&mut random, [&texts[number], other], &[64, 100], &mut seen);
    }
    println!("{seen:?}");
}

/// Definitions, the objects of both texts, and the lines.
type Planted = (&'static str, &'static str, &'static str, &'static str);

/// Each sort of difference by itself, and what makes none.
const PLANTED: &[Planted] = &[
    ("UINT32 x = 1;", "TASK t;", "TASK t { x = 0x01; };", ""),
    (
        "UINT32 x = 1;",
        "TASK t;",
        "TASK t { x = 2; };",
        "both TASK t x 1 2\n",
    ),
    ("INT32 x;", "TASK t { x = -0; };", "TASK t { x = 0; };", ""),
    (
        "INT32 x;",
        "TASK t { x = -5; };",
        "TASK t { x = +5; };",
        "both TASK t x -5 5\n",
    ),
    (
        "FLOAT x;",
        "TASK t { x = 1.50; };",
        "TASK t { x = 15.0e-1; };",
        "",
    ),
    (
        "FLOAT x;",
        "TASK t { x = -0.0; };",
        "TASK t { x = 0.00; };",
        "",
    ),
    (
        "FLOAT x;",
        "TASK t { x = 1.50; };",
        "TASK t { x = 1.5000000001; };",
        "both TASK t x 1.50 1.5000000001\n",
    ),
    (
        "STRING x;",
        "TASK t { x = \"a\"; };",
        "TASK t { x = \"a \"; };",
        "both TASK t x 61 6120\n",
    ),
    (
        "STRING x;",
        "TASK t { x = \"\"; };",
        "TASK t { x = \"\t\"; };",
        "both TASK t x  09\n",
    ),
    (
        "BOOLEAN x = FALSE;",
        "TASK t;",
        "TASK t { x = TRUE; };",
        "both TASK t x FALSE TRUE\n",
    ),
    (
        "UINT32 WITH_AUTO x = AUTO;",
        "TASK t;",
        "TASK t { x = 0; };",
        "both TASK t x AUTO 0\n",
    ),
    (
        "UINT32 WITH_AUTO x = 7;",
        "TASK t { x = AUTO; };",
        "TASK t { x = AUTO; };",
        "",
    ),
    (
        "ENUM [A, B] x = A;",
        "TASK t;",
        "TASK t { x = B; };",
        "both TASK t x A B\n",
    ),
    (
        "TASK_TYPE x;",
        "TASK t { x = u; }; TASK u { x = u; };",
        "TASK u { x = u; }; TASK t { x = t; };",
        "both TASK t x u t\n",
    ),
    (
        "UINT32 x[];",
        "TASK t { x = 1; x = 2; };",
        "TASK t { x = 1; };",
        "first TASK t x[1] 2 \n",
    ),
    (
        "UINT32 x[];",
        "TASK t { x = 1; };",
        "TASK t { x = 1; }; TASK t { x = 2; };",
        "second TASK t x[1]  2\n",
    ),
    (
        "UINT32 x[];",
        "TASK t { x = 1; x = 2; };",
        "TASK t { x = 2; x = 1; };",
        "both TASK t x[0] 1 2\nboth TASK t x[1] 2 1\n",
    ),
    (
        "ENUM [A { UINT32 y = 1; }, B { UINT32 y = 1; UINT32 z = 3; }] x = A;",
        "TASK t;",
        "TASK t { x = B; };",
        "both TASK t x A B\nsecond TASK t x.z  3\n",
    ),
    (
        "ENUM [A { UINT32 y[]; }, B] x[];",
        "TASK t { x = B; x = A { y = 1; y = 2; }; };",
        "TASK t { x = B; x = A { y = 1; y = 3; }; };",
        "both TASK t x[1].y[1] 2 3\n",
    ),
    ("", "TASK t;", "", "first TASK t   \n"),
    ("", "", "TASK t;", "second TASK t   \n"),
    (
        "",
        "TASK t;",
        "EVENT t;",
        "first TASK t   \nsecond EVENT t   \n",
    ),
    ("", "TASK t; TASK u;", "TASK u {}; TASK t {};", ""),
];

fn planted_text(specs: &str, objects: &str) -> Vec<u8> {
    format!("OIL_VERSION = \"2.5\"; IMPLEMENTATION m {{ TASK {{ {specs} }}; }}; CPU c {{ OS o; APPMODE a; {objects} }};").into_bytes()
}

/// The reference's lines for two texts are these, with blanks for tabs, and the total; and the call
/// agrees.
fn reports(random: &mut Random, seen: &mut Seen, texts: &[Vec<u8>; 2], lines: &str) {
    let texts = [&texts[0][..], &texts[1][..]];
    let total = lines.lines().count();
    let expected = format!("{}total\t{total}\n", lines.replace(' ', "\t"));
    let shown = texts.map(String::from_utf8_lossy);
    assert_eq!(
        String::from_utf8_lossy(&report(texts)),
        expected,
        "{shown:?}"
    );
    if is_linked() {
        check(random, texts, &LENGTHS, seen);
    }
}

#[test]
fn planted_pairs() {
    let mut random = Random::new(888_888);
    let mut seen = Seen::default();
    for (specs, first, second, lines) in PLANTED {
        let texts = [first, second].map(|objects| planted_text(specs, objects));
        reports(&mut random, &mut seen, &texts, lines);
    }
}

/// Two sorts differ though they are written alike, a list is not a single attribute, and a reference
/// has a kind.
#[test]
fn other_definitions() {
    let mut random = Random::new(1);
    let mut seen = Seen::default();
    for (first, second, lines) in [
        ("ENUM [t] x = t;", "TASK_TYPE x; ", "both TASK t x t t\n"),
        ("UINT32 x = 1;", "ENUM [A, B] x = A;", "both TASK t x 1 A\n"),
        ("UINT32 x = 1;", "FLOAT x = 1.0;", "both TASK t x 1 1.0\n"),
        ("UINT32 x = 1;", "INT64 x = 1;", ""),
        ("ENUM [A, B] x = B;", "ENUM [C, B] x = B;", ""),
        (
            "UINT32 x = 1;",
            "UINT32 x[] = 1;",
            "first TASK t x 1 \nsecond TASK t x[0]  1\n",
        ),
        (
            "UINT32 x = 1; UINT32 y = 2;",
            "UINT32 y = 2; UINT32 x = 1;",
            "",
        ),
        (
            "BOOLEAN x = TRUE;",
            "STRING x = \"TRUE\";",
            "both TASK t x TRUE 54525545\n",
        ),
    ] {
        let stated = |specs: &str| {
            if specs.contains("_TYPE") {
                "x = t;"
            } else {
                ""
            }
        };
        let texts = [first, second]
            .map(|specs| planted_text(specs, &format!("TASK t {{ {} }};", stated(specs))));
        reports(&mut random, &mut seen, &texts, lines);
    }
}

// The program -----------------------------------------------------------------------------------

fn run(files: [&Path; 2]) -> Ran {
    let ran = waited(command("oil").args(files).spawn().expect("the program"));
    assert!(ran.status.success(), "{ran:?}");
    ran
}

/// What the program writes for two files.
fn written(files: [&Path; 2]) -> Vec<u8> {
    let ran = run(files);
    assert_eq!(String::from_utf8_lossy(&ran.err), "");
    ran.out
}

/// What the program writes for two texts, in files of a folder.
fn written_of(folder: &Folder, [first, second]: [&[u8]; 2]) -> Vec<u8> {
    let first = folder.with("first.oil", first);
    let second = folder.with("second.oil", second);
    written([&first, &second])
}

/// The cases of the corpus that ask for a comparison, whose answers two implementations gave.
fn cases() -> Vec<Case> {
    let cases = asking("compare");
    assert_eq!(cases.len(), 84);
    cases
}

fn texts(case: &Case) -> [Vec<u8>; 2] {
    case.pair().map(|text| text.bytes())
}

#[test]
fn corpus_by_the_reference() {
    for case in cases() {
        let [first, second] = texts(&case);
        let found = report([&first, &second]);
        assert_eq!(Some(found), case.plain_answer(), "{}", case.name);
    }
}

#[test]
fn corpus_by_the_call() {
    if !is_linked() {
        return;
    }
    let mut random = Random::new(84);
    let mut seen = Seen::default();
    for case in cases() {
        let [first, second] = texts(&case);
        check(&mut random, [&first, &second], &LENGTHS, &mut seen);
    }
    println!("{seen:?}");
}

#[test]
fn corpus_by_the_program() {
    for case in cases() {
        let [first, second] = case.pair().map(|text| text.path());
        let lines = run([&first, &second]).out;
        assert_eq!(lines, case.answer(), "{}", case.name);
    }
}

#[test]
fn example_of_the_page() {
    let page = fs::read_to_string(repository().join("docs/COMPARING.md"));
    let page = page.expect("the page");
    let files = ["release1.oil", "release2.oil"].map(example);
    let lines = String::from_utf8(written([&files[0], &files[1]])).expect("lines in ASCII");
    assert!(page.contains(&format!("```\n{lines}```\n")), "{lines}");
}

/// A file that it cannot open is empty, and is named on standard error.
#[test]
fn files_that_are_not_there() {
    let none = PathBuf::from("no such file");
    let some = example("release1.oil");
    for (files, lines, named) in [
        ([&none, &some], "refused\t1\t4\t0\t0\n", 1),
        ([&some, &none], "refused\t2\t4\t0\t0\n", 1),
        ([&none, &none], "refused\t1\t4\t0\t0\n", 2),
    ] {
        let ran = run([files[0], files[1]]);
        assert_eq!(String::from_utf8_lossy(&ran.out), lines);
        let told = String::from_utf8_lossy(&ran.err).into_owned();
        assert_eq!(told.lines().count(), named, "{told}");
        assert!(
            told.lines().all(|line| line.contains("no such file")),
            "{told}"
        );
    }
}

/// What the program is to write for two texts where no file can be opened that they include.
fn told(texts: [&[u8]; 2]) -> Vec<u8> {
    let [first, second] = texts.map(including::alone);
    including::report([&first, &second])
}

/// What the program writes, byte for byte.
#[test]
fn program_lines() {
    let folder = Folder::new("releases");
    let mut random = Random::new(2);
    let mut differ = 0;
    for seed in 0..3_000 {
        let [first, second] = match seed % 30 {
            0 => with_differences(&mut random, 60 + seed as usize % 9),
            1 => pair(seed).map(|text| damaged(&mut random, &text)),
            _ => pair(seed),
        };
        let texts = [&first[..], &second[..]];
        assert_eq!(written_of(&folder, texts), told(texts), "pair {seed}");
        differ += usize::from(compare(texts).is_ok_and(|found| !found.is_empty()));
    }
    assert!(differ > 800, "{differ} pairs with differences");
    for heavy in heavy() {
        let texts = [&heavy.texts[0][..], &heavy.texts[1][..]];
        assert_eq!(written_of(&folder, texts), told(texts), "{}", heavy.name);
    }
    // One byte too long: of a longer file no more is read.
    for length in [65_535, 65_536, 70_000] {
        let long = vec![b' '; length];
        for texts in [[&long[..], b""], [b"", &long[..]]] {
            assert_eq!(written_of(&folder, texts), told(texts), "{length}");
        }
    }
}

/// The reference itself: swapping the texts swaps the sides; a text compared with itself, and with
/// its own normal text, has no difference.
#[test]
fn sides_and_normal_texts() {
    for seed in 0..2_000 {
        let [first, second] = pair(seed);
        let Ok(found) = compare([&first, &second]) else {
            continue;
        };
        let mut back = compare([&second, &first]).expect("two accepted texts");
        for difference in &mut back {
            difference.objects.reverse();
            difference.values.reverse();
        }
        let key = |list: &[_]| {
            let mut keys: Vec<String> = list.iter().map(|one| format!("{one:?}")).collect();
            keys.sort();
            keys
        };
        assert_eq!(key(&back), key(&found), "pair {seed}");
        assert_eq!(compare([&first, &first]), Ok(Vec::new()), "pair {seed}");
        let written = normal(&first).expect("an accepted text");
        if written.len() <= 65_535 {
            assert_eq!(compare([&first, &written]), Ok(Vec::new()), "pair {seed}");
        }
    }
}
