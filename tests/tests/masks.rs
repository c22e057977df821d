//! The proved calls `check_masks` and `plan_masks` against the reference (document 02, Q-6):
//! number, place, event, every entry of the lent list, and the memory after it.

use tests::corpus;
use tests::including;
use tests::masks::{self, any_mix, check_line, damaged, listed, lists, plan_line};
use tests::masks::{Checked, Mix, Planned};
use tests::programs::{command, example_text, run, Folder};
use tests::random::Random;
use tests::token::KINDS;

#[cfg(proved_masks)]
use tests::proved::masks::{check_masks, plan_masks};

/// Guards after the lent list.
const PAST: usize = 8;

#[cfg(not(proved_masks))]
fn check_masks(_: &[u8], _: &[u64]) -> Checked {
    panic!("the proved library is not linked")
}

#[cfg(not(proved_masks))]
fn plan_masks(_: &[u8], _: &mut [u64]) -> Planned {
    panic!("the proved library is not linked")
}

/// The planner's answer and the list afterwards, which lies between noise.
fn planned(random: &mut Random, text: &[u8], list: &[u64]) -> (Planned, Vec<u64>) {
    let guard: Vec<u64> = (0..PAST).map(|_| random.number()).collect();
    let mut memory = [&guard[..], list, &guard[..]].concat();
    let answer = plan_masks(text, &mut memory[PAST..PAST + list.len()]);
    assert_eq!(memory[..PAST], guard, "in front of the list");
    assert_eq!(memory[PAST + list.len()..], guard, "behind the list");
    (answer, memory[PAST..PAST + list.len()].to_vec())
}

/// The answers on one text, with lists of every sort; how many were compared.
fn compare(random: &mut Random, text: &[u8], seen: &mut [usize; 10]) {
    for list in lists(random, text) {
        let expected = masks::check(text, &list);
        assert_eq!(
            check_masks(text, &list),
            expected,
            "{}",
            String::from_utf8_lossy(text)
        );
        seen[match expected {
            Checked::Refused(_) => 0,
            Checked::NotPlannable => 1,
            Checked::WrongLength => 2,
            Checked::Breaks(_) => 3,
            Checked::Accepted => 4,
        }] += 1;
    }
    let count = match masks::plan(text, &[0; 300]).0 {
        Planned::Made(count) => count,
        _ => 3,
    };
    for length in [0, count.saturating_sub(1), count, count + 3, 260] {
        let list: Vec<u64> = (0..length).map(|_| random.number()).collect();
        let expected = masks::plan(text, &list);
        let found = planned(random, text, &list);
        assert_eq!(found, expected, "{}", String::from_utf8_lossy(text));
        seen[match expected.0 {
            Planned::Refused(_) => 5,
            Planned::NotPlannable => 6,
            Planned::WrongLength => 7,
            Planned::Full(_) => 8,
            Planned::Made(_) => 9,
        }] += 1;
        if let Planned::Made(count) = found.0 {
            assert_eq!(check_masks(text, &found.1[..count]), Checked::Accepted);
        }
    }
}

fn is_linked() -> bool {
    tests::proved::is_linked("masks")
}

#[test]
fn generated_texts() {
    if !is_linked() {
        return;
    }
    let mut random = Random::new(6);
    let mut seen = [0; 10];
    for _ in 0..16_000 {
        let mix = any_mix(&mut random);
        let text = masks::text(&mut random, &mix);
        compare(&mut random, &text, &mut seen);
    }
    println!("{seen:?}");
    for (answer, count) in seen.iter().enumerate() {
        assert!(*count > 50 || [0, 5].contains(&answer), "{answer}: {count}");
    }
}

#[test]
fn damaged_texts() {
    if !is_linked() {
        return;
    }
    let mut random = Random::new(66);
    let mut seen = [0; 10];
    for _ in 0..6_000 {
        let mix = any_mix(&mut random);
        let whole = masks::text(&mut random, &mix);
        let text = damaged(&mut random, &whole);
        compare(&mut random, &text, &mut seen);
    }
    println!("{seen:?}");
    assert!(seen[0] > 1_000 && seen[5] > 1_000);
}

/// 254 events, 2,048 values, 64 bits full and one event more, masks with all bits.
#[test]
fn limit_texts() {
    if !is_linked() {
        return;
    }
    let mut random = Random::new(666);
    let mut seen = [0; 10];
    let sizes = [
        (254, 0, 0),
        (253, 1, 1_700),
        (64, 1, 400),
        (65, 1, 500),
        (66, 2, 900),
        (100, 154, 1_700),
        (127, 127, 1_750),
        (0, 254, 0),
    ];
    for (events, tasks, references) in sizes {
        for (definition, given_in, dense) in
            [(0, 400, false), (0, 3, false), (2, 2, true), (1, 40, false)]
        {
            for _ in 0..6 {
                let mix = Mix {
                    definition,
                    events,
                    tasks,
                    references,
                    given_in,
                    dense,
                };
                let text = masks::text(&mut random, &mix);
                compare(&mut random, &text, &mut seen);
            }
        }
    }
    println!("{seen:?}");
    assert!(seen[4] > 20 && seen[8] > 20 && seen[9] > 20);
}

/// One task with as many AUTO events as there are bits, and with one more; the same where each event has its own task.
#[test]
fn sixty_four_bits() {
    let text = |events: usize, together: bool| {
        let objects: String = (0..events)
            .map(|event| format!("EVENT e{event};"))
            .collect();
        let tasks: String = match together {
            true => {
                let all: String = (0..events).map(|event| format!("E = e{event};")).collect();
                format!("TASK t {{{all}}};")
            }
            false => (0..events)
                .map(|event| format!("TASK t{event} {{E = e{event};}};"))
                .collect(),
        };
        format!("OIL_VERSION = \"2.5\"; IMPLEMENTATION m {{ EVENT {{ UINT64 WITH_AUTO MASK = AUTO; }}; TASK {{ EVENT_TYPE E[]; }}; }}; CPU c {{ OS o; APPMODE a; {objects} {tasks} }};").into_bytes()
    };
    for (text, answer) in [
        (text(64, true), Planned::Made(64)),
        (text(65, true), Planned::Full(64)),
        (text(127, false), Planned::Made(127)),
        (text(251, true), Planned::Full(64)),
    ] {
        assert_eq!(masks::plan(&text, &[7; 256]).0, answer);
        if is_linked() {
            let expected = masks::plan(&text, &[7; 256]);
            assert_eq!(planned(&mut Random::new(1), &text, &[7; 256]), expected);
        }
    }
}

/// The cases of Q-6 in the corpus, by the reference and, where they are linked, the proved calls.
#[test]
fn corpus_cases() {
    let cases = corpus::asking("masks-check");
    assert_eq!(cases.len(), 110);
    for case in cases {
        let text = case.text();
        let answer = case.plain_answer().expect("the answer to one text");
        let list = listed(&case.ask);
        let reference = check_line(masks::check(&text, &list));
        assert_eq!(reference.as_bytes(), answer, "{}", case.name);
        if is_linked() {
            let found = check_line(check_masks(&text, &list));
            assert_eq!(found.as_bytes(), answer, "{}", case.name);
        }
    }
    let cases = corpus::asking("masks-plan");
    assert_eq!(cases.len(), 99);
    for case in cases {
        let text = case.text();
        let answer = case.plain_answer().expect("the answer to one text");
        let length = case.ask.strip_prefix("masks-plan ").expect("a length");
        let noise = vec![0x5a5a; length.parse().expect("a length")];
        let reference = plan_line(masks::plan(&text, &noise), &noise);
        assert_eq!(reference.as_bytes(), answer, "{}", case.name);
        if is_linked() {
            let found = plan_line(planned(&mut Random::new(2), &text, &noise), &noise);
            assert_eq!(found.as_bytes(), answer, "{}", case.name);
        }
    }
}

/// What the program `oil_masks` writes for a text on standard input, and a list in a file.
fn written(text: &[u8], list: Option<&str>) -> String {
    let folder = Folder::new("masks");
    let list = list.map(|list| folder.with("list", list.as_bytes()));
    run(command("oil_masks").args(list), text).lines()
}

/// The lines that the program writes by the reference's plan, where no file can be opened that the
/// text includes.
fn plan_lines(text: &[u8]) -> String {
    let (answer, list) = match including::plan_masks(&including::alone(text), &[0; 256]) {
        Ok(planned) => planned,
        Err(refused) => return refused.line(),
    };
    let names = |reading: &tests::meaning::Reading| -> Vec<String> {
        let objects = reading
            .objects
            .iter()
            .filter(|object| KINDS[object.kind] == "EVENT");
        let name = |part: tests::tree::Part| String::from_utf8_lossy(part.of(text)).into_owned();
        objects.map(|object| name(object.name)).collect()
    };
    let accepted = || tests::meaning::read(text).expect("an accepted text");
    match answer {
        Planned::Refused(refusal) => panic!("{refusal:?}"),
        Planned::NotPlannable => {
            "not plannable: EVENT itself has no single UINT64 attribute MASK\n".into()
        }
        Planned::WrongLength => panic!("256 masks are lent"),
        Planned::Full(event) => format!("{}\tall 64 bits are taken\n", names(&accepted())[event]),
        Planned::Made(count) => {
            let reading = accepted();
            let events = masks::events(text, &reading).expect("a plannable text");
            let names = names(&reading);
            let line = |event: usize| {
                let sort = match events.masks[event] {
                    Some(_) => "given",
                    None => "auto",
                };
                format!(
                    "{sort}\t{}\t{}\t{:#x}\n",
                    names[event], list[event], list[event]
                )
            };
            (0..count).map(line).collect()
        }
    }
}

/// The example that README.md names, and generated texts.
#[test]
fn program_plans() {
    let example = example_text("events.oil");
    let plan = "auto\treceived\t2\t0x2\ngiven\ttimeout\t5\t0x5\nauto\tbus_off\t8\t0x8\nauto\tlogged\t1\t0x1\n";
    assert_eq!(written(&example, None), plan);
    assert_eq!(plan_lines(&example), plan);
    let mut random = Random::new(60);
    for _ in 0..200 {
        let mix = any_mix(&mut random);
        let text = masks::text(&mut random, &mix);
        assert_eq!(written(&text, None), plan_lines(&text));
    }
    assert_eq!(written(b"", None), "refused\t4\t0\t0\n");
}

#[test]
fn program_checks() {
    let example = example_text("events.oil");
    for (list, answer) in [
        ("2 5\n8\t0x1\n", "accepted\n"),
        (
            "2 5 0x8 0xffffffffffffffff",
            "logged\tthis AUTO mask is not a single bit\n",
        ),
        ("2 21 8 1", "timeout\tthe given mask is not kept\n"),
        (
            "2 5 2 1",
            "received\tthe bit of this AUTO mask is in the mask of another event of a same task\n",
        ),
        (
            "2 5 8",
            "wrong length: the list has not one mask for each event\n",
        ),
        (
            "2 5 8 1 1",
            "wrong length: the list has not one mask for each event\n",
        ),
        (
            "",
            "wrong length: the list has not one mask for each event\n",
        ),
        ("2 5 8 -1", "the list has something that is no mask\n"),
        ("2 5 8 one", "the list has something that is no mask\n"),
        (
            "2 5 8 18446744073709551616",
            "the list has something that is no mask\n",
        ),
    ] {
        assert_eq!(written(&example, Some(list)), answer, "{list}");
    }
    assert_eq!(written(b"}", Some("1")), "refused\t4\t0\t0\n");
    let many = "1 ".repeat(300);
    let answer = "wrong length: the list has not one mask for each event\n";
    assert_eq!(written(&example, Some(&many)), answer);
}
