//! Document 02, Q-6: event masks, checked and planned, over what the reference reads; and
//! texts with lists of masks of every sort.

use crate::meaning::{read, Owner, Reading, Refusal, Resolved};
use crate::random::Random;
use crate::token::KINDS;
use crate::tree::{self, Type};
use std::collections::HashSet;

/// The checker's answer. An event is told by its number among the events, from 0.
#[derive(Clone, Copy, Debug, PartialEq, Eq)]
pub enum Checked {
    Refused(Refusal),
    NotPlannable,
    WrongLength,
    Breaks(usize),
    Accepted,
}

/// The planner's answer.
#[derive(Clone, Copy, Debug, PartialEq, Eq)]
pub enum Planned {
    Refused(Refusal),
    NotPlannable,
    WrongLength,
    Full(usize),
    Made(usize),
}

/// The events of a text, "in object order".
pub struct Events {
    /// The given mask of each, or nothing for AUTO.
    pub masks: Vec<Option<u64>>,
    /// The events of each task, by their numbers.
    pub tasks: Vec<HashSet<usize>>,
}

fn is_kind(kind: usize, name: &str) -> bool {
    KINDS[kind] == name
}

/// Whether "EVENT itself" has a "UINT64 single MASK".
fn is_plannable(text: &[u8]) -> bool {
    let file = tree::file(text);
    let mut specs = file.specs.iter();
    let Some(spec) = specs.find(|spec| is_kind(spec.kind, "EVENT")) else {
        return false;
    };
    spec.definitions.iter().any(|definition| {
        definition.name.of(text) == b"MASK"
            && definition.sort == Type::Uint64
            && !definition.is_list
    })
}

/// The object that a value is in, however deep.
fn object_of(reading: &Reading, value: usize) -> usize {
    match reading.values[value].owner {
        Owner::Object(object) => object,
        Owner::Value(outer) => object_of(reading, outer),
    }
}

/// The events and tasks of an accepted text; nothing where it is not plannable.
pub fn events(text: &[u8], reading: &Reading) -> Option<Events> {
    if !is_plannable(text) {
        return None;
    }
    let of_kind = |name: &str| -> Vec<usize> {
        let rows = 0..reading.objects.len();
        rows.filter(|row| is_kind(reading.objects[*row].kind, name))
            .collect()
    };
    let rows = of_kind("EVENT");
    let mask = |row: &usize| {
        let mut values = reading.values.iter();
        let value = values
            .find(|value| {
                let name = reading.definitions[value.definition].name;
                value.owner == Owner::Object(*row) && name.of(text) == b"MASK"
            })
            .expect("a single attribute is stated or has a default");
        match value.value {
            Resolved::Number(number) => Some(u64::try_from(number).expect("a UINT64")),
            _ => None,
        }
    };
    // "A task's events are all its resolved references to EVENT, nested ones too."
    let referred = |task: usize| {
        let values = (0..reading.values.len()).filter(|value| object_of(reading, *value) == task);
        values
            .filter_map(|value| match reading.values[value].value {
                Resolved::Object(object) => rows.iter().position(|row| *row == object),
                _ => None,
            })
            .collect()
    };
    Some(Events {
        masks: rows.iter().map(mask).collect(),
        tasks: of_kind("TASK").into_iter().map(referred).collect(),
    })
}

impl Events {
    /// "another event of any same task"
    fn others(&self, event: usize) -> HashSet<usize> {
        let its = self.tasks.iter().filter(|task| task.contains(&event));
        let mut others: HashSet<usize> = its.flatten().copied().collect();
        others.remove(&event);
        others
    }

    /// "given: kept; AUTO: the other two"
    fn keeps(&self, event: usize, masks: &[u64]) -> bool {
        let mask = masks[event];
        match self.masks[event] {
            Some(given) => mask == given,
            None => {
                mask.count_ones() == 1
                    && self
                        .others(event)
                        .iter()
                        .all(|other| mask & masks[*other] == 0)
            }
        }
    }

    pub fn check(&self, masks: &[u64]) -> Checked {
        if masks.len() != self.masks.len() {
            return Checked::WrongLength;
        }
        match (0..masks.len()).find(|event| !self.keeps(*event, masks)) {
            Some(event) => Checked::Breaks(event),
            None => Checked::Accepted,
        }
    }

    /// The plan, or the first event for which all 64 bits are taken.
    pub fn plan(&self) -> Result<Vec<u64>, usize> {
        let mut plan = self.masks.clone();
        for event in 0..plan.len() {
            if plan[event].is_none() {
                let others = self.others(event);
                let taken = others.iter().filter_map(|other| plan[*other]);
                let taken = taken.fold(0, |all, mask| all | mask);
                if taken == u64::MAX {
                    return Err(event);
                }
                plan[event] = Some(1 << (!taken).trailing_zeros());
            }
        }
        Ok(plan
            .into_iter()
            .map(|mask| mask.expect("planned"))
            .collect())
    }
}

/// The checker.
pub fn check(text: &[u8], masks: &[u64]) -> Checked {
    match read(text) {
        Err(refusal) => Checked::Refused(refusal),
        Ok(reading) => match events(text, &reading) {
            None => Checked::NotPlannable,
            Some(events) => events.check(masks),
        },
    }
}

/// The planner: its answer, and the lent list as it is afterwards.
pub fn plan(text: &[u8], masks: &[u64]) -> (Planned, Vec<u64>) {
    let mut after = masks.to_vec();
    let answer = match read(text) {
        Err(refusal) => Planned::Refused(refusal),
        Ok(reading) => match events(text, &reading) {
            None => Planned::NotPlannable,
            Some(events) if masks.len() < events.masks.len() => Planned::WrongLength,
            Some(events) => match events.plan() {
                Err(event) => Planned::Full(event),
                Ok(plan) => {
                    after[..plan.len()].copy_from_slice(&plan);
                    Planned::Made(plan.len())
                }
            },
        },
    };
    (answer, after)
}

// Texts --------------------------------------------------------------------------------------

/// The definitions of EVENT; those after the first four are not plannable.
const EVENTS: [&str; 14] = [
    "EVENT { UINT64 WITH_AUTO MASK = AUTO; };",
    "EVENT { STRING S = \"x\"; UINT64 WITH_AUTO MASK = AUTO; UINT64 MASK2 = 1; };",
    "EVENT { UINT64 WITH_AUTO [0..0xffffffffffffffff] MASK = 3; };",
    "EVENT { ENUM [EVENT { UINT64 WITH_AUTO MASK = 1; }, MASK] K = EVENT; UINT64 WITH_AUTO MASK = AUTO; };",
    "EVENT { ENUM [EVENT { UINT64 WITH_AUTO MASK = AUTO; }, A] K = EVENT; };",
    "EVENT { BOOLEAN [TRUE { UINT64 WITH_AUTO MASK = AUTO; }, FALSE] MASKS = TRUE; };",
    "EVENT { UINT32 WITH_AUTO MASK = AUTO; };",
    "EVENT { INT64 WITH_AUTO MASK = AUTO; };",
    "EVENT { UINT64 WITH_AUTO MASK[] = AUTO; };",
    "EVENT { UINT64 WITH_AUTO mask = AUTO; };",
    "EVENT { UINT64 WITH_AUTO MASKE = AUTO; };",
    "EVENT { BOOLEAN MASK = FALSE; };",
    "EVENT { };",
    "",
];

/// The other kinds: references at several depths, of tasks and of others, and an enumerator
/// EVENT with a MASK under it.
const OTHERS: &str = "TASK { EVENT_TYPE EVENT[]; EVENT_TYPE E2[]; TASK_TYPE T[]; \
    BOOLEAN [TRUE { EVENT_TYPE X[]; ENUM [A { EVENT_TYPE Y[]; }, B] C = B; }, FALSE] N[]; \
    ENUM [EVENT { UINT64 MASK = 5; EVENT_TYPE Z[]; }, F] D = F; }; \
    ISR { EVENT_TYPE EVENT[]; }; ALARM { EVENT_TYPE EVENT[]; TASK_TYPE TASK[]; };";

/// What a text is made of.
pub struct Mix {
    /// Which of `EVENTS`.
    pub definition: usize,
    pub events: usize,
    pub tasks: usize,
    pub references: usize,
    /// Of how many masks about one is given, and with how many bits.
    pub given_in: usize,
    pub dense: bool,
}

/// A text of a mix, accepted unless it has too much of something.
pub fn text(random: &mut Random, mix: &Mix) -> Vec<u8> {
    let mut objects: Vec<String> = vec!["OS o;".into(), "APPMODE a;".into()];
    for event in 0..mix.events {
        let takes_mask = mix.definition < 4;
        let block = match takes_mask && random.once_in(mix.given_in) {
            true => format!(" {{ MASK = {}; }}", a_mask(random, mix.dense)),
            false if takes_mask && random.once_in(3) => " { MASK = AUTO; }".into(),
            false => String::new(),
        };
        objects.push(format!("EVENT e{event}{block};"));
    }
    let mut blocks = vec![String::new(); mix.tasks];
    for _ in 0..mix.references {
        if mix.tasks > 0 && mix.events > 0 {
            let task = random.below(mix.tasks);
            let event = random.below(mix.events);
            blocks[task].push_str(&a_reference(random, event));
        }
    }
    for (task, block) in blocks.iter().enumerate() {
        let is_plain = !block.contains("E2 =") && !block.contains("N =");
        let kind = match is_plain && random.once_in(4) {
            true => random.pick(&["ISR", "ALARM"]),
            false => "TASK",
        };
        objects.push(format!("{kind} t{task} {{{block}}};"));
    }
    for place in (3..objects.len()).rev() {
        let other = random.from_to(2, place);
        objects.swap(place, other);
    }
    let definition = EVENTS[mix.definition];
    let application = objects.join("\n");
    format!(
        "OIL_VERSION = \"2.5\";\nIMPLEMENTATION m {{ {definition} {OTHERS} }};\nCPU c {{\n{application}\n}};\n"
    )
    .into_bytes()
}

fn a_mask(random: &mut Random, dense: bool) -> String {
    let mask = match random.below(if dense { 3 } else { 6 }) {
        0 => u64::MAX >> random.below(4),
        1 => random.number(),
        2 => random.number() | random.number(),
        3 => 0,
        4 => 1 << random.below(64),
        _ => 3 << random.below(63),
    };
    match random.once_in(2) {
        true => format!("{mask}"),
        false => format!("{mask:#x}"),
    }
}

fn a_reference(random: &mut Random, event: usize) -> String {
    match random.below(8) {
        0 => format!(" E2 = e{event};"),
        1 => format!(" N = TRUE {{ X = e{event}; }};"),
        2 => format!(" N = TRUE {{ C = A {{ Y = e{event}; }}; }};"),
        3 => format!(" N = TRUE {{ X = e{event}; X = e{event}; }};"),
        _ => format!(" EVENT = e{event};"),
    }
}

/// A mix of any sort.
pub fn any_mix(random: &mut Random) -> Mix {
    let definition = match random.once_in(5) {
        true => random.below(EVENTS.len()),
        false => random.below(4),
    };
    let events = random.below(12);
    Mix {
        definition,
        events,
        tasks: random.below(6),
        references: random.below(30),
        given_in: 1 + random.below(4),
        dense: random.once_in(3),
    }
}

/// Lists for a text: a plan, plans with one mask changed, and others.
pub fn lists(random: &mut Random, text: &[u8]) -> Vec<Vec<u64>> {
    let mut lists = vec![Vec::new(), vec![1], vec![random.number(); 3]];
    let Ok(reading) = read(text) else {
        return lists;
    };
    let Some(events) = events(text, &reading) else {
        return lists;
    };
    let count = events.masks.len();
    lists.push((0..count).map(|_| 1 << random.below(64)).collect());
    if let Ok(plan) = events.plan() {
        for _ in 0..4 {
            if count > 0 {
                let mut other = plan.clone();
                let event = random.below(count);
                other[event] = match random.below(5) {
                    0 => plan[random.below(count)],
                    1 => other[event] << 1,
                    2 => other[event] | 1 << random.below(64),
                    3 => 0,
                    _ => 1 << random.below(64),
                };
                lists.push(other);
            }
        }
        lists.push(plan[..count.saturating_sub(1)].to_vec());
        lists.push([&plan[..], &[1]].concat());
        lists.push(plan);
    }
    lists
}

/// A copy of a text that is cut off, or with one byte or two changed, dropped or doubled.
pub fn damaged(random: &mut Random, text: &[u8]) -> Vec<u8> {
    let mut text = text.to_vec();
    if random.once_in(4) {
        text.truncate(random.below(text.len() + 1));
        return text;
    }
    for _ in 0..1 + random.below(2) {
        let place = random.below(text.len());
        match random.below(3) {
            0 => text[place] = random.pick_byte(b"{}[];:=,TFAe1 \"/"),
            1 => drop(text.remove(place)),
            _ => text.insert(place, text[place]),
        }
    }
    text
}

// The answers of the corpus -----------------------------------------------------------------

/// The masks of a question `masks-check MASK..`.
pub fn listed(ask: &str) -> Vec<u64> {
    let number = |word: &str| match word.strip_prefix("0x") {
        Some(digits) => u64::from_str_radix(digits, 16).expect("a mask"),
        None => word.parse().expect("a mask"),
    };
    let words = ask.strip_prefix("masks-check").expect("a list");
    words.split_whitespace().map(number).collect()
}

fn refused_line(refusal: Refusal) -> String {
    format!("refused\t{}\t{}\n", refusal.number, refusal.place)
}

/// The line for the checker's answer.
pub fn check_line(answer: Checked) -> String {
    match answer {
        Checked::Refused(refusal) => refused_line(refusal),
        Checked::NotPlannable => "not plannable\n".into(),
        Checked::WrongLength => "wrong length\n".into(),
        Checked::Breaks(event) => format!("breaks\t{event}\n"),
        Checked::Accepted => "accepted\n".into(),
    }
}

/// The line for the planner's answer and its list, which was noise before.
pub fn plan_line((answer, list): (Planned, Vec<u64>), noise: &[u64]) -> String {
    match answer {
        Planned::Refused(refusal) => refused_line(refusal),
        Planned::NotPlannable => "not plannable\n".into(),
        Planned::WrongLength => "wrong length\n".into(),
        Planned::Full(event) => format!("full\t{event}\n"),
        Planned::Made(count) => {
            assert_eq!(list[count..], noise[count..], "entries past the events");
            let masks: String = list[..count]
                .iter()
                .map(|mask| format!("\t{mask}"))
                .collect();
            format!("plan{masks}\n")
        }
    }
}

// Heavy texts --------------------------------------------------------------------------------

/// A text that takes the two calls much work.
pub struct Heavy {
    pub name: &'static str,
    pub text: Vec<u8>,
}

fn heavy_text(
    events: impl Iterator<Item = String>,
    tasks: impl Iterator<Item = String>,
) -> Vec<u8> {
    let events: String = events.collect();
    let tasks: String = tasks.collect();
    format!(
        "OIL_VERSION=\"2.5\";IMPLEMENTATION m{{EVENT{{UINT64 WITH_AUTO MASK=AUTO;}};TASK{{EVENT_TYPE E[];\
         BOOLEAN[TRUE{{EVENT_TYPE X[];}},FALSE]N[];}};}};CPU c{{OS o;APPMODE a;{events}{tasks}}};"
    )
    .into_bytes()
}

/// Texts at the limits: 254 objects beside OS and APPMODE, 2,048 values.
pub fn heavy() -> Vec<Heavy> {
    let event = |number: usize| format!("EVENT e{number};");
    let given = |number: usize| format!("EVENT e{number}{{MASK=0;}};");
    let task = |number: usize, events: Vec<usize>| {
        let block: String = events.iter().map(|event| format!("E=e{event};")).collect();
        format!("TASK t{number}{{{block}}};")
    };
    vec![
        Heavy {
            name: "254 AUTO events",
            text: heavy_text((0..254).map(event), std::iter::empty()),
        },
        Heavy {
            name: "64 AUTO events in 28 tasks, 162 given",
            text: heavy_text(
                (0..162).map(given).chain((162..226).map(event)),
                (0..28).map(|number| task(number, (162..226).collect())),
            ),
        },
        Heavy {
            name: "64 AUTO events in front, in 28 tasks, 162 given",
            text: heavy_text(
                (0..64).map(event).chain((64..226).map(given)),
                (0..28).map(|number| task(number, (0..64).collect())),
            ),
        },
        Heavy {
            name: "8 tasks with 225 of 246 given events each",
            text: heavy_text(
                (0..246).map(given),
                (0..8).map(|number| task(number, (0..225).collect())),
            ),
        },
        Heavy {
            name: "127 tasks with 15 of 127 AUTO events each",
            text: heavy_text(
                (0..127).map(event),
                (0..127).map(|number| {
                    task(number, (0..15).map(|next| (number + next) % 127).collect())
                }),
            ),
        },
        Heavy {
            name: "one task, 253 AUTO events, 1,795 references",
            text: heavy_text(
                (0..253).map(event),
                (0..1).map(|number| task(number, (0..1_795).map(|next| next % 253).collect())),
            ),
        },
    ]
}
