//! Goes through a text once, for counting instructions: `bench WHAT TEXT`. Or, by the proved
//! call and by the reference, side by side: reads the heavy texts, `bench heavy`; or goes with
//! them from text to normal text, `bench normal`; or tells the headings of texts that go on after
//! theirs, `bench heading`.

use std::process::exit;
use std::time::{Duration, Instant};
use tests::heavy::{heavy, Heavy};
use tests::meaning::read;
use tests::measuring::{grouped, instructions, not_known, text_of};
use tests::normal::normal;
use tests::token::{step, Step};

const USE: &str = "bench WHAT TEXT, WHAT one of tokens-proved, tokens-reference, stage-proved,
stage-reference, read-proved, read-reference, normal-proved, normal-reference,
program-reference, heading-proved, heading-reference, and TEXT a file or the name of a heavy text;
or bench heavy [PART], bench normal [PART] or bench heading [PART], for the texts whose names have
this part";

fn main() {
    let arguments: Vec<String> = std::env::args().collect();
    let (what, text) = match &arguments[..] {
        [_, what] if what == "heavy" => return side_by_side(&READ, ""),
        [_, what, part] if what == "heavy" => return side_by_side(&READ, part),
        [_, what] if what == "normal" => return side_by_side(&NORMAL, ""),
        [_, what, part] if what == "normal" => return side_by_side(&NORMAL, part),
        [_, what] if what == "heading" => return side_by_side(&HEADING, ""),
        [_, what, part] if what == "heading" => return side_by_side(&HEADING, part),
        [_, what, text] => (what.as_str(), text_of(text, known())),
        _ => {
            eprintln!("{USE}");
            exit(2);
        }
    };
    match what {
        "tokens-reference" => println!("{}", tokens_reference(&text)),
        #[cfg(proved_token)]
        "tokens-proved" => println!("{}", tokens_proved(&text)),
        "stage-reference" => println!("{:?}", tests::grammar::stage(&text)),
        #[cfg(proved_grammar)]
        "stage-proved" => println!("{}", tests::proved::grammar::number(&text)),
        "read-reference" => println!("{}", read_reference(&text).number),
        #[cfg(proved_reading)]
        "read-proved" => println!("{}", read_proved(&text).number),
        "normal-reference" => println!("{}", normal_reference(&text).written),
        #[cfg(proved_writing)]
        "normal-proved" => println!("{}", normal_proved(&text).written),
        "heading-reference" => println!("{}", heading_reference(&text).number),
        #[cfg(proved_heading)]
        "heading-proved" => println!("{}", heading_proved(&text).number),
        "program-reference" => println!("{}", tests::normal::program(&text).len()),
        _ => not_known(what),
    }
}

/// The heavy texts, with their names.
fn known() -> impl Iterator<Item = (&'static str, Vec<u8>)> {
    let texts = heavy().into_iter().chain(tests::heading::heavy());
    texts.map(|heavy| (heavy.name, heavy.text))
}

/// The count of tokens before the end or the refusal.
fn tokens_reference(text: &[u8]) -> usize {
    let mut place = 0;
    let mut count = 0;
    while let Step::Token(_, next) = step(text, place) {
        place = next;
        count += 1;
    }
    count
}

/// The same by the proved reader, with one call for each token: past the last token the
/// place after the step either stands still or moves once over blanks.
#[cfg(proved_token)]
fn tokens_proved(text: &[u8]) -> usize {
    use tests::proved::token::{next, sort};
    let mut before = 0;
    let mut place = 0;
    let mut count = 0;
    loop {
        let after = next(text, place);
        if after == place {
            break;
        }
        (before, place) = (place, after);
        count += 1;
    }
    let moved_over_blanks = count > 0 && sort(text, before) < 2;
    count - usize::from(moved_over_blanks)
}

/// The number of the refusal, 0 where the text is accepted, and how long the normal text is,
/// where it is asked for.
#[derive(Debug, PartialEq, Eq)]
struct Answer {
    number: u8,
    written: usize,
}

impl Answer {
    fn shown(&self) -> String {
        match self.written {
            0 => self.number.to_string(),
            written => format!("{}, {written} bytes", self.number),
        }
    }
}

/// What is done by the proved call and by the reference, and the names under which callgrind
/// counts them.
struct Job {
    texts: fn() -> Vec<Heavy>,
    what: [&'static str; 2],
    functions: [&'static str; 2],
    run: [fn(&[u8]) -> Answer; 2],
}

const READ: Job = Job {
    texts: heavy,
    what: ["read-proved", "read-reference"],
    functions: ["kaukslini_read", "tests::meaning::read*"],
    run: [read_proved, read_reference],
};

const NORMAL: Job = Job {
    texts: heavy,
    what: ["normal-proved", "normal-reference"],
    functions: ["kaukslini_write", "tests::normal::normal*"],
    run: [normal_proved, normal_reference],
};

const HEADING: Job = Job {
    texts: tests::heading::heavy,
    what: ["heading-proved", "heading-reference"],
    functions: ["kaukslini_heading_cells", "tests::heading::heading*"],
    run: [heading_proved, heading_reference],
};

fn heading_reference(text: &[u8]) -> Answer {
    Answer {
        number: tests::heading::heading(text).map_or_else(|refusal| refusal.number, |_| 0),
        written: 0,
    }
}

#[cfg(proved_heading)]
fn heading_proved(text: &[u8]) -> Answer {
    Answer {
        number: tests::proved::heading::heading(text, &mut [0; 4]),
        written: 0,
    }
}

#[cfg(not(proved_heading))]
fn heading_proved(_: &[u8]) -> Answer {
    not_known("heading-proved")
}

fn read_reference(text: &[u8]) -> Answer {
    Answer {
        number: read(text).map_or_else(|refusal| refusal.number, |_| 0),
        written: 0,
    }
}

fn normal_reference(text: &[u8]) -> Answer {
    match normal(text) {
        Ok(written) => Answer {
            number: 0,
            written: written.len(),
        },
        Err(refusal) => Answer {
            number: refusal.number,
            written: 0,
        },
    }
}

/// The proved call, with all tables lent.
#[cfg(proved_reading)]
fn read_proved(text: &[u8]) -> Answer {
    use tests::tables::{ROOMS, TOLD};
    let mut tables = ROOMS.map(|room| vec![0; room]);
    let tables = tables.each_mut().map(Vec::as_mut_slice);
    Answer {
        number: tests::proved::reading::read(text, tables, &mut [0; TOLD]),
        written: 0,
    }
}

#[cfg(not(proved_reading))]
fn read_proved(_: &[u8]) -> Answer {
    not_known("read-proved")
}

/// The proved call, with all tables and an output for any normal text lent.
#[cfg(proved_writing)]
fn normal_proved(text: &[u8]) -> Answer {
    use tests::tables::ROOMS;
    const OUTPUT: usize = 40_000_000;
    let mut tables = ROOMS.map(|room| vec![0; room]);
    let tables = tables.each_mut().map(Vec::as_mut_slice);
    let mut told = [0; 2];
    let number = tests::proved::writing::write(text, tables, &mut vec![0; OUTPUT], &mut told);
    Answer {
        number,
        written: told[1],
    }
}

#[cfg(not(proved_writing))]
fn normal_proved(_: &[u8]) -> Answer {
    not_known("normal-proved")
}

/// Does the job with its texts by both; the least time of some runs, and the instructions
/// of one.
fn side_by_side(job: &Job, part: &str) {
    println!(
        "| Text | Bytes | Answer | Proved: ms | instructions | Reference: ms | instructions | Ratio |"
    );
    println!("|---|---|---|---|---|---|---|---|");
    let texts = (job.texts)();
    for heavy in texts.iter().filter(|heavy| heavy.name.contains(part)) {
        let mut times = [Duration::MAX; 2];
        let start = Instant::now();
        while start.elapsed() < Duration::from_millis(200) {
            for (least, run) in times.iter_mut().zip(job.run) {
                *least = time(|| run(&heavy.text)).min(*least);
            }
        }
        let [answer, reference] = job.run.map(|run| run(&heavy.text));
        assert_eq!(answer, reference, "{}", heavy.name);
        let [proved, reference] =
            [0, 1].map(|of| instructions(job.what[of], job.functions[of], heavy.name));
        let ratio = match (proved, reference) {
            (Some(proved), Some(reference)) => format!("{:.2}", proved as f64 / reference as f64),
            _ => String::new(),
        };
        let [proved_time, reference_time] = times.map(|time| time.as_secs_f64() * 1e3);
        println!(
            "| {} | {} | {} | {proved_time:.2} | {} | {reference_time:.2} | {} | {ratio} |",
            heavy.name,
            heavy.text.len(),
            answer.shown(),
            grouped(proved),
            grouped(reference),
        );
    }
}

fn time(run: impl Fn() -> Answer) -> Duration {
    let start = Instant::now();
    std::hint::black_box(run());
    start.elapsed()
}
