//! What the programs do where something cannot be read or written, what they make of their
//! arguments, and `tools/start`. No run may take longer than a minute.

use std::fs::{self, File, OpenOptions};
use std::io::{pipe, Read, Write};
use std::os::fd::OwnedFd;
use std::os::unix::net::{UnixDatagram, UnixStream};
use std::os::unix::process::ExitStatusExt;
use std::path::{Path, PathBuf};
use std::process::{Child, Command, ExitStatus, Stdio};
use std::time::{Duration, Instant};
use tests::configuration::configuration;

/// The programs that read standard input where no argument is given.
const PROGRAMS: [&str; 7] = [
    "oil",
    "oil_explain",
    "oil_heading",
    "oil_masks",
    "oil_mend",
    "oil_standard",
    "tokens",
];

/// The programs that read the file of one name.
const OF_ONE_FILE: [&str; 5] = ["oil", "oil_explain", "oil_mend", "oil_standard", "tokens"];

fn repository() -> PathBuf {
    Path::new(env!("CARGO_MANIFEST_DIR")).join("..")
}

fn program(name: &str) -> PathBuf {
    fs::canonicalize(repository().join("target/bin").join(name)).expect("the program")
}

fn example(name: &str) -> PathBuf {
    fs::canonicalize(repository().join("examples").join(name)).expect("an example")
}

fn text(name: &str) -> Vec<u8> {
    fs::read(example(name)).expect("an example")
}

/// A folder of its own, removed at the end.
struct Folder(PathBuf);

impl Folder {
    fn new(name: &str) -> Folder {
        let name = format!("kaukslini-console-{name}-{}", std::process::id());
        let path = std::env::temp_dir().join(name);
        fs::remove_dir_all(&path).ok();
        fs::create_dir_all(&path).expect("a folder");
        Folder(path)
    }
}

impl Drop for Folder {
    fn drop(&mut self) {
        fs::remove_dir_all(&self.0).ok();
    }
}

/// What came out of a run.
#[derive(Debug)]
struct Ran {
    status: ExitStatus,
    out: String,
    err: String,
}

fn shown(bytes: Vec<u8>) -> String {
    String::from_utf8(bytes).unwrap_or_else(|fault| fault.as_bytes().escape_ascii().to_string())
}

/// Waits for a program, a minute at most.
fn waited(mut child: Child) -> Ran {
    let read = |pipe: Option<Box<dyn Read + Send>>| {
        std::thread::spawn(move || {
            let mut bytes = Vec::new();
            if let Some(mut pipe) = pipe {
                pipe.read_to_end(&mut bytes).ok();
            }
            bytes
        })
    };
    let out = child.stdout.take().map(|pipe| Box::new(pipe) as _);
    let err = child.stderr.take().map(|pipe| Box::new(pipe) as _);
    let (out, err) = (read(out), read(err));
    let start = Instant::now();
    let status = loop {
        if let Some(status) = child.try_wait().expect("a status") {
            break status;
        }
        if start.elapsed() > Duration::from_secs(60) {
            child.kill().ok();
            panic!("a program that does not end");
        }
        std::thread::sleep(Duration::from_millis(2));
    };
    Ran {
        status,
        out: shown(out.join().expect("what was written")),
        err: shown(err.join().expect("what was said")),
    }
}

/// A program with arguments; standard output and standard error are pipes.
fn command(name: &str, arguments: &[&str]) -> Command {
    let mut command = Command::new(program(name));
    command
        .args(arguments)
        .stdin(Stdio::null())
        .stdout(Stdio::piped())
        .stderr(Stdio::piped());
    command
}

fn run(name: &str, arguments: &[&str]) -> Ran {
    waited(command(name, arguments).spawn().expect("the program"))
}

/// A program over a file on standard input.
fn over(name: &str, file: &Path) -> Command {
    let mut command = command(name, &[]);
    command.stdin(File::open(file).expect("a file"));
    command
}

const FULL: &str = "standard output: cannot be written: No space left on device\n";
const BROKEN: &str = "standard output: cannot be written: Broken pipe\n";

#[test]
fn says_that_the_disk_is_full() {
    let full = || {
        OpenOptions::new()
            .write(true)
            .open("/dev/full")
            .expect("it")
    };
    for name in PROGRAMS {
        for file in ["worked.oil", "broken.oil", "events.oil"] {
            let run = over(name, &example(file)).stdout(full()).spawn();
            let run = waited(run.expect("the program"));
            assert_eq!(run.err, FULL, "{name} {file}");
        }
    }
    let releases = [example("release1.oil"), example("release2.oil")];
    let run = command("oil", &[]).args(releases).stdout(full()).spawn();
    assert_eq!(waited(run.expect("oil")).err, FULL);
}

/// A program that writes to a pipe which nobody reads says so, also where the system is told not to
/// end it; today's start code tells it so.
#[test]
fn says_that_the_pipe_is_closed() {
    let closed = || {
        let (reader, writer) = pipe().expect("a pipe");
        drop(reader);
        writer
    };
    for name in PROGRAMS {
        let file = example("worked.oil");
        let run = over(name, &file).stdout(closed()).spawn();
        let run = waited(run.expect("the program"));
        assert_eq!((run.status.signal(), run.err.as_str()), (None, BROKEN));
        let run = Command::new("sh")
            .args(["-c", "trap '' PIPE; exec \"$0\""])
            .arg(program(name))
            .stdin(File::open(&file).expect("a file"))
            .stdout(closed())
            .stderr(Stdio::piped())
            .spawn();
        assert_eq!(waited(run.expect("a shell")).err, BROKEN, "{name}");
    }
}

/// What `oil_heading` writes for a text that cannot be read.
fn unread(name: &str, file: &str) -> String {
    match name {
        "oil_heading" => format!("{file}\tcannot be read\n"),
        _ => String::new(),
    }
}

#[test]
fn says_that_a_folder_cannot_be_read() {
    let folder = Folder::new("folder");
    let path = folder.0.to_str().expect("a name");
    for name in PROGRAMS {
        let run = waited(over(name, &folder.0).spawn().expect("the program"));
        assert_eq!(run.out, unread(name, "-"), "{name}");
        assert_eq!(run.err, "standard input: cannot be read: Is a directory\n");
    }
    for name in OF_ONE_FILE {
        let run = run(name, &[path]);
        assert_eq!(run.out, "", "{name}");
        assert_eq!(run.err, format!("{path}: cannot be read: Is a directory\n"));
    }
    let other = example("release1.oil");
    let other = other.to_str().expect("a name");
    for names in [[path, other], [other, path]] {
        let run = run("oil", &names);
        assert_eq!(run.out, "");
        assert_eq!(run.err, format!("{path}: cannot be read: Is a directory\n"));
    }
}

/// A read that fails behind a whole text is not the end of the text.
#[test]
fn a_failed_read_is_no_end() {
    for name in PROGRAMS {
        for file in ["worked.oil", "broken.oil"] {
            let (mut mine, other) = UnixStream::pair().expect("a pair");
            other.set_nonblocking(true).expect("it");
            mine.write_all(&text(file)).expect("a text");
            let mut command = command(name, &[]);
            command.stdin(Stdio::from(OwnedFd::from(other)));
            let run = waited(command.spawn().expect("the program"));
            assert_eq!(run.out, unread(name, "-"), "{name} {file}");
            assert_eq!(
                run.err,
                "standard input: cannot be read: Resource temporarily unavailable\n"
            );
            drop(mine);
        }
        let run = Command::new("sh")
            .args(["-c", "exec \"$0\" <&-"])
            .arg(program(name))
            .stdout(Stdio::piped())
            .stderr(Stdio::piped())
            .spawn();
        let run = waited(run.expect("a shell"));
        assert_eq!(run.out, unread(name, "-"), "{name}");
        assert_eq!(
            run.err,
            "standard input: cannot be read: Bad file descriptor\n"
        );
    }
    let run = run("oil", &["/proc/self/mem"]);
    assert_eq!(run.out, "");
    assert_eq!(
        run.err,
        "/proc/self/mem: cannot be read: Input/output error\n"
    );
}

/// A text that comes in pieces is read to its end.
#[test]
fn reads_a_text_in_pieces() {
    for name in PROGRAMS {
        let whole = waited(over(name, &example("events.oil")).spawn().expect("it"));
        assert_eq!(whole.err, "", "{name}");
        for part in [1, 7, 300] {
            let mut child = command(name, &[])
                .stdin(Stdio::piped())
                .spawn()
                .expect("it");
            let mut input = child.stdin.take().expect("a standard input");
            let text = text("events.oil");
            let writer = std::thread::spawn(move || {
                for (k, bytes) in text.chunks(part).enumerate() {
                    input.write_all(bytes).expect("a reader");
                    if k % 40 == 0 {
                        std::thread::sleep(Duration::from_millis(1));
                    }
                }
            });
            let run = waited(child);
            writer.join().expect("the writer ends");
            assert_eq!((run.out, run.err), (whole.out.clone(), String::new()));
        }
    }
}

/// An included file that cannot be read leaves no answer; one that is not there, or is a folder, is
/// refusal 28; each is said by its name.
#[test]
fn says_which_included_file_failed() {
    let folder = Folder::new("included");
    let main = folder.0.join("main.oil");
    let included = |name: &str| {
        fs::write(&main, format!("#include \"{name}\"\n")).expect("a file");
        let mut command = command("oil", &["main.oil"]);
        command.current_dir(&folder.0);
        waited(command.spawn().expect("oil"))
    };
    let run = included("/proc/self/mem");
    assert_eq!(run.out, "");
    assert_eq!(
        run.err,
        "/proc/self/mem: cannot be read: Input/output error\n"
    );
    let run = included("none");
    assert_eq!(run.out, "refused\t28\t0\t0\n");
    assert_eq!(
        run.err,
        "none: cannot be opened: No such file or directory\n"
    );
    let run = included(".");
    assert_eq!(run.out, "refused\t28\t0\t0\n");
    assert_eq!(run.err, ".: cannot be read: Is a directory\n");
}

#[test]
fn reads_the_file_named() {
    for name in OF_ONE_FILE {
        for file in ["worked.oil", "broken.oil", "supplier.oil"] {
            let path = example(file);
            let named = run(name, &[path.to_str().expect("a name")]);
            let input = waited(over(name, &path).spawn().expect("the program"));
            assert_eq!(named.err, "", "{name} {file}");
            let path = path.to_str().expect("a name");
            assert_eq!(named.out.replace(path, "-"), input.out, "{name} {file}");
        }
    }
}

#[test]
fn says_which_file_is_missing() {
    let long = "n".repeat(5_000);
    let names = [
        ("none.oil", "No such file or directory"),
        ("", "No such file or directory"),
        ("/dev/null/x", "Not a directory"),
        (&long, "File name too long"),
    ];
    for (file, cause) in names {
        let shown = &file[..file.len().min(4_096)];
        let said = format!("{shown}: cannot be opened: {cause}\n");
        for name in OF_ONE_FILE {
            let run = run(name, &[file]);
            assert_eq!((run.out.as_str(), &run.err), ("", &said), "{name}");
        }
        let run = run("oil_heading", &[file]);
        assert_eq!(run.out, format!("{shown}\tcannot be opened\n"));
        assert_eq!(run.err, said);
        let mut masks = command("oil_masks", &[file]);
        masks.stdin(File::open(example("events.oil")).expect("a file"));
        let run = waited(masks.spawn().expect("the program"));
        assert_eq!((run.out.as_str(), &run.err), ("", &said));
    }
}

/// `oil_value` takes its file behind what it is asked for.
#[test]
fn reads_the_value_of_the_file_named() {
    let asked = ["TASK", "receiver", "SLEEPS.WAKEUP[0]"];
    let file = example("events.oil");
    let mut input = command("oil_value", &asked);
    input.stdin(File::open(&file).expect("a file"));
    let input = waited(input.spawn().expect("the program"));
    let named = |file: &str| run("oil_value", &[asked[0], asked[1], asked[2], file]);
    let found = named(file.to_str().expect("a name"));
    assert_eq!((found.out, found.err), (input.out.clone(), String::new()));
    assert!(!input.out.is_empty() && input.err.is_empty());
    let missing = named("none.oil");
    let said = "none.oil: cannot be opened: No such file or directory\n";
    assert_eq!((missing.out.as_str(), missing.err.as_str()), ("", said));
    let folder = named("/");
    let said = "/: cannot be read: Is a directory\n";
    assert_eq!((folder.out.as_str(), folder.err.as_str()), ("", said));
}

/// "a file it can't open is empty"
#[test]
fn compares_a_missing_file_as_an_empty_one() {
    let file = example("release1.oil");
    let file = file.to_str().expect("a name");
    let said = "none.oil: cannot be opened: No such file or directory\n";
    for (names, out) in [
        (["none.oil", file], "refused\t1\t4\t0\t0\n"),
        ([file, "none.oil"], "refused\t2\t4\t0\t0\n"),
    ] {
        let run = run("oil", &names);
        assert_eq!((run.out.as_str(), run.err.as_str()), (out, said));
    }
}

#[test]
fn answers_to_its_options() {
    for name in PROGRAMS.into_iter().chain(["oil_value"]) {
        let help = run(name, &["--help"]);
        assert!(help.out.starts_with(name), "{}", help.out);
        assert_eq!(help.err, "");
        let version = run(name, &["--version"]);
        assert_eq!(version.out, "Kaukslini 1.0, for OIL 2.5\n");
        assert_eq!(version.err, "");
    }
}

#[test]
fn says_how_it_is_called() {
    let mut wrong: Vec<(&str, Vec<&str>)> = Vec::new();
    for name in PROGRAMS {
        wrong.push((name, vec!["-x"]));
        wrong.push((name, vec!["--"]));
        if name != "oil_heading" {
            wrong.push((name, vec!["a", "b", "c"]));
        }
    }
    for arguments in [vec![], vec!["-x"], vec!["a"], vec!["a", "b"], vec!["a"; 5]] {
        wrong.push(("oil_value", arguments));
    }
    for (name, arguments) in wrong {
        let run = run(name, &arguments);
        // `oil_value` says it on standard output.
        let (said, other) = match name {
            "oil_value" => (run.out, run.err),
            _ => (run.err, run.out),
        };
        assert_eq!(other, "", "{name} {arguments:?}");
        assert!(said.starts_with(&format!("usage: {name} ")), "{said}");
        assert_eq!(said.matches('\n').count(), 1, "{said}");
    }
}

/// Many programs append to one file, and no line is mixed with another.
#[test]
fn lines_do_not_mix() {
    let folder = Folder::new("lines");
    let path = folder.0.join("all");
    let all = OpenOptions::new().create(true).append(true).open(&path);
    let all = all.expect("a file");
    let mut children = Vec::new();
    let copies = 30;
    for _ in 0..copies {
        for name in ["oil", "oil_heading", "tokens"] {
            let mut run = over(name, &example("broken.oil"));
            run.stdout(all.try_clone().expect("it"));
            children.push(run.spawn().expect("the program"));
        }
    }
    for child in children {
        assert_eq!(waited(child).err, "");
    }
    let mut expected = Vec::new();
    for name in ["oil", "oil_heading", "tokens"] {
        let run = waited(over(name, &example("broken.oil")).spawn().expect("it"));
        expected.extend(run.out.lines().map(str::to_string));
    }
    let mut expected: Vec<String> = (0..copies).flat_map(|_| expected.clone()).collect();
    let found = fs::read_to_string(&path).expect("the file");
    let mut found: Vec<String> = found.lines().map(str::to_string).collect();
    expected.sort();
    found.sort();
    assert!(found == expected);
}

/// A text that is cut off is read as far as it goes, by file and by pipe alike.
#[test]
fn reads_what_came_of_half_a_text() {
    for name in PROGRAMS {
        for file in ["worked.oil", "events.oil"] {
            let text = text(file);
            let half = &text[..text.len() / 2];
            let folder = Folder::new("half");
            let path = folder.0.join("half.oil");
            fs::write(&path, half).expect("a file");
            let whole = waited(over(name, &path).spawn().expect("the program"));
            let mut piped = command(name, &[]);
            let mut child = piped.stdin(Stdio::piped()).spawn().expect("it");
            let mut input = child.stdin.take().expect("a standard input");
            input.write_all(half).expect("a reader");
            drop(input);
            let run = waited(child);
            assert!(!run.out.is_empty() && run.err.is_empty(), "{name} {file}");
            assert_eq!(run.out, whole.out, "{name} {file}");
        }
    }
}

/// A reader who takes a few bytes at a time gets all; where no more can be written at once, that is said.
#[test]
fn writes_a_text_in_pieces() {
    let folder = Folder::new("pieces");
    let path = folder.0.join("long.oil");
    fs::write(&path, ";".repeat(60_000)).expect("a file");
    let whole = waited(over("tokens", &path).spawn().expect("tokens"));
    assert!(whole.out.len() > 1_000_000 && whole.err.is_empty());
    let (mut mine, other) = UnixStream::pair().expect("a pair");
    let mut slow = over("tokens", &path);
    let child = slow.stdout(OwnedFd::from(other)).spawn().expect("tokens");
    drop(slow);
    let reader = std::thread::spawn(move || {
        let (mut found, mut bytes) = (Vec::new(), [0; 1_000]);
        loop {
            let n = mine.read(&mut bytes).expect("bytes");
            if n == 0 {
                return found;
            }
            found.extend(&bytes[..n]);
        }
    });
    assert_eq!(waited(child).err, "");
    assert_eq!(shown(reader.join().expect("the reader ends")), whole.out);

    let (mine, other) = UnixStream::pair().expect("a pair");
    other.set_nonblocking(true).expect("it");
    let mut unread = over("tokens", &path);
    let child = unread.stdout(OwnedFd::from(other)).spawn();
    assert_eq!(
        waited(child.expect("tokens")).err,
        "standard output: cannot be written: Resource temporarily unavailable\n"
    );
    drop(mine);
}

/// What a program sends to a socket that keeps each write apart.
fn writes(mine: &UnixDatagram, mut child: Child) -> Vec<String> {
    mine.set_read_timeout(Some(Duration::from_millis(20)))
        .expect("it");
    let start = Instant::now();
    let (mut found, mut bytes) = (Vec::new(), vec![0; 400_000]);
    loop {
        let ended = child.try_wait().expect("a status").is_some();
        while let Ok(n) = mine.recv(&mut bytes) {
            found.push(shown(bytes[..n].to_vec()));
        }
        if ended {
            return found;
        }
        if start.elapsed() > Duration::from_secs(60) {
            child.kill().ok();
            panic!("a program that does not end");
        }
    }
}

#[test]
fn an_answer_is_one_write() {
    let folder = Folder::new("writes");
    let long = folder.0.join("long.oil");
    fs::write(&long, configuration(51_000)).expect("a file");
    let sent = |command: &mut Command| {
        let (mine, other) = UnixDatagram::pair().expect("a pair");
        let child = command.stdout(OwnedFd::from(other)).spawn();
        writes(&mine, child.expect("the program"))
    };
    let files = ["worked.oil", "broken.oil", "supplier.oil", "events.oil"];
    for name in PROGRAMS {
        for path in files.map(example).iter().chain([&long]) {
            let whole = waited(over(name, path).spawn().expect("the program"));
            let sent = sent(&mut over(name, path));
            assert_eq!(sent.concat(), whole.out, "{name} {path:?}");
            // A text without events has no masks.
            let Some((_, pages)) = sent.split_last() else {
                assert_eq!(name, "oil_masks");
                continue;
            };
            let full = |page: &String| page.len() >= 80_000 && page.ends_with('\n');
            assert!(pages.iter().all(full), "{name} {path:?}");
        }
    }
    let releases = [example("release1.oil"), example("release2.oil")];
    assert_eq!(sent(command("oil", &[]).args(&releases)).len(), 1);
    let none = [example("release1.oil"), example("broken.oil")];
    assert_eq!(sent(command("oil", &[]).args(none)).len(), 1);
    let lines = sent(command("oil_heading", &[]).args(&releases));
    assert_eq!(lines.len(), 2);
    assert!(lines.iter().all(|line| line.matches('\n').count() == 1));
    let value = ["TASK", "receiver", "SLEEPS.WAKEUP[0]"];
    let file = example("events.oil");
    assert_eq!(sent(command("oil_value", &value).arg(file)).len(), 1);
    for option in ["--help", "--version"] {
        assert_eq!(sent(&mut command("oil", &[option])).len(), 1);
    }
}

/// What is said is a write a line, too.
#[test]
fn what_is_said_is_a_write_a_line() {
    let folder = Folder::new("said");
    let path = folder.0.join("faults.oil");
    let text = "OIL_VERSION = \"2.5\"; IMPLEMENTATION m { TASK { UINT32 P = 1; }; };\n\
        CPU c { OS o; APPMODE a; TASK t { X = 1; Y = 2; P = 3; P = 4; Z = \"w\"; }; };\n";
    fs::write(&path, text).expect("a file");
    let said = |mut command: Command| {
        let (mine, other) = UnixDatagram::pair().expect("a pair");
        let child = command.stderr(OwnedFd::from(other)).spawn();
        writes(&mine, child.expect("the program"))
    };
    let whole = waited(over("oil_mend", &path).spawn().expect("oil_mend"));
    let drops = said(over("oil_mend", &path));
    assert_eq!(drops.len(), 4, "{whole:?}");
    let mut missing = command("oil", &["none.oil", "none.oil"]);
    missing.current_dir(&folder.0);
    for (lines, count) in [
        (drops, 4),
        (said(missing), 2),
        (said(command("oil", &["-x"])), 1),
    ] {
        assert_eq!(lines.len(), count, "{lines:?}");
        let one = |line: &String| line.matches('\n').count() == 1 && line.ends_with('\n');
        assert!(lines.iter().all(one), "{lines:?}");
    }
}

mod terminal {
    use std::ffi::{c_char, c_int, CStr};
    use std::fs::{File, OpenOptions};
    use std::os::fd::FromRawFd;
    use std::os::unix::fs::OpenOptionsExt;

    const O_RDWR: c_int = 0o2;
    const O_NOCTTY: c_int = 0o400;

    extern "C" {
        fn posix_openpt(flags: c_int) -> c_int;
        fn grantpt(fd: c_int) -> c_int;
        fn unlockpt(fd: c_int) -> c_int;
        fn ptsname(fd: c_int) -> *mut c_char;
    }

    /// A terminal: the side on which a person types, and the program's.
    pub fn open() -> (File, File) {
        // The name is copied before another is asked for.
        let (typed, name) = unsafe {
            let fd = posix_openpt(O_RDWR | O_NOCTTY);
            assert!(fd >= 0 && grantpt(fd) == 0 && unlockpt(fd) == 0);
            let name = CStr::from_ptr(ptsname(fd)).to_str().expect("a name");
            (File::from_raw_fd(fd), name.to_string())
        };
        let mut options = OpenOptions::new();
        options.read(true).write(true).custom_flags(O_NOCTTY);
        let side = options.open(name);
        (typed, side.expect("a terminal"))
    }
}

#[test]
fn says_that_it_waits_at_a_terminal() {
    for name in PROGRAMS {
        let whole = waited(over(name, &example("worked.oil")).spawn().expect("it"));
        let (mut typed, side) = terminal::open();
        let run = command(name, &[]).stdin(side).spawn().expect("the program");
        typed.write_all(&text("worked.oil")).expect("a text");
        typed.write_all(&[4]).expect("the end of the text");
        let run = waited(run);
        assert_eq!(run.out, whole.out, "{name}");
        assert_eq!(run.err, "reading from the terminal; Ctrl-D ends the text\n");
    }
}

/// `tools/start` in a copy of the repository's front, with an `rt` that only writes what it does as it builds.
fn start(folder: &Folder, lines: &str, status: u8) -> Ran {
    let tools = folder.0.join("tools");
    let of_oil = folder.0.join("crates/oil");
    fs::create_dir_all(&tools).expect("a folder");
    fs::create_dir_all(of_oil.join("src")).expect("a folder");
    fs::create_dir_all(of_oil.join("out")).expect("a folder");
    fs::create_dir_all(folder.0.join("bin")).expect("a folder");
    for tool in ["start", "build"] {
        fs::copy(repository().join("tools").join(tool), tools.join(tool)).expect("the tool");
    }
    fs::copy(repository().join("crates.txt"), folder.0.join("crates.txt")).expect("the list");
    fs::write(of_oil.join("src/main.rt"), "").expect("a source");
    fs::copy(program("oil"), of_oil.join("out/oil")).expect("the program");
    let examples = folder.0.join("examples");
    fs::create_dir_all(&examples).expect("a folder");
    for file in ["worked.oil", "broken.oil"] {
        fs::write(examples.join(file), text(file)).expect("an example");
    }
    let rt = folder.0.join("bin/rt");
    fs::write(
        &rt,
        format!("#!/bin/sh\ncat >&2 <<'END'\n{lines}END\nexit {status}\n"),
    )
    .expect("it");
    let mode = Command::new("chmod").arg("755").arg(&rt).status();
    assert!(mode.expect("chmod").success());
    let path = std::env::var("PATH").expect("a path");
    let path = format!("{}:{path}", folder.0.join("bin").display());
    let mut command = Command::new("bash");
    command.arg(tools.join("start")).env("PATH", path);
    command.stdout(Stdio::piped()).stderr(Stdio::piped());
    waited(command.spawn().expect("bash"))
}

#[test]
fn start_shows_what_is_left() {
    let folder = Folder::new("start");
    let built = |name: &str| format!("rt: chose --jobs 2 for {name}\nlogic=proved functions=1\n");
    let lines = format!("{}rt: note\n{}", built("token"), built("oil"));
    let answers: Vec<String> = ["worked.oil", "broken.oil"]
        .iter()
        .map(|file| {
            let path = example(file);
            let run = run("oil", &[path.to_str().expect("a name")]);
            format!("target/bin/oil examples/{file}\n{}", run.out)
        })
        .collect();
    let ran = start(&folder, &lines, 0);
    assert_eq!(ran.err, "");
    assert!(ran.status.success());
    let mut found = ran.out.lines();
    let first = found.next().expect("a line");
    let all: usize = first
        .split(' ')
        .nth(3)
        .expect("a word")
        .parse()
        .expect("how many");
    assert!(first.starts_with("oil rests on ") && all > 30, "{first}");
    let all = all + 1;
    let expected = format!(
        "1 of {all}: token (0 s), {} left\n{all} of {all}: oil (0 s), 0 left\n{}",
        all - 1,
        answers.concat()
    );
    let rest: String = found.map(|line| format!("{line}\n")).collect();
    // A second may end between the two lines of a crate.
    assert_eq!(rest.replace("(1 s)", "(0 s)"), expected);

    let ran = start(&folder, &format!("{}error: no proof\n", built("token")), 1);
    assert_eq!(ran.status.code(), Some(1));
    assert!(ran.out.contains("\nerror: no proof\n") && !ran.out.contains("CPU"));
}
