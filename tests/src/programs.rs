//! Programs run with arguments and an input. A run that takes too long is ended, and the test fails.

use std::fs;
use std::io::{Read, Write};
use std::path::{Path, PathBuf};
use std::process::{Child, Command, ExitStatus, Stdio};
use std::sync::atomic::{AtomicUsize, Ordering};
use std::sync::{Arc, Mutex, Once, Weak};
use std::thread;
use std::time::{Duration, Instant};

/// How long a run may take where nothing else is said.
pub const MINUTE: Duration = Duration::from_secs(60);

/// The repository's root.
pub fn repository() -> PathBuf {
    Path::new(env!("CARGO_MANIFEST_DIR")).join("..")
}

/// The whole path of a file of the repository.
fn whole(path: &str) -> PathBuf {
    let path = repository().join(path);
    fs::canonicalize(&path).unwrap_or_else(|fault| panic!("{}: {fault}", path.display()))
}

/// The whole path of a program of target/bin.
pub fn program(name: &str) -> PathBuf {
    whole(&format!("target/bin/{name}"))
}

/// The whole path of a text of examples/.
pub fn example(name: &str) -> PathBuf {
    whole(&format!("examples/{name}"))
}

/// The bytes of a text of examples/.
pub fn example_text(name: &str) -> Vec<u8> {
    fs::read(example(name)).expect("an example")
}

/// What came out of a run.
#[derive(Debug)]
pub struct Ran {
    pub status: ExitStatus,
    pub out: Vec<u8>,
    pub err: Vec<u8>,
}

impl Ran {
    /// What a program that ended well wrote to standard output.
    #[track_caller]
    pub fn written(self) -> Vec<u8> {
        let Ran { status, out, err } = self;
        assert!(status.success(), "{status}: {}", err.escape_ascii());
        out
    }

    /// The same as lines of words.
    #[track_caller]
    pub fn lines(self) -> String {
        String::from_utf8(self.written()).expect("lines of words")
    }
}

/// A program of target/bin without arguments and without an input, whose output can be read.
pub fn command(name: &str) -> Command {
    let mut command = Command::new(program(name));
    command
        .stdin(Stdio::null())
        .stdout(Stdio::piped())
        .stderr(Stdio::piped());
    command
}

/// Runs a command with an input.
#[track_caller]
pub fn run(command: &mut Command, input: &[u8]) -> Ran {
    run_within(MINUTE, command, input)
}

/// What a program of target/bin without arguments writes for a text on standard input.
#[track_caller]
pub fn written(name: &str, text: &[u8]) -> Vec<u8> {
    run(&mut command(name), text).written()
}

/// Runs a command with an input, no longer than so.
#[track_caller]
pub fn run_within(time: Duration, command: &mut Command, input: &[u8]) -> Ran {
    let child = command
        .stdin(Stdio::piped())
        .stdout(Stdio::piped())
        .stderr(Stdio::piped())
        .spawn();
    let mut child = child.unwrap_or_else(|fault| panic!("{command:?}: {fault}"));
    let mut stdin = child.stdin.take().expect("a standard input");
    // Where the program reads less than the input, the pipe is closed.
    if input.len() <= PIPE {
        stdin.write_all(input).ok();
        drop(stdin);
        return waited_within(time, child);
    }
    thread::scope(|scope| {
        scope.spawn(move || stdin.write_all(input).ok());
        waited_within(time, child)
    })
}

/// So many bytes go into an empty pipe, whether they are read or not.
const PIPE: usize = 65_536;

/// Waits for a program.
#[track_caller]
pub fn waited(child: Child) -> Ran {
    waited_within(MINUTE, child)
}

/// Waits for a program, no longer than so.
#[track_caller]
pub fn waited_within(time: Duration, mut child: Child) -> Ran {
    let end = Instant::now() + time;
    let (stdout, stderr) = (child.stdout.take(), child.stderr.take());
    let child = Arc::new(Mutex::new(child));
    end_at(end, &child);
    let [out, err] = thread::scope(|scope| {
        let err = scope.spawn(|| read_all(stderr));
        [read_all(stdout), err.join().expect("standard error")]
    });
    // Its output is closed, so it ends about now.
    let status = loop {
        if let Some(status) = child.lock().expect("it").try_wait().expect("a status") {
            break status;
        }
        thread::sleep(Duration::from_micros(50));
    };
    assert!(Instant::now() < end, "a program takes more than {time:?}");
    Ran { status, out, err }
}

/// All that comes out of a pipe, if there is one.
fn read_all(pipe: Option<impl Read>) -> Vec<u8> {
    let mut bytes = Vec::new();
    if let Some(mut pipe) = pipe {
        pipe.read_to_end(&mut bytes).ok();
    }
    bytes
}

type Watched = (Instant, Weak<Mutex<Child>>);

/// Ends a program at a time, if it has not ended before: one thread does this for all.
fn end_at(end: Instant, child: &Arc<Mutex<Child>>) {
    static WATCHED: Mutex<Vec<Watched>> = Mutex::new(Vec::new());
    static STARTED: Once = Once::new();
    let is_running = |(end, child): &Watched| {
        let Some(child) = child.upgrade() else {
            return false;
        };
        if Instant::now() > *end {
            child.lock().expect("it").kill().ok();
        }
        true
    };
    let watch = move || loop {
        thread::sleep(Duration::from_millis(200));
        WATCHED.lock().expect("a list").retain(is_running);
    };
    STARTED.call_once(|| drop(thread::spawn(watch)));
    let watched = (end, Arc::downgrade(child));
    WATCHED.lock().expect("a list").push(watched);
}

/// A folder of its own for a test, removed at the end.
pub struct Folder {
    pub path: PathBuf,
}

impl Folder {
    pub fn new(name: &str) -> Folder {
        static MADE: AtomicUsize = AtomicUsize::new(0);
        let made = MADE.fetch_add(1, Ordering::Relaxed);
        let name = format!("kaukslini-{name}-{}-{made}", std::process::id());
        let path = std::env::temp_dir().join(name);
        fs::remove_dir_all(&path).ok();
        fs::create_dir_all(&path).expect("a folder");
        Folder { path }
    }

    /// The file of a name in the folder, which now holds these bytes.
    pub fn with(&self, name: &str, bytes: &[u8]) -> PathBuf {
        let file = self.path.join(name);
        fs::write(&file, bytes).expect("a file");
        file
    }

    pub fn clear(&self) {
        fs::remove_dir_all(&self.path).expect("the folder");
        fs::create_dir_all(&self.path).expect("a folder");
    }
}

impl Drop for Folder {
    fn drop(&mut self) {
        fs::remove_dir_all(&self.path).ok();
    }
}
