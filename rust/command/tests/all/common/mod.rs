//! What the tests of the command share: a folder, the command in it, sheets byte by byte, random numbers.

pub mod damages;
pub mod drawn;
pub mod json;
pub mod report;
pub mod running;
pub mod sheets;
pub mod svg;

use std::ffi::OsStr;
use std::fs;
use std::io::{Read, Write};
use std::path::{Path, PathBuf};
use std::process::{Child, Command, ExitStatus, Stdio};
use std::sync::atomic::{AtomicUsize, Ordering};
use std::thread;
use std::time::{Duration, Instant};

/// The command under test.
pub const HOMVAITS: &str = env!("CARGO_BIN_EXE_homvaits");

/// No case takes so long, unless the command hangs.
const PATIENCE: Duration = Duration::from_secs(120);

/// A folder of its own, which is removed at the end.
pub struct Folder(PathBuf);

impl Folder {
    pub fn new() -> Folder {
        static NEXT: AtomicUsize = AtomicUsize::new(0);
        let number = NEXT.fetch_add(1, Ordering::Relaxed);
        let name = format!("homvaits-test-{}-{number}", std::process::id());
        let path = std::env::temp_dir().join(name);
        fs::create_dir(&path).expect("a folder for the test");
        Folder(path)
    }

    pub fn path(&self, name: impl AsRef<Path>) -> PathBuf {
        self.0.join(name)
    }

    /// Writes a file, with the folders it stands in, and hands its name back.
    pub fn write<'a>(&self, name: &'a str, bytes: impl AsRef<[u8]>) -> &'a str {
        let path = self.path(name);
        fs::create_dir_all(path.parent().expect("a folder above")).expect("folders");
        fs::write(path, bytes).expect("a file for the test");
        name
    }

    pub fn read(&self, name: &str) -> Vec<u8> {
        fs::read(self.path(name)).unwrap_or_else(|error| panic!("{name}: {error}"))
    }

    /// The names in the folder, sorted, hidden ones too.
    pub fn names(&self) -> Vec<String> {
        let entries = fs::read_dir(&self.0).expect("the folder");
        let name = |entry: std::io::Result<fs::DirEntry>| entry.expect("an entry").file_name();
        let mut names: Vec<String> = entries
            .map(|entry| name(entry).to_string_lossy().into_owned())
            .collect();
        names.sort();
        names
    }

    /// The command with these words, in this folder.
    pub fn command<W: AsRef<OsStr>>(&self, words: &[W]) -> Command {
        let mut command = Command::new(HOMVAITS);
        command.args(words).current_dir(&self.0);
        command.env_remove("COLUMNS");
        command
    }

    /// Runs the command in this folder, with nothing to read.
    pub fn run<W: AsRef<OsStr>>(&self, words: &[W]) -> Ran {
        self.run_on(words, b"")
    }

    /// Runs the command in this folder, with this standard input.
    pub fn run_on<W: AsRef<OsStr>>(&self, words: &[W], input: impl AsRef<[u8]>) -> Ran {
        finish(&mut self.command(words), input.as_ref())
    }

    /// Runs a shell in this folder; `$hv` is the command.
    pub fn shell(&self, script: &str) -> Ran {
        let mut shell = Command::new("bash");
        shell
            .args(["-c", script])
            .env("hv", HOMVAITS)
            .current_dir(&self.0);
        finish(&mut shell, b"")
    }
}

impl Drop for Folder {
    fn drop(&mut self) {
        let _ = fs::remove_dir_all(&self.0);
    }
}

/// How a run of the command ended.
#[derive(Debug)]
pub struct Ran {
    pub status: i32,
    pub bytes: Vec<u8>,
    pub out: String,
    pub err: String,
    pub case: String,
}

impl Ran {
    /// The status is this one.
    #[track_caller]
    pub fn ends(self, status: i32) -> Ran {
        assert_eq!(self.status, status, "the status of {self}");
        self
    }

    /// Standard output has this somewhere.
    #[track_caller]
    pub fn prints(self, text: &str) -> Ran {
        assert!(self.out.contains(text), "no `{text}` printed by {self}");
        self
    }

    /// Standard error has this somewhere.
    #[track_caller]
    pub fn tells(self, text: &str) -> Ran {
        assert!(self.err.contains(text), "no `{text}` told by {self}");
        self
    }

    #[track_caller]
    pub fn prints_nothing(self) -> Ran {
        assert!(self.out.is_empty(), "something printed by {self}");
        self
    }

    #[track_caller]
    pub fn tells_nothing(self) -> Ran {
        assert!(self.err.is_empty(), "something told by {self}");
        self
    }

    /// Standard output and standard error together.
    pub fn all(&self) -> String {
        format!("{}{}", self.out, self.err)
    }
}

impl std::fmt::Display for Ran {
    fn fmt(&self, f: &mut std::fmt::Formatter<'_>) -> std::fmt::Result {
        let front = |text: &str| text.chars().take(3000).collect::<String>();
        let (out, err) = (front(&self.out), front(&self.err));
        write!(f, "{}, status {}\n{out}\n{err}", self.case, self.status)
    }
}

/// Runs a command on this input, and holds what is asked of every run: it ends by itself with 0, 1 or 2, without a panic, says something
/// where it fails, and tells nothing on standard error where all is well.
pub fn finish(command: &mut Command, input: &[u8]) -> Ran {
    let case = format!("{command:?}");
    let mut child = command
        .stdin(Stdio::piped())
        .stdout(Stdio::piped())
        .stderr(Stdio::piped())
        .spawn()
        .unwrap_or_else(|error| panic!("{case}: {error}"));
    let (out, err) = (
        collect(child.stdout.take().expect("a pipe")),
        collect(child.stderr.take().expect("a pipe")),
    );
    let mut stdin = child.stdin.take().expect("a pipe");
    let input = input.to_vec();
    // whether the command reads its input is its own choice
    let writer = thread::spawn(move || drop(stdin.write_all(&input)));
    let status = ended(&mut child, &case);
    writer.join().expect("the writer");
    let bytes = out.join().expect("the reader");
    let ran = Ran {
        status: status.code().unwrap_or(-1),
        out: String::from_utf8_lossy(&bytes).into_owned(),
        bytes,
        err: String::from_utf8_lossy(&err.join().expect("the reader")).into_owned(),
        case,
    };
    hold(ran)
}

fn hold(ran: Ran) -> Ran {
    assert!((0..=2).contains(&ran.status), "the status of {ran}");
    for text in ["panicked", "RUST_BACKTRACE"] {
        assert!(!ran.all().contains(text), "a panic of {ran}");
    }
    assert!(ran.status < 2 || !ran.err.is_empty(), "not a word by {ran}");
    assert!(ran.status > 0 || ran.err.is_empty(), "words of {ran}");
    ran
}

fn collect(mut from: impl Read + Send + 'static) -> thread::JoinHandle<Vec<u8>> {
    thread::spawn(move || {
        let mut bytes = Vec::new();
        from.read_to_end(&mut bytes).expect("what it writes");
        bytes
    })
}

pub fn ended(child: &mut Child, case: &str) -> ExitStatus {
    let begin = Instant::now();
    let mut pause = Duration::from_micros(100);
    loop {
        if let Some(status) = child.try_wait().expect("the state of the command") {
            return status;
        }
        if begin.elapsed() > PATIENCE {
            let _ = child.kill();
            panic!("it hangs: {case}");
        }
        thread::sleep(pause);
        pause = (pause * 2).min(Duration::from_millis(5));
    }
}

/// Splitmix64.
pub struct Rng(pub u64);

impl Rng {
    pub fn word(&mut self) -> u64 {
        self.0 = self.0.wrapping_add(0x9E37_79B9_7F4A_7C15);
        let mut z = self.0;
        z = (z ^ (z >> 30)).wrapping_mul(0xBF58_476D_1CE4_E5B9);
        z = (z ^ (z >> 27)).wrapping_mul(0x94D0_49BB_1331_11EB);
        z ^ (z >> 31)
    }

    /// A number from `low` to `high`, both included.
    pub fn range(&mut self, low: u64, high: u64) -> u64 {
        low + self.word() % (high - low + 1)
    }

    pub fn pick<T: Copy>(&mut self, things: &[T]) -> T {
        things[self.range(0, things.len() as u64 - 1) as usize]
    }

    /// Changes some bytes of a text, which has some.
    pub fn damage(&mut self, bytes: &mut Vec<u8>) {
        for _ in 0..self.range(1, 3) {
            let last = bytes.len() as u64 - 1;
            let at = self.range(0, last) as usize;
            match self.range(0, 5) {
                0 => bytes[at] = self.word() as u8,
                1 => bytes.truncate(at + 1),
                2 if last > 0 => drop(bytes.remove(at)),
                3 => bytes.insert(at, self.pick(b"0 \n#9ax-\r\t")),
                4 => bytes[at] = self.pick(b"0123456789"),
                _ => {
                    let from = self.range(0, last) as usize;
                    let part = bytes[from..(from + 40).min(bytes.len())].to_vec();
                    bytes.splice(at..at, part);
                }
            }
        }
    }

    /// A list of jobs, which mostly fits some cores.
    pub fn jobs(&mut self, most: u64) -> Vec<(u16, u16)> {
        let longest = self.pick(&[6, 12, 40, 300, 60_000]);
        let share = self.range(1, 12);
        let count = self.range(1, most);
        let job = |rng: &mut Rng| {
            let period = rng.range(1, longest);
            let budget = rng.range(1, (period / share).max(1));
            (period as u16, budget as u16)
        };
        (0..count).map(|_| job(self)).collect()
    }
}

/// A job list as text, a job a line.
pub fn text_of(jobs: &[(u16, u16)]) -> String {
    let line = |(period, budget): &(u16, u16)| format!("{period} {budget}\n");
    jobs.iter().map(line).collect()
}

/// The numbers of a text, in their order: each run of digits, with its sign if one stands before it. Commas inside a number are left out.
pub fn numbers(text: &str) -> Vec<i64> {
    let plain = text.replace(',', "");
    let words = plain.split(|c: char| !(c.is_ascii_digit() || c == '-'));
    words.filter_map(|word| word.parse().ok()).collect()
}

/// An example of the repository.
pub fn example(name: &str) -> PathBuf {
    let root = Path::new(env!("CARGO_MANIFEST_DIR")).join("../../examples");
    root.join(name)
}

/// The bytes are those of a stored file. Where the variable HOMVAITS_STORE is set they are stored instead.
#[track_caller]
pub fn stored(path: &Path, bytes: &[u8]) {
    if std::env::var_os("HOMVAITS_STORE").is_some() {
        fs::create_dir_all(path.parent().expect("a folder above")).expect("folders");
        fs::write(path, bytes).expect("it is stored");
    }
    let there = fs::read(path).unwrap_or_else(|error| panic!("{path:?}: {error}"));
    assert!(
        there == bytes,
        "{path:?} is another: HOMVAITS_STORE=1 stores it anew"
    );
}
