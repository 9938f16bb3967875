//! Times `homvaits check` on a folder of 100,000 sheets of all versions against
//! reading the files alone. Arguments: seed, and the path of the program
//! `homvaits`.
//!
//! Each side is a process that walks the folder and uses all processors; where
//! there is a `taskset`, one more side uses the first processor alone. The files
//! have just been written, so no disk is timed.

use std::env;
use std::fs::{self, File};
use std::io::{self, Read};
use std::path::{Path, PathBuf};
use std::process::{Command, Stdio};
use std::sync::atomic::{AtomicUsize, Ordering};
use std::thread;
use std::time::{Duration, Instant};

const SHEETS: usize = 100_000;
const IN_A_FOLDER: usize = 1_000;
const PASSES: usize = 5;

fn main() {
    let arguments: Vec<String> = env::args().skip(1).collect();
    let arguments: Vec<&str> = arguments.iter().map(String::as_str).collect();
    match arguments[..] {
        ["read", folder] => read_all(Path::new(folder)),
        [seed, program] => {
            let seed = seed.parse().expect("the seed is a number");
            let folder = Folder::filled(seed);
            assert_counts(&folder, program);
            compare(&folder.path, program);
        }
        _ => panic!("the arguments are a seed and the path of homvaits"),
    }
}

/// A folder of sheets, which is removed in the end.
struct Folder {
    path: PathBuf,
    accepted: usize,
}

impl Folder {
    fn filled(seed: u64) -> Folder {
        let name = format!("homvaits-folder-{}", std::process::id());
        let sheets = inputs::archive(seed, SHEETS);
        let accepted = |sheet: &&Vec<u8>| reference::check(sheet).refusal == 0;
        let folder = Folder {
            path: env::temp_dir().join(name),
            accepted: sheets.iter().filter(accepted).count(),
        };
        for (number, sheets) in sheets.chunks(IN_A_FOLDER).enumerate() {
            let inner = folder.path.join(format!("{number:03}"));
            fs::create_dir_all(&inner).expect("a folder can be made");
            for (number, sheet) in sheets.iter().enumerate() {
                let path = inner.join(format!("{number:04}.tsh"));
                fs::write(path, sheet).expect("a sheet can be written");
            }
        }
        let bytes: usize = sheets.iter().map(Vec::len).sum();
        println!(
            "{SHEETS} sheets in {}, {} accepted, {} bytes on average:",
            folder.path.display(),
            folder.accepted,
            bytes / SHEETS
        );
        folder
    }
}

impl Drop for Folder {
    fn drop(&mut self) {
        fs::remove_dir_all(&self.path).expect("the folder can be removed");
    }
}

/// The program and the reference accept as many sheets.
fn assert_counts(folder: &Folder, program: &str) {
    let mut check = Command::new(program);
    let output = check.arg("check").arg(&folder.path).output();
    let output = output.expect("the program can be run");
    let text = String::from_utf8(output.stdout).expect("it prints text");
    let refused = SHEETS - folder.accepted;
    let summary = format!(
        "{SHEETS} files: {} accepted, {refused} refused",
        folder.accepted
    );
    assert!(text.lines().any(|line| line == summary), "not {summary}");
}

/// Print the best time of each side, its ratio to that of reading alone, and its
/// rate.
fn compare(folder: &Path, program: &str) {
    let this = env::current_exe().expect("this program has a path");
    let mut reading = Command::new(this);
    reading.arg("read");
    let checking = |options: &[&str]| {
        let mut command = Command::new(program);
        command.arg("check").args(options);
        command
    };
    let mut sides = vec![
        ("reading alone", reading),
        ("check --quiet", checking(&["--quiet"])),
        ("check", checking(&[])),
        ("check --json", checking(&["--json"])),
    ];
    let one = ["-c", "0"];
    let taskset = Command::new("taskset").args(one).arg("true").status();
    if taskset.is_ok_and(|status| status.success()) {
        let mut command = Command::new("taskset");
        command.args(one).args([program, "check", "--quiet"]);
        sides.push(("check --quiet, one processor", command));
    }
    for (_, side) in &mut sides {
        side.arg(folder).stdout(Stdio::null());
    }
    let mut best = vec![Duration::MAX; sides.len()];
    for _ in 0..PASSES {
        for (best, (_, side)) in best.iter_mut().zip(&mut sides) {
            *best = time(side).min(*best);
        }
    }
    for ((name, _), time) in sides.iter().zip(&best) {
        println!(
            "  {name:<28} {:>4} ms, ratio {:.2}, {:>7.0} sheets a second",
            time.as_millis(),
            time.as_secs_f64() / best[0].as_secs_f64(),
            SHEETS as f64 / time.as_secs_f64()
        );
    }
}

fn time(side: &mut Command) -> Duration {
    let begin = Instant::now();
    let status = side.status().expect("the program can be run");
    let time = begin.elapsed();
    // 1: some sheets are refused
    assert!(matches!(status.code(), Some(0 | 1)), "{side:?}: {status}");
    time
}

/// Open, read and close every file by all processors.
fn read_all(folder: &Path) {
    let mut files = Vec::new();
    collect(folder, &mut files).expect("the folder can be read");
    assert_eq!(files.len(), SHEETS);
    let next = AtomicUsize::new(0);
    let work = || {
        let mut bytes = [0; 1024];
        while let Some(path) = files.get(next.fetch_add(1, Ordering::Relaxed)) {
            let mut file = File::open(path).expect("a sheet can be opened");
            while file.read(&mut bytes).expect("a sheet can be read") > 0 {}
        }
    };
    let threads = thread::available_parallelism().map_or(1, |count| count.get());
    thread::scope(|scope| (0..threads).for_each(|_| drop(scope.spawn(work))));
}

fn collect(folder: &Path, files: &mut Vec<PathBuf>) -> io::Result<()> {
    for entry in fs::read_dir(folder)? {
        let entry = entry?;
        match entry.file_type()?.is_dir() {
            true => collect(&entry.path(), files)?,
            false => files.push(entry.path()),
        }
    }
    Ok(())
}
