//! Files and streams: standard input, pipes that break, devices that are full, outputs that cannot be written, odd files.

use crate::common::sheets::full_core;
use crate::common::{ended, finish, Folder, Ran, HOMVAITS};
use std::ffi::OsString;
use std::fs;
use std::io::{Read, Seek};
use std::os::unix::ffi::OsStringExt;
use std::os::unix::fs::{symlink, FileTypeExt, MetadataExt, PermissionsExt};
use std::os::unix::process::CommandExt;
use std::path::Path;
use std::process::{Command, Stdio};

/// A good sheet, a refused one, a job list, one with a late job, and calls.
fn folder() -> Folder {
    let folder = Folder::new();
    let sheet = full_core().by_number();
    folder.write("good.tsh", &sheet);
    folder.write("bad.tsh", &sheet[..35]);
    folder.write("some.jobs", "5 1 key\n9 7 receiver\n");
    folder.write("late.jobs", "5 3\n7 4\n");
    folder.write("calls", "release 0\nticks 3\n");
    folder
}

const COMMANDS: [&str; 8] = [
    "check", "list", "explain", "plan", "margins", "move", "run", "draw",
];

/// Commands that print, and their statuses.
const PRINTING: [(&[&str], i32); 20] = [
    (&["check", "good.tsh"], 0),
    (&["check", "bad.tsh"], 1),
    (&["check", "--json", "good.tsh", "bad.tsh"], 1),
    (&["check", "."], 1),
    (&["list", "good.tsh"], 0),
    (&["list", "bad.tsh"], 1),
    (&["explain", "good.tsh"], 0),
    (&["explain", "bad.tsh"], 1),
    (&["plan", "some.jobs"], 0),
    (&["plan", "some.jobs", "-o", "-"], 0),
    (&["plan", "some.jobs", "--all-starts"], 0),
    (&["margins", "some.jobs"], 0),
    (&["margins", "late.jobs"], 1),
    (&["move", "good.tsh"], 0),
    (&["run", "good.tsh"], 0),
    (&["run", "--bench", "late.jobs", "--ticks", "50000"], 1),
    (&["draw", "good.tsh"], 0),
    (&["draw", "--text", "good.tsh"], 0),
    (&["draw", "--bench", "late.jobs"], 1),
    (&["help", "run"], 0),
];

#[test]
fn the_statuses() {
    let folder = folder();
    for (words, status) in PRINTING {
        folder.run(words).ends(status).tells_nothing();
    }
}

#[test]
fn every_command_reads_standard_input() {
    let folder = folder();
    for (words, status) in PRINTING {
        let files = ["good.tsh", "bad.tsh", "some.jobs", "late.jobs"];
        let named: Vec<&str> = words
            .iter()
            .copied()
            .filter(|word| files.contains(word))
            .collect();
        let [file] = named.as_slice() else { continue };
        let piped: Vec<&str> = words
            .iter()
            .map(|word| if word == file { "-" } else { word })
            .collect();
        let expected = folder.run(words);
        let ran = folder.run_on(&piped, folder.read(file)).ends(status);
        let renamed = expected.out.replace(file, "standard input");
        assert_eq!(ran.out, renamed);
    }
    folder
        .run(&["list", "-"])
        .ends(1)
        .prints("refused 1 place 0\n");
    folder.run(&["plan", "-"]).ends(0);
}

#[test]
fn a_broken_pipe_ends_quietly() {
    let folder = folder();
    let long = ["run", "good.tsh", "--ticks", "100000"];
    let late = ["run", "--bench", "late.jobs", "--ticks", "100000"];
    let cases = PRINTING.into_iter().chain([(&long[..], 0), (&late[..], 1)]);
    for (words, status) in cases {
        let mut command = folder.command(words);
        command
            .stdin(Stdio::null())
            .stdout(Stdio::piped())
            .stderr(Stdio::piped());
        let mut child = command.spawn().expect("the command");
        drop(child.stdout.take());
        let mut told = String::new();
        let mut stderr = child.stderr.take().expect("a pipe");
        stderr.read_to_string(&mut told).expect("text");
        let ended = ended(&mut child, &format!("{words:?}"));
        assert_eq!(
            (ended.code(), told.as_str()),
            (Some(status), ""),
            "{words:?}"
        );
    }
    let ran = folder.shell("$hv run good.tsh --ticks 100000 | head -1; echo ${PIPESTATUS[0]}");
    assert_eq!(ran.out, "homvaits log 1\n0\n");
}

#[test]
fn a_full_device_is_an_error() {
    let folder = folder();
    for (words, _) in PRINTING {
        let full = fs::OpenOptions::new().write(true).open("/dev/full");
        let mut command = folder.command(words);
        command
            .stdout(full.expect("/dev/full"))
            .stdin(Stdio::null());
        let output = command
            .stderr(Stdio::piped())
            .output()
            .expect("the command");
        let told = String::from_utf8_lossy(&output.stderr);
        assert_eq!(output.status.code(), Some(2), "{words:?}: {told}");
        assert!(
            told.contains("standard output: No space left"),
            "{words:?}: {told}"
        );
        assert_eq!(told.lines().count(), 1, "{words:?}: {told}");
    }
    // a full standard error has nobody to tell
    let ran = folder.shell("$hv list none 2>/dev/full; echo $?");
    assert_eq!(ran.out, "2\n");
}

#[test]
fn closed_streams() {
    let folder = folder();
    for (words, _) in PRINTING {
        let words = words.join(" ");
        for closed in ["<&-", ">&-", "2>&-", "<&- >&- 2>&-"] {
            let ran = folder.shell(&format!(
                "$hv {words} {closed}; s=$?; echo; echo status $s; exit 1"
            ));
            let status = ran.out.lines().last().unwrap_or_default();
            let known = ["status 0", "status 1", "status 2"];
            assert!(known.contains(&status), "{ran}");
        }
    }
    // nothing to read is no good sheet
    let ran = folder.shell("$hv list - <&-; exit $?");
    assert_ne!(ran.status, 0, "{ran}");
}

/// Commands that write a file with -o.
const WRITING: [&[&str]; 5] = [
    &["plan", "some.jobs"],
    &["move", "good.tsh"],
    &["run", "good.tsh"],
    &["draw", "good.tsh"],
    &["draw", "--text", "good.tsh"],
];

fn writing(folder: &Folder, words: &[&str], to: &str) -> Ran {
    folder.run(&[words, &["-o", to]].concat())
}

#[test]
fn outputs_that_cannot_be_written() {
    let folder = folder();
    fs::create_dir(folder.path("sub")).expect("a folder");
    let before = folder.names();
    let long = "x".repeat(300);
    for words in WRITING {
        for (to, why) in [
            ("sub", "irectory"),
            (".", "irectory"),
            ("..", "irectory"),
            ("/", "irectory"),
            ("new/", "irectory"),
            ("none/new", "No such file or directory"),
            ("good.tsh/new", "Not a directory"),
            ("/proc/self/none", ""),
            ("/dev/full", "No space left"),
            ("", ""),
            (long.as_str(), "too long"),
        ] {
            let ran = writing(&folder, words, to).ends(2).tells(to).tells(why);
            assert_eq!(ran.err.lines().count(), 1, "{ran}");
        }
        assert_eq!(folder.names(), before, "nothing is left");
    }
    assert_eq!(folder.read("good.tsh"), full_core().by_number());
}

#[test]
fn what_is_written_with_o_is_what_is_printed() {
    let folder = folder();
    for words in [
        &["move", "good.tsh"][..],
        &["draw", "good.tsh"],
        &["draw", "--text", "good.tsh"],
    ] {
        let printed = folder.run(words).ends(0).bytes;
        writing(&folder, words, "out").ends(0);
        assert_eq!(folder.read("out"), printed, "{words:?}");
        let ran = writing(&folder, words, "-").ends(0);
        assert_eq!(ran.bytes, printed, "{words:?}");
    }
    assert!(!folder.path("-").exists());
    // a dash is a file's name too, if one means it
    writing(&folder, &["move", "good.tsh"], "./-").ends(0);
    assert_eq!(folder.read("-"), full_core().by_core());
}

#[test]
fn an_input_is_not_written_over() {
    let folder = folder();
    folder.run(&["run", "good.tsh", "-o", "some.log"]).ends(0);
    symlink("some.jobs", folder.path("link")).expect("a link");
    for (words, input) in [
        (&["plan", "some.jobs", "-o", "some.jobs"][..], "some.jobs"),
        (&["plan", "some.jobs", "-o", "./some.jobs"], "some.jobs"),
        (&["plan", "some.jobs", "-o", "link"], "some.jobs"),
        (&["plan", "link", "-o", "some.jobs"], "some.jobs"),
        (&["run", "good.tsh", "-o", "good.tsh"], "good.tsh"),
        (
            &["run", "good.tsh", "--calls", "calls", "-o", "calls"],
            "calls",
        ),
        (
            &["run", "good.tsh", "--names", "some.jobs", "-o", "some.jobs"],
            "some.jobs",
        ),
        (
            &["run", "--bench", "some.jobs", "-o", "some.jobs"],
            "some.jobs",
        ),
        (&["draw", "good.tsh", "-o", "good.tsh"], "good.tsh"),
        (&["draw", "some.log", "-o", "some.log"], "some.log"),
        (
            &["draw", "good.tsh", "--calls", "some.log", "-o", "some.log"],
            "some.log",
        ),
    ] {
        let before = folder.read(input);
        let ran = folder.run(words);
        assert!(folder.read(input) == before, "{input} is gone: {ran}");
        ran.ends(2).tells("-o").prints_nothing();
    }
    // but a sheet may be moved onto itself
    folder.run(&["move", "good.tsh", "-o", "good.tsh"]).ends(0);
    assert_eq!(folder.read("good.tsh"), full_core().by_core());
}

#[test]
fn devices_stay_devices() {
    let folder = folder();
    for words in WRITING {
        writing(&folder, words, "/dev/null").ends(0);
        let kind = fs::metadata("/dev/null").expect("/dev/null").file_type();
        assert!(kind.is_char_device());
    }
    let script = "mkfifo pipe; cat pipe > got & $hv move good.tsh -o pipe; wait; cmp got <($hv move good.tsh)";
    folder.shell(script).ends(0);
    let kind = fs::metadata(folder.path("pipe"))
        .expect("a pipe")
        .file_type();
    assert!(kind.is_fifo());
}

#[test]
fn links_stay() {
    let folder = folder();
    folder.write("sub/target", "old");
    symlink("sub/target", folder.path("link")).expect("a link");
    symlink("link", folder.path("link2")).expect("a link");
    for words in WRITING {
        writing(&folder, words, "plain").ends(0);
        writing(&folder, words, "link2").ends(0);
        for link in ["link", "link2"] {
            let kind = fs::symlink_metadata(folder.path(link)).expect("a link");
            assert!(kind.file_type().is_symlink(), "{link} after {words:?}");
        }
        assert_eq!(folder.read("sub/target"), folder.read("plain"));
    }
    symlink("sub/later", folder.path("early")).expect("a link");
    let ran = writing(&folder, &["move", "good.tsh"], "early");
    let kind = fs::symlink_metadata(folder.path("early")).expect("a link");
    assert!(kind.file_type().is_symlink(), "it was replaced: {ran}");
    let there = folder.path("sub/later").exists();
    assert_eq!(there, ran.status == 0, "{ran}");
    symlink("round", folder.path("round")).expect("a link");
    writing(&folder, &["move", "good.tsh"], "round")
        .ends(2)
        .tells("round");
}

#[test]
fn permissions_are_kept() {
    let folder = folder();
    for mode in [0o600, 0o640, 0o644, 0o755] {
        folder.write("old", "old");
        let permissions = fs::Permissions::from_mode(mode);
        fs::set_permissions(folder.path("old"), permissions).expect("the mode");
        for words in WRITING {
            writing(&folder, words, "old").ends(0);
            let given = fs::metadata(folder.path("old")).expect("a file").mode() & 0o7777;
            assert_eq!(given, mode, "{words:?}");
        }
        fs::remove_file(folder.path("old")).expect("removed");
    }
    let ran = folder.shell("umask 077; $hv move good.tsh -o new > /dev/null; stat -c %a new; touch other; stat -c %a other");
    assert_eq!(
        ran.out, "600\n600\n",
        "a new file has the mode of any new file"
    );
}

#[test]
fn a_write_protected_file_stays() {
    let folder = folder();
    folder.write("old", "old");
    let permissions = fs::Permissions::from_mode(0o444);
    fs::set_permissions(folder.path("old"), permissions).expect("the mode");
    for words in WRITING {
        writing(&folder, words, "old").ends(2).tells("old: ");
        assert_eq!(folder.read("old"), b"old");
    }
}

#[test]
fn who_has_the_old_file_open_keeps_it_whole() {
    let folder = folder();
    for words in WRITING {
        folder.write("old", "what was there");
        let mut old = fs::File::open(folder.path("old")).expect("the old file");
        writing(&folder, words, "old").ends(0);
        let mut text = String::new();
        old.rewind().expect("the front");
        old.read_to_string(&mut text).expect("text");
        assert_eq!(text, "what was there", "{words:?} wrote into it");
    }
}

#[test]
fn a_write_that_breaks_off_leaves_the_old_file() {
    let folder = folder();
    folder.write("old", "what was there");
    let before = folder.names();
    // files of at most 1024 bytes
    for words in [
        "run good.tsh --ticks 5000",
        "draw good.tsh",
        "draw --text good.tsh --ticks 5000",
    ] {
        let limit = "trap '' XFSZ; ulimit -f 1";
        let ran = folder
            .shell(&format!("{limit}; $hv {words} -o old; exit $?"))
            .ends(2);
        ran.tells("old").tells("File too large");
        assert_eq!(folder.read("old"), b"what was there");
        assert_eq!(folder.names(), before, "nothing is left beside");
        let ran = folder
            .shell(&format!("{limit}; $hv {words} -o new; exit $?"))
            .ends(2);
        ran.tells("new");
        assert_eq!(folder.names(), before, "nothing is left beside");
    }
}

#[test]
fn inputs_that_cannot_be_read() {
    let folder = folder();
    symlink("nowhere", folder.path("dangling")).expect("a link");
    symlink("round", folder.path("round")).expect("a link");
    let long = "x".repeat(5000);
    for (file, why) in [
        ("none", "No such file or directory"),
        ("dangling", "No such file or directory"),
        ("round", "symbolic links"),
        ("good.tsh/x", "Not a directory"),
        ("/proc/self/mem", "Input/output error"),
        ("", ""),
        (long.as_str(), "too long"),
    ] {
        for command in COMMANDS {
            let ran = folder.run(&[command, file]).ends(2);
            let ran = ran.prints_nothing().tells(why);
            assert!(file == long || ran.err.contains(file), "{ran}");
        }
        for option in ["--calls", "--names"] {
            let ran = folder.run(&["run", "good.tsh", option, file]).ends(2);
            ran.prints_nothing().tells(why);
        }
    }
}

#[test]
fn folders_are_no_sheets_and_no_lists() {
    let folder = folder();
    fs::create_dir(folder.path("sub")).expect("a folder");
    for command in COMMANDS.into_iter().filter(|command| *command != "check") {
        let ran = folder.run(&[command, "sub"]).ends(2).prints_nothing();
        ran.tells("sub: ").tells("irectory");
        let ran = folder.shell(&format!("$hv {command} - < sub")).ends(2);
        let ran = ran.prints_nothing().tells("standard input");
        ran.tells("irectory");
        // the memory of the shell, from 0 on, where there is none
        let ran = folder.shell(&format!(
            "exec 3< /proc/self/mem; $hv {command} - <&3; exit $?"
        ));
        let ran = ran.ends(2).prints_nothing();
        ran.tells("standard input: Input/output error");
    }
}

#[test]
fn odd_names() {
    let folder = folder();
    let names = [
        b"new\nline".to_vec(),
        b"\xff\xfe".to_vec(),
        b" ".to_vec(),
        b"-o".to_vec(),
        b"tab\there".to_vec(),
        "ünï".as_bytes().to_vec(),
        b"\x1b[31mred".to_vec(),
        vec![b'n'; 255],
    ];
    for name in names.map(OsString::from_vec) {
        let path = OsString::from_vec([b"./", name.as_encoded_bytes()].concat());
        fs::copy(folder.path("good.tsh"), folder.path(&name)).expect("a copy");
        let ran = folder.run(&["list".into(), path.clone()]).ends(0);
        assert_eq!(ran.out, full_core().listing(1));
        let ran = folder.run(&["check".into(), path.clone()]).ends(0);
        assert_eq!(ran.out.lines().count(), 1, "{ran}");
        assert!(!ran.out.contains('\u{1b}'), "{ran}");
        let moving = [
            "move".into(),
            "good.tsh".into(),
            OsString::from("-o"),
            path.clone(),
        ];
        let ran = folder.run(&moving).ends(0);
        assert_eq!(ran.out.lines().count(), 1, "{ran}");
        let moved = fs::read(folder.path(&name)).expect("the moved sheet");
        assert_eq!(moved, full_core().by_core());
        fs::write(folder.path(&name), "x").expect("no sheet");
        let ran = folder.run(&["explain".into(), path.clone()]).ends(1);
        assert!(!ran.all().contains('\u{1b}'), "{ran}");
        fs::remove_file(folder.path(&name)).expect("removed");
    }
}

#[test]
fn input_that_comes_slowly_or_from_a_pipe() {
    let folder = folder();
    let slow = "(head -c 10 good.tsh; sleep 0.2; tail -c +11 good.tsh) | $hv list -";
    assert_eq!(folder.shell(slow).ends(0).out, full_core().listing(1));
    let named = "$hv list <(cat good.tsh)";
    assert_eq!(folder.shell(named).ends(0).out, full_core().listing(1));
    let piped = "mkfifo pipe; cat good.tsh > pipe & $hv list pipe";
    assert_eq!(folder.shell(piped).ends(0).out, full_core().listing(1));
    let calls = "$hv run good.tsh --calls <(echo 'ticks 3') --names <(cat some.jobs)";
    folder.shell(calls).ends(0).prints("name key");
}

/// Runs a copy of the command as a user who may not do everything, in a folder where he may write.
fn as_nobody(folder: &Folder, words: &[&str]) -> Ran {
    let mut command = Command::new(folder.path("homvaits"));
    command.args(words).current_dir(folder.path("home"));
    if fs::metadata("/proc/self").expect("/proc").uid() == 0 {
        command.uid(65_534).gid(65_534);
    }
    finish(&mut command, b"")
}

/// A folder in which some things are closed to others, with a copy of the command that they may run.
fn closed_in_part() -> Folder {
    let folder = Folder::new();
    fs::copy(HOMVAITS, folder.path("homvaits")).expect("a copy");
    for name in ["good.tsh", "shut.tsh", "closed/a.tsh"] {
        folder.write(&format!("home/{name}"), full_core().by_number());
    }
    folder.write("home/fixed/old", "what was there");
    for (name, mode) in [
        ("", 0o755),
        ("homvaits", 0o755),
        ("home", 0o755),
        ("home/good.tsh", 0o644),
        ("home/shut.tsh", 0),
        ("home/fixed/old", 0o644),
        ("home/fixed", 0o555),
        ("home/closed", 0),
    ] {
        let permissions = fs::Permissions::from_mode(mode);
        fs::set_permissions(folder.path(name), permissions).expect("the mode");
    }
    folder
}

#[test]
fn what_may_not_be_read_or_written() {
    let folder = closed_in_part();
    // a temporary folder may be closed to others
    let open = |path: &Path| fs::metadata(path).is_ok_and(|there| there.mode() & 1 != 0);
    if !folder.path("").ancestors().all(open) {
        return;
    }
    as_nobody(&folder, &["list", "good.tsh"]).ends(0);
    for command in COMMANDS {
        for file in ["shut.tsh", "closed/a.tsh"] {
            let ran = as_nobody(&folder, &[command, file]).ends(2);
            ran.tells(&format!("{file}: Permission denied"));
        }
    }
    for to in ["fixed/old", "fixed/new"] {
        let ran = as_nobody(&folder, &["move", "good.tsh", "-o", to]).ends(2);
        ran.tells(to).tells("denied");
    }
    assert_eq!(folder.read("home/fixed/old"), b"what was there");
    // a folder is gone through as far as it may be read
    let ran = as_nobody(&folder, &["check", "."]).ends(2);
    let ran = ran.tells("./shut.tsh: Permission denied");
    let ran = ran.tells("./closed: Permission denied");
    ran.prints("./good.tsh: accepted")
        .prints("./fixed/old: refused 2");
    for name in ["home/closed", "home/fixed"] {
        let permissions = fs::Permissions::from_mode(0o755);
        fs::set_permissions(folder.path(name), permissions).expect("the mode");
    }
}

#[test]
fn a_terminal_gets_no_bytes() {
    let folder = folder();
    if folder.shell("command -v script || true").out.is_empty() {
        return;
    }
    let ran = folder.shell("script -qec '$hv move good.tsh' /dev/null < /dev/null; exit 0");
    assert!(
        ran.out.contains("no text") && !ran.out.contains("TSH\u{2}"),
        "{ran}"
    );
    let ran = folder.shell("script -qec '$hv list good.tsh' /dev/null < /dev/null; exit 0");
    assert!(ran.out.contains("TSH 1 tasks 2"), "{ran}");
}
