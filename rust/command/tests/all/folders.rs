//! `check` of many files: folders, links, odd names, JSON, a hundred thousand sheets.

use crate::common::damages::damages;
use crate::common::json::Json;
use crate::common::sheets::{full_core, longest, two_cores};
use crate::common::{numbers, Folder, Ran};
use std::ffi::OsString;
use std::fs;
use std::os::unix::ffi::OsStringExt;
use std::os::unix::fs::symlink;
use std::os::unix::net::UnixListener;

/// The first words of each line behind its path: `accepted`, `refused 5`.
fn answers(ran: &Ran) -> Vec<(String, String)> {
    let lines = ran.out.lines().filter_map(|line| {
        let (path, answer) = line.split_once(": ")?;
        let answer = match answer.split(' ').collect::<Vec<_>>().as_slice() {
            ["refused", number, ..] => format!("refused {number}"),
            [first, ..] => first.trim_end_matches(':').to_owned(),
            [] => String::new(),
        };
        let known = answer.starts_with("refused") || answer == "accepted";
        known.then(|| (path.to_owned(), answer))
    });
    lines.collect()
}

/// A tree of sheets: names, and what is answered.
fn tree() -> (Folder, Vec<(&'static str, &'static str)>) {
    let folder = Folder::new();
    let good = two_cores().by_number();
    let files = [
        ("all/.hidden", "accepted"),
        ("all/.hidden-folder/b.tsh", "accepted"),
        ("all/a.tsh", "accepted"),
        ("all/a/b/c/d.tsh", "accepted"),
        ("all/a/notes.txt", "refused 2"),
        ("all/b.tsh", "refused 14"),
        ("all/empty", "refused 1"),
        ("all/z/cut.tsh", "refused 5"),
        ("all/z/v2.tsh", "accepted"),
    ];
    let full = damages().into_iter().find(|damage| damage.number == 14);
    let full = full.expect("an overload").bytes;
    for (name, answer) in files {
        let bytes = match answer {
            "refused 1" => Vec::new(),
            "refused 2" => b"some notes of mine".to_vec(),
            "refused 5" => good[..70].to_vec(),
            "refused 14" => full.clone(),
            _ if name.contains("v2") => two_cores().by_core(),
            _ => good.clone(),
        };
        folder.write(name, bytes);
    }
    fs::create_dir_all(folder.path("all/none/at/all")).expect("empty folders");
    (folder, files.to_vec())
}

fn owned(files: &[(&str, &str)]) -> Vec<(String, String)> {
    let own = |(path, answer): &(&str, &str)| ((*path).to_owned(), (*answer).to_owned());
    let mut files: Vec<(String, String)> = files.iter().map(own).collect();
    files.sort();
    files
}

#[test]
fn folders_are_gone_through() {
    let (folder, files) = tree();
    let ran = folder.run(&["check", "all"]).ends(1).tells_nothing();
    let mut given = answers(&ran);
    given.sort();
    assert_eq!(given, owned(&files), "{ran}");
    let summary = ran.out.lines().find(|line| line.contains("9 files"));
    let summary = summary.unwrap_or_else(|| panic!("{ran}"));
    assert_eq!(numbers(summary), [9, 5, 4], "{ran}");
    assert_eq!(folder.run(&["check", "all"]).out, ran.out, "the same order");
    // a path may be named in several ways
    for path in ["all/", "./all", "all/.", "all/a/.."] {
        let again = folder.run(&["check", path]).ends(1);
        assert_eq!(answers(&again).len(), 9, "{again}");
    }
    let twice = folder.run(&["check", "all", "all/a.tsh", "all"]).ends(1);
    assert_eq!(answers(&twice).len(), 19, "{twice}");
}

#[test]
fn several_files_have_a_summary() {
    let (folder, _) = tree();
    let ran = folder.run(&["check", "all/a.tsh", "all/z/v2.tsh"]).ends(0);
    let last = ran.out.lines().last().unwrap_or_default();
    assert_eq!(numbers(last), [2, 2], "{ran}");
    let one = folder.run(&["check", "all/.hidden-folder"]).ends(0);
    assert!(one.out.contains("1 file"), "a summary of a folder: {one}");
    // no file at all is likely the wrong folder
    folder.run(&["check", "all/none"]).ends(2).tells("no file");
}

#[test]
fn quiet() {
    let (folder, files) = tree();
    let ran = folder.run(&["check", "--quiet", "all"]).ends(1);
    let refused = files.iter().copied();
    let refused: Vec<_> = refused
        .filter(|(_, answer)| *answer != "accepted")
        .collect();
    let mut given = answers(&ran);
    given.sort();
    assert_eq!(given, owned(&refused), "{ran}");
    assert_eq!(ran.out.lines().count(), refused.len(), "no summary: {ran}");
    folder
        .run(&["check", "--quiet", "all/a.tsh"])
        .ends(0)
        .prints_nothing();
    folder
        .run(&["check", "--quiet", "all/none"])
        .ends(2)
        .prints_nothing();
    let ran = folder
        .run(&["check", "--quiet", "all/a.tsh", "nothing"])
        .ends(2);
    ran.prints_nothing().tells("nothing: No such file");
}

#[test]
fn endings() {
    let (folder, _) = tree();
    for (ending, count) in [
        (".tsh", 6),
        ("", 9),
        ("b.tsh", 2),
        (".txt", 1),
        (".TSH", 0),
        ("none", 0),
        ("*", 0),
    ] {
        let ran = folder.run(&["check", "all", "--ending", ending]);
        assert_eq!(answers(&ran).len(), count, "{ending}: {ran}");
    }
    // a file that is named itself is looked at whatever its name
    let ran = folder
        .run(&["check", "--ending", ".tsh", "all/a/notes.txt"])
        .ends(1);
    assert_eq!(answers(&ran).len(), 1);
    let raw = OsString::from_vec(b"\xff".to_vec());
    folder.run(&[
        "check".into(),
        "--ending".into(),
        raw,
        OsString::from("all"),
    ]);
}

#[test]
fn json() {
    let (folder, files) = tree();
    let ran = folder.run(&["check", "--json", "all", "nothing"]).ends(2);
    let json = Json::read(&ran.out);
    let sheets = json.get("sheets").list();
    assert_eq!(sheets.len(), 10, "{ran}");
    for (path, answer) in files {
        let sheet = sheets.iter().find(|sheet| sheet.get("path").text() == path);
        let sheet = sheet.unwrap_or_else(|| panic!("{path}: {ran}"));
        let accepted = answer == "accepted";
        assert_eq!(*sheet.get("accepted"), Json::Bool(accepted), "{path}");
        if accepted {
            let version = if path.contains("v2") { 2 } else { 1 };
            let counts = ["version", "tasks", "cores"].map(|name| sheet.get(name).number());
            assert_eq!(counts, [version, 5, 2]);
            let loads: Vec<i64> = sheet.get("loads").list().iter().map(Json::number).collect();
            assert_eq!(loads, [625, 1000]);
        } else {
            let number = sheet.get("refusal").number();
            assert_eq!(format!("refused {number}"), answer);
            assert!(!sheet.get("word").text().is_empty());
            assert!(!sheet.get("text").text().is_empty());
        }
    }
    let missing = sheets
        .iter()
        .find(|sheet| sheet.get("path").text() == "nothing");
    let error = missing.expect("an answer").get("error");
    assert_eq!(error.text(), "No such file or directory");
    let summary = json.get("summary");
    let sums = ["files", "accepted", "refused", "not_read"];
    assert_eq!(sums.map(|name| summary.get(name).number()), [10, 5, 4, 1]);
    for sheet in sheets {
        // a line for each file
        let path = format!("\"{}\"", sheet.get("path").text());
        let lines = ran.out.lines().filter(|line| line.contains(&path));
        assert_eq!(lines.count(), 1, "{path}: {ran}");
    }
}

#[test]
fn json_of_every_refusal() {
    let folder = Folder::new();
    let all = damages();
    for (at, damage) in all.iter().enumerate() {
        folder.write(&format!("all/{at:03}"), &damage.bytes);
    }
    let ran = folder.run(&["check", "--json", "all"]).ends(1);
    let json = Json::read(&ran.out);
    let sheets = json.get("sheets").list();
    assert_eq!(sheets.len(), all.len());
    for (sheet, damage) in sheets.iter().zip(&all) {
        assert_eq!(
            sheet.get("refusal").number(),
            i64::from(damage.number),
            "{}",
            damage.what
        );
        assert_eq!(
            sheet.get("place").number(),
            damage.listed() as i64,
            "{}",
            damage.what
        );
        let told = damage.told().map_or(Json::Null, Json::Text);
        assert_eq!(*sheet.get("where"), told, "{}", damage.what);
    }
    assert_eq!(
        json.get("summary").get("refused").number(),
        all.len() as i64
    );
    // the summary in words counts each of them
    let ran = folder.run(&["check", "all"]).ends(1);
    let last = ran.out.lines().last().unwrap_or_default();
    let counted: i64 = numbers(last).iter().sum();
    assert_eq!(counted, all.len() as i64, "{last}");
}

#[test]
fn json_of_standard_input_and_nothing() {
    let folder = Folder::new();
    let ran = folder
        .run_on(&["check", "--json", "-"], full_core().by_number())
        .ends(0);
    let json = Json::read(&ran.out);
    assert_eq!(json.get("sheets").list().len(), 1);
    fs::create_dir(folder.path("none")).expect("a folder");
    let ran = folder.run(&["check", "--json", "none"]).ends(2);
    assert!(Json::read(&ran.out).get("sheets").list().is_empty());
    let ran = folder.run(&["check", "--json", "--quiet", "none"]).ends(2);
    Json::read(&ran.out);
    let ran = folder.run(&["check", "--json", "nothing"]).ends(2);
    assert_eq!(Json::read(&ran.out).get("sheets").list().len(), 1);
}

#[test]
fn links_and_what_is_no_file() {
    let folder = Folder::new();
    let good = full_core().by_number();
    folder.write("all/a.tsh", &good);
    folder.write("other/b.tsh", &good);
    symlink("../all", folder.path("all/round")).expect("a link");
    symlink("../other", folder.path("all/folder")).expect("a link");
    symlink("../other/b.tsh", folder.path("all/file")).expect("a link");
    let ran = folder.run(&["check", "all"]).ends(0);
    let paths: Vec<String> = answers(&ran).into_iter().map(|(path, _)| path).collect();
    assert_eq!(paths, ["all/a.tsh", "all/file"], "{ran}");
    // a link that is named itself leads to its folder
    symlink("all", folder.path("link")).expect("a link");
    let ran = folder.run(&["check", "link"]).ends(0);
    assert_eq!(answers(&ran).len(), 2, "{ran}");

    symlink("nowhere", folder.path("all/dangling")).expect("a link");
    let ran = folder.run(&["check", "all"]).ends(2);
    ran.tells("all/dangling").prints("all/a.tsh: accepted");
    fs::remove_file(folder.path("all/dangling")).expect("removed");

    folder.shell("mkfifo all/pipe").ends(0);
    let _socket = UnixListener::bind(folder.path("all/socket")).expect("a socket");
    let ran = folder.run(&["check", "all"]);
    assert_eq!(answers(&ran).len(), 2, "it does not wait for a pipe: {ran}");
    folder.run(&["check", "--json", "all"]);
}

#[test]
fn odd_names_in_folders() {
    let folder = Folder::new();
    fs::create_dir(folder.path("all")).expect("a folder");
    let names: [&[u8]; 10] = [
        b"new\nline",
        b"\xff\xfe",
        b"\xed\xa0\x80",
        b"quote\"back\\slash",
        b"\x01\x1f\x7f",
        b"\x1b[31mred",
        "\u{202e}ünï\u{2028}".as_bytes(),
        b" a: accepted: ",
        b"-",
        b"--json",
    ];
    for name in names {
        let name = OsString::from_vec(name.to_vec());
        fs::write(folder.path("all").join(name), full_core().by_number()).expect("a file");
    }
    let ran = folder.run(&["check", "all"]).ends(0);
    assert_eq!(
        ran.out.lines().count(),
        11,
        "a line for each, and one more: {ran}"
    );
    let control = |c: char| c.is_control() && c != '\n';
    assert!(!ran.out.contains(control), "{ran}");
    let ran = folder.run(&["check", "--json", "all"]).ends(0);
    let json = Json::read(&ran.out);
    assert_eq!(json.get("sheets").list().len(), 10);
    let sheets = json.get("sheets").list();
    for name in ["all/quote\"back\\slash", "all/new\nline"] {
        assert!(sheets.iter().any(|sheet| sheet.get("path").text() == name));
    }
}

#[test]
fn folders_in_folders() {
    let folder = Folder::new();
    let deep = vec!["d"; 900].join("/");
    folder.write(&format!("all/{deep}/a.tsh"), full_core().by_number());
    let ran = folder.run(&["check", "all"]).ends(0);
    assert_eq!(answers(&ran).len(), 1);
}

#[test]
fn many_words() {
    let folder = Folder::new();
    folder.write("a.tsh", full_core().by_number());
    let words = [&["check"][..], &vec!["a.tsh"; 20_000]].concat();
    let ran = folder.run(&words).ends(0);
    assert_eq!(answers(&ran).len(), 20_000);
}

/// A hundred folders with a thousand files each, a quarter of them cut.
fn hundred_thousand() -> Folder {
    let folder = Folder::new();
    let sheets = [
        full_core().by_number(),
        two_cores().by_core(),
        longest().by_number(),
        full_core().by_number()[..35].to_vec(),
    ];
    let bases = ["base/0", "base/1", "base/2", "base/3"];
    for (base, bytes) in bases.iter().zip(sheets) {
        folder.write(base, bytes);
    }
    // links to four files, which are made faster than files
    for part in 0..100 {
        let path = folder.path(format!("all/{part}"));
        fs::create_dir_all(&path).expect("a folder");
        for file in 0..1000 {
            let base = folder.path(bases[(part + file) % 4]);
            fs::hard_link(base, path.join(file.to_string())).expect("a file");
        }
    }
    folder
}

#[test]
fn a_hundred_thousand_files() {
    let folder = hundred_thousand();
    let ran = folder.run(&["check", "all"]).ends(1);
    let lines = ran.out.lines().count();
    assert_eq!(lines, 100_002, "a line for each, and a summary of two");
    let summary = ran.out.lines().nth(100_000).unwrap_or_default();
    assert_eq!(numbers(summary), [100_000, 75_000, 25_000], "{summary}");
    let quiet = folder.run(&["check", "--quiet", "all"]).ends(1);
    assert_eq!(answers(&quiet).len(), 25_000);
    let json = folder.run(&["check", "--json", "all"]).ends(1);
    let json = Json::read(&json.out);
    let sheets = json.get("sheets").list().iter();
    let paths = answers(&ran);
    let paths = paths.iter().map(|(path, _)| path.as_str());
    assert!(
        sheets.map(|sheet| sheet.get("path").text()).eq(paths),
        "the same order"
    );
}
