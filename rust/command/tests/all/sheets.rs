//! `check`, `list`, `explain` and `move` of sheets: good ones, and one for every refusal.

use crate::common::damages::{damages, word, Damage, Place};
use crate::common::sheets::*;
use crate::common::{numbers, Folder, Ran, Rng};

/// Good sheets: those of the specification, the longest, the empty one, and some at the ends of the ranges.
fn good() -> Vec<Sheet> {
    let half = sheet(&[task(2, 1, 0, 1)], &[core(2, 1)]);
    let nearly = sheet(&[task(2000, 1999, 0, 1)], &[core(2000, 1)]);
    let large = sheet(
        &[task(60_000, 60_000, 0, 120_000)],
        &[core(60_000, 120_000)],
    );
    let small = sheet(&[task(1, 1, 0, 1)], &[core(1, 1)]);
    vec![
        Sheet::default(),
        full_core(),
        three_tasks(6, 4),
        two_cores(),
        longest(),
        half,
        nearly,
        large,
        small,
    ]
}

/// Good sheets in every version, and many random ones.
fn accepted() -> Vec<(Sheet, u8)> {
    let mut rng = Rng(4);
    let mut sheets = good();
    while sheets.len() < 60 {
        let made = rng.sheet();
        let cores = 0..made.cores.len() as u8;
        if cores.into_iter().all(|core| made.load(core) <= 1000) {
            sheets.push(made);
        }
    }
    let every = |made: Sheet| {
        let stroked = rng.stroked(&made);
        [(made.clone(), 1), (made, 2), (stroked, 3)]
    };
    let sheets = sheets.into_iter().flat_map(every);
    sheets.chain([(strokes_of(4), 3)]).collect()
}

#[test]
fn good_sheets_are_listed() {
    let folder = Folder::new();
    for (made, version) in accepted() {
        folder.write("a.tsh", made.write(version));
        let ran = folder.run(&["list", "a.tsh"]).ends(0);
        assert_eq!(ran.out, made.listing(version));
        let ran = folder.run_on(&["list", "-"], made.write(version)).ends(0);
        assert_eq!(ran.out, made.listing(version));
    }
}

#[test]
fn good_sheets_are_checked() {
    let folder = Folder::new();
    for (made, version) in accepted() {
        folder.write("a.tsh", made.write(version));
        let ran = folder.run(&["check", "a.tsh"]).ends(0);
        let line = ran.out.strip_prefix("a.tsh: accepted: ");
        let line = line.unwrap_or_else(|| panic!("{ran}"));
        let (tasks, cores) = (made.tasks.len(), made.cores.len());
        let mut expected = vec![i64::from(version), tasks as i64, cores as i64];
        expected.extend((0..cores as u8).map(|core| made.load(core) as i64));
        assert_eq!(numbers(line), expected, "{ran}");
        for (count, noun) in [(tasks, "task"), (cores, "core")] {
            let counted = match count {
                1 => format!("1 {noun}"),
                _ => format!("{count} {noun}s"),
            };
            assert!(line.contains(&counted), "{ran}");
        }
        assert_eq!(ran.out.lines().count(), 1, "no summary of one file: {ran}");
        folder
            .run(&["check", "--quiet", "a.tsh"])
            .ends(0)
            .prints_nothing();
    }
}

#[test]
fn good_sheets_are_explained() {
    let folder = Folder::new();
    for (made, version) in accepted() {
        let bytes = made.write(version);
        folder.write("a.tsh", &bytes);
        let ran = folder.run(&["explain", "a.tsh"]).ends(0);
        assert!(ran.out.starts_with("a.tsh: accepted"), "{ran}");
        has_every_field(&ran, &bytes);
        for core in 0..made.cores.len() as u8 {
            let (work, room) = made.work(core);
            let load = made.load(core);
            for figure in [work, room, load] {
                assert!(
                    numbers(&ran.out).contains(&(figure as i64)),
                    "{figure}: {ran}"
                );
            }
            if version == 3 {
                waits(&ran, &made, core);
            }
        }
        for task in 0..made.tasks.len() {
            let number = match version {
                2 => made.position(task),
                _ => task,
            };
            let row = row_of(&ran, &bytes, task_at(number), 10);
            let within = made.within(task) as i64;
            assert!(numbers(row).contains(&within), "within {within}: {row}");
        }
    }
}

/// The stroke of each task and its B stand in its row of the load, and with the sum make what the capacity has room for.
fn waits(ran: &Ran, made: &Sheet, core: u8) {
    let section = ran.out.split(&format!("\n\ncore {core}\n")).nth(1);
    let mut rows = section.unwrap_or_default().lines().skip(2);
    let (_, room) = made.work(core);
    for task in made.order(core) {
        let row = numbers(rows.next().unwrap_or_default());
        let [sum, stroke, blocking, wait, together] = row[row.len() - 5..] else {
            panic!("{ran}");
        };
        assert_eq!(row[0] as usize, task, "{ran}");
        assert_eq!(stroke, i64::from(made.tasks[task].stroke), "{ran}");
        assert_eq!(blocking, made.blocking(task) as i64, "{ran}");
        assert_eq!(together, sum + wait, "{ran}");
        assert!(together <= room as i64, "{ran}");
    }
}

/// The bytes as they are shown.
fn hex(bytes: &[u8]) -> String {
    let bytes: Vec<String> = bytes.iter().map(|byte| format!("{byte:02x}")).collect();
    bytes.join(" ")
}

/// What stands behind the bytes from an offset on, in the row that shows them.
fn row_of<'a>(ran: &'a Ran, bytes: &[u8], at: usize, length: usize) -> &'a str {
    let end = (at + length).min(bytes.len());
    let front = format!("{at}  {}", hex(&bytes[at..end]));
    let mut rows = ran.out.lines().map(str::trim_start);
    let row = rows.find_map(|line| line.strip_prefix(&front));
    row.unwrap_or_else(|| panic!("no row `{front}`: {ran}"))
}

/// Every field that is there, with its bytes and its number.
fn has_every_field(ran: &Ran, bytes: &[u8]) {
    for (at, length) in [(0, 3), (3, 2), (5, 1), (6, 1), (7, 1)] {
        if at < bytes.len() {
            let row = row_of(ran, bytes, at, length);
            let value = row.split_whitespace().nth(1);
            let count = bytes[at].to_string();
            assert!(at != 5 && at != 6 || value == Some(&count), "`{row}`");
        }
    }
    let Some((n, c)) = counts_of(ran, bytes) else {
        return;
    };
    let half = |at: usize| i64::from(bytes[at]) + 256 * i64::from(bytes[at + 1]);
    let whole = |at: usize| half(at) + 65_536 * half(at + 2);
    let tasks = (0..n).map(|position| (position, task_at(position)));
    for (position, at) in tasks.filter(|(_, at)| *at < bytes.len()) {
        let row = row_of(ran, bytes, at, 10);
        if at + 10 <= bytes.len() {
            let mut fields = vec![
                position as i64,
                half(at),
                half(at + 2),
                i64::from(bytes[at + 4]),
            ];
            // as a number in version 3, else as a byte
            if ran.out.contains("  stroke  factor") {
                fields.push(i64::from(bytes[at + 5]));
            }
            fields.push(whole(at + 6));
            in_order(row, &fields);
        }
    }
    let cores = (0..c).map(|core| (core, task_at(n) + 8 * core));
    for (core, at) in cores.filter(|(_, at)| *at < bytes.len()) {
        let row = row_of(ran, bytes, at, 8);
        if at + 8 <= bytes.len() {
            in_order(row, &[core as i64, half(at), whole(at + 4)]);
        }
    }
}

/// The counts by which the records are read: those of the header, or others where it is said that these are likely right.
fn counts_of(ran: &Ran, bytes: &[u8]) -> Option<(usize, usize)> {
    let said = ran
        .out
        .split_once("The records are read as those of version");
    if let Some((_, said)) = said {
        let said = numbers(said.split('.').next().unwrap_or_default());
        return Some((said[1] as usize, said[2] as usize));
    }
    let (n, c) = (usize::from(*bytes.get(5)?), usize::from(*bytes.get(6)?));
    (bytes.len() >= 8 && n <= 64 && c <= 8).then_some((n, c))
}

/// The numbers stand in the row, in this order.
fn in_order(row: &str, wanted: &[i64]) {
    let values = numbers(row);
    let mut values = values.iter();
    for number in wanted {
        assert!(values.any(|value| value == number), "{number} in `{row}`");
    }
}

#[test]
fn every_refusal_occurs() {
    let all = damages();
    for version in [1, 2, 3] {
        let numbers = all
            .iter()
            .filter(|damage| damage.bytes.get(3) == Some(&version));
        let mut numbers: Vec<u8> = numbers.map(|damage| damage.number).collect();
        numbers.sort_unstable();
        numbers.dedup();
        let expected: &[u8] = match version {
            1 => &[1, 2, 4, 5, 6, 7, 8, 9, 10, 11, 12, 13, 14],
            2 => &[1, 2, 4, 5, 6, 7, 8, 10, 11, 12, 13, 14, 23],
            _ => &[1, 2, 4, 5, 6, 7, 8, 9, 10, 11, 12, 13, 14, 25],
        };
        let known: Vec<u8> = numbers.into_iter().filter(|&number| number != 3).collect();
        assert_eq!(known, expected);
    }
    assert!(all.iter().any(|damage| damage.number == 3));
}

#[test]
fn every_refusal_is_listed() {
    let folder = Folder::new();
    for damage in damages() {
        folder.write("a.tsh", &damage.bytes);
        let ran = folder.run(&["list", "a.tsh"]).ends(1);
        let line = format!("refused {} place {}\n", damage.number, damage.listed());
        assert_eq!(ran.out, line, "{}", damage.what);
        assert_eq!(ran.err, "", "{}", damage.what);
    }
}

/// The number, the word and the place of a refusal, as `check`, `explain` and `move` tell it.
fn told(damage: &Damage) -> String {
    let (number, word) = (damage.number, word(damage.number));
    match damage.told() {
        Some(place) => format!("a.tsh: refused {number} ({word}) at {place}: "),
        None => format!("a.tsh: refused {number} ({word}): "),
    }
}

#[test]
fn every_refusal_is_checked() {
    let folder = Folder::new();
    for damage in damages() {
        folder.write("a.tsh", &damage.bytes);
        for words in [&["check", "a.tsh"][..], &["check", "--quiet", "a.tsh"]] {
            let ran = folder.run(words).ends(1);
            assert!(
                ran.out.starts_with(&told(&damage)),
                "{}: {ran}",
                damage.what
            );
            assert_eq!(ran.out.lines().count(), 1, "{ran}");
        }
        let ran = folder.run(&["check", "--json", "a.tsh"]).ends(1);
        let (number, place) = (damage.number, damage.listed());
        let ran = ran.prints(&format!("\"refusal\":{number},"));
        ran.prints(&format!("\"place\":{place},"));
    }
}

#[test]
fn every_refusal_stops_a_move() {
    let folder = Folder::new();
    for damage in damages() {
        folder.write("a.tsh", &damage.bytes);
        let ran = folder.run(&["move", "a.tsh"]).ends(1).prints_nothing();
        match damage.bytes.len() >= 8 && damage.bytes.starts_with(b"TSH\x03\x00") {
            // whatever else is wrong with it
            true => ran.tells("a.tsh: refused 3 (Version): a sheet of version 3 is not moved"),
            false => ran.tells(&told(&damage)),
        };
        let ran = folder.run(&["move", "a.tsh", "-o", "new.tsh"]).ends(1);
        ran.prints_nothing();
        assert!(!folder.path("new.tsh").exists());
        folder.run(&["move", "a.tsh", "-o", "a.tsh"]).ends(1);
        assert_eq!(folder.read("a.tsh"), damage.bytes);
        for command in ["run", "draw"] {
            let ran = folder.run(&[command, "a.tsh"]).prints_nothing();
            assert_ne!(ran.status, 0, "{ran}");
        }
        assert_eq!(folder.names(), ["a.tsh"]);
    }
}

#[test]
fn every_refusal_is_explained() {
    let folder = Folder::new();
    for damage in damages() {
        folder.write("a.tsh", &damage.bytes);
        let ran = folder.run(&["explain", "a.tsh"]).ends(1).tells_nothing();
        assert!(
            ran.out.starts_with(&told(&damage)),
            "{}: {ran}",
            damage.what
        );
        has_every_field(&ran, &damage.bytes);
        // the figures stand in the reason, above the fields
        let reason = ran.out.split("\nheader\n").next().unwrap_or_default();
        let reason: String = reason.lines().skip(1).collect::<Vec<_>>().join("\n");
        let there = numbers(&reason);
        for figure in &damage.figures {
            let there = there.contains(&(*figure as i64));
            assert!(there, "{figure} is not told: {}: {ran}", damage.what);
        }
        if let Place::Core(number) | Place::Task(number) = damage.place {
            let place = damage.told().expect("a place");
            assert!(reason.contains(&place), "{place}, {number}: {ran}");
        }
    }
}

#[test]
fn any_bytes_are_explained() {
    let folder = Folder::new();
    let mut rng = Rng(12);
    for round in 0..800 {
        let mut bytes = match round % 4 {
            0 => (0..rng.range(0, 900)).map(|_| rng.word() as u8).collect(),
            1 => two_cores().by_core(),
            2 if rng.range(0, 1) == 0 => rng.sheet().in_strokes(),
            2 => rng.sheet().by_number(),
            _ => {
                let mut bytes = vec![0xff; 8 + 10 * 64 + 8 * 8];
                let (n, c) = (rng.range(0, 64), rng.range(0, 8));
                let version = rng.pick(&[1, 3]);
                bytes[..8].copy_from_slice(&[b'T', b'S', b'H', version, 0, n as u8, c as u8, 0]);
                bytes.truncate((8 + 10 * n + 8 * c) as usize);
                bytes
            }
        };
        if round % 4 == 0 && bytes.len() > 8 && rng.range(0, 1) == 0 {
            bytes[..5].copy_from_slice(&[b'T', b'S', b'H', rng.range(1, 3) as u8, 0]);
        }
        for _ in 0..rng.range(0, 4) {
            if !bytes.is_empty() {
                let at = rng.range(0, bytes.len() as u64 - 1) as usize;
                bytes[at] = rng.pick(&[0, 1, 2, 127, 128, 255]);
            }
        }
        if rng.range(0, 3) == 0 {
            bytes.truncate(rng.range(0, bytes.len() as u64) as usize);
        }
        alike(&folder, &bytes);
    }
}

/// What the commands say of any bytes is the same verdict.
fn alike(folder: &Folder, bytes: &[u8]) {
    folder.write("a.tsh", bytes);
    let list = folder.run(&["list", "a.tsh"]);
    let explain = folder.run(&["explain", "a.tsh"]);
    let check = folder.run(&["check", "a.tsh"]);
    let statuses = [list.status, explain.status, check.status];
    assert_eq!(statuses, [statuses[0]; 3], "{}", hex(bytes));
    let first = explain.out.lines().next().unwrap_or_default();
    if list.status == 1 {
        assert_eq!(first, check.out.trim_end());
        let refused = numbers(&list.out);
        assert!(
            first.contains(&format!("refused {} (", refused[0])),
            "{first}"
        );
    } else {
        assert!(first.starts_with("a.tsh: accepted"), "{first}");
    }
    has_every_field(&explain, bytes);
}

#[test]
fn long_files_are_refused_by_their_front() {
    let folder = Folder::new();
    let mut bytes = longest().by_number();
    bytes.push(0);
    folder.write("a.tsh", &bytes);
    folder
        .run(&["list", "a.tsh"])
        .ends(1)
        .prints("refused 5 place 0\n");
    folder
        .run(&["explain", "a.tsh"])
        .ends(1)
        .prints("712")
        .prints("713");
    bytes.extend(vec![7; 100_000]);
    folder.write("a.tsh", &bytes);
    folder
        .run(&["list", "a.tsh"])
        .ends(1)
        .prints("refused 5 place 0\n");
    folder
        .run(&["check", "a.tsh"])
        .ends(1)
        .prints("refused 5 (Length)");
    let ran = folder.run(&["explain", "a.tsh"]).ends(1).prints("712");
    // the file's own length, or that it is longer
    let length = bytes.len() as i64;
    let reason = ran.out.split("\nheader\n").next().unwrap_or_default();
    let told = numbers(reason).contains(&length) || !reason.contains("713");
    assert!(told, "{ran}");
    folder.run(&["move", "a.tsh"]).ends(1).prints_nothing();
    let ran = folder.shell("$hv list /dev/zero").ends(1);
    assert_eq!(ran.out, "refused 2 place 0\n");
    folder.shell("$hv check /dev/zero").ends(1);
    folder.shell("$hv explain /dev/zero").ends(1);
}

#[test]
fn sheets_are_moved() {
    let folder = Folder::new();
    let moved = |(_, version): &(Sheet, u8)| *version < 3;
    for (made, version) in accepted().into_iter().filter(moved) {
        let (bytes, other) = (made.write(version), made.write(3 - version));
        folder.write("a.tsh", &bytes);
        let ran = folder.run(&["move", "a.tsh"]).ends(0);
        assert_eq!(ran.bytes, other);
        let ran = folder.run(&["move", "a.tsh", "-o", "b.tsh"]).ends(0);
        ran.prints("b.tsh");
        assert_eq!(folder.read("b.tsh"), other);
        assert_eq!(folder.read("a.tsh"), bytes);
        folder.run(&["move", "b.tsh", "-o", "b.tsh"]).ends(0);
        assert_eq!(
            folder.read("b.tsh"),
            bytes,
            "onto itself, and twice the same"
        );
        let ran = folder.run_on(&["move", "-", "-o", "-"], &bytes).ends(0);
        assert_eq!(ran.bytes, other);
    }
    assert_eq!(folder.names(), ["a.tsh", "b.tsh"]);
}

#[test]
fn sheets_of_version_3_are_not_moved() {
    let folder = Folder::new();
    for (made, _) in accepted().into_iter().filter(|(_, version)| *version == 3) {
        folder.write("a.tsh", made.in_strokes());
        let ran = folder.run(&["move", "a.tsh", "-o", "b.tsh"]).ends(1);
        let ran = ran.prints_nothing().tells("refused 3 (Version)");
        assert!(!ran.err.contains("explain"), "it is a good sheet: {ran}");
        folder.run(&["move", "a.tsh"]).ends(1).prints_nothing();
    }
    assert_eq!(folder.names(), ["a.tsh"]);
}

/// The longest stroke that is told to fit does, and one more tick does not.
#[test]
fn the_longest_stroke_that_is_told() {
    let folder = Folder::new();
    let mut told = 0;
    for damage in damages() {
        if damage.number != 14 || damage.bytes[3] != 3 {
            continue;
        }
        folder.write("a.tsh", &damage.bytes);
        let explained = folder.run(&["explain", "a.tsh"]).ends(1).out;
        let words: Vec<&str> = explained.split_whitespace().collect();
        let words = words.join(" ");
        let Some((_, most)) = words.split_once("A stroke of a task below it may have ") else {
            assert!(words.contains("is above one"), "{explained}");
            continue;
        };
        let most = numbers(most)[0] as u8;
        // the tasks with strokes of more than one tick are below the task that is told
        for (length, status) in [(most, 0), (most + 1, 1)] {
            let mut bytes = damage.bytes.clone();
            for at in (0..usize::from(bytes[5])).map(task_at) {
                let (stroke, budget) = (bytes[at + 5], bytes[at + 2]);
                bytes[at + 5] = if stroke > 1 { length.min(budget) } else { 1 };
            }
            let ran = folder.run_on(&["list", "-"], bytes);
            assert_eq!(ran.status, status, "{length}: {explained}");
        }
        told += 1;
    }
    assert!(told > 1, "{told}");
}

/// The bytes as an explanation says that they would be accepted, if it says so.
fn mended(explained: &str, bytes: &[u8]) -> Option<Vec<u8>> {
    let reason = explained.split("\nheader\n").next().unwrap_or_default();
    let words: Vec<&str> = reason.split_whitespace().collect();
    let reason = words.join(" ");
    let (front, _) = reason.split_once("would be accepted")?;
    let claim = front.rsplit_once(". ").map_or(front, |(_, claim)| claim);
    let mut bytes = bytes.to_vec();
    if let Some(rest) = claim.strip_prefix("The first ") {
        bytes.truncate(numbers(rest)[0] as usize);
    } else if claim.starts_with("With 00 there") {
        let place = numbers(reason.split_once("at byte").expect("a place").1)[0];
        bytes[place as usize] = 0;
    } else {
        let claim = claim.strip_prefix("With ").expect("a claim");
        let claim = claim.split(" in its header").next().unwrap_or_default();
        for part in claim.split(" and ").flat_map(|part| part.split(", ")) {
            let number = numbers(part).first().map_or(0, |&number| number as u8);
            match part.split_whitespace().collect::<Vec<_>>().as_slice() {
                ["the", "mark", "TSH"] => bytes[..3].copy_from_slice(b"TSH"),
                ["version", _] => bytes[3..5].copy_from_slice(&[number, 0]),
                [_, "tasks" | "task"] => bytes[5] = number,
                [_, "cores" | "core"] => bytes[6] = number,
                ["a", "spare", "byte", ..] => bytes[7] = 0,
                _ => panic!("`{part}` in `{claim}`"),
            }
        }
    }
    Some(bytes)
}

#[test]
fn what_would_be_accepted_is() {
    let folder = Folder::new();
    let mut rng = Rng(31);
    let mut claims = 0;
    for (made, version) in accepted().into_iter().cycle().take(600) {
        let mut bytes = made.write(version);
        for _ in 0..rng.range(1, 2) {
            match rng.range(0, 5) {
                0 => bytes.extend(vec![0; rng.pick(&[1, 8, 10, 20, 200])]),
                1 => {
                    let at = rng.range(8, bytes.len() as u64) as usize;
                    bytes.truncate(at);
                }
                2 if bytes.len() > 13 => bytes[13] = rng.word() as u8,
                _ => bytes[rng.range(0, 7) as usize] = rng.pick(&[0, 1, 2, 3, 64, 65, 255]),
            }
        }
        folder.write("a.tsh", &bytes);
        let explained = folder.run(&["explain", "a.tsh"]).out;
        if let Some(mended) = mended(&explained, &bytes) {
            let ran = folder.run_on(&["list", "-"], mended);
            assert_eq!(ran.status, 0, "{}: {explained}", hex(&bytes));
            claims += 1;
        }
    }
    assert!(claims > 200, "{claims}");
}

#[test]
fn the_largest_factor_that_is_told() {
    let folder = Folder::new();
    let mut told = 0;
    for damage in damages() {
        if damage.number != 12 {
            continue;
        }
        let Place::Task(position) = damage.place else {
            panic!("{}", damage.what);
        };
        folder.write("a.tsh", &damage.bytes);
        let explained = folder.run(&["explain", "a.tsh"]).out;
        let words: Vec<&str> = explained.split_whitespace().collect();
        let words = words.join(" ");
        let most = words
            .split_once("the factor may be ")
            .map(|(_, rest)| numbers(rest)[0] as u32);
        for (factor, stretched) in [
            (most.unwrap_or(0) + 1, true),
            (most.unwrap_or(1), most.is_none()),
        ] {
            let bytes = with32(&damage.bytes, task_at(position) + 6, factor);
            let list = folder.run_on(&["list", "-"], bytes).out;
            let there = list == format!("refused 12 place {position}\n");
            assert_eq!(there, stretched, "factor {factor}: {explained}");
        }
        told += u64::from(most.is_some());
    }
    assert!(told > 2, "{told}");
}

#[test]
fn whether_other_figures_may_help() {
    const PRIMES: [u16; 8] = [
        59_999, 59_981, 59_971, 59_957, 59_951, 59_929, 59_921, 59_887,
    ];
    let folder = Folder::new();
    let mut rng = Rng(8);
    for round in 0..60 {
        let count = [2, 3, 8, 64][round % 4];
        let mut tasks: Vec<Task> = (0..count)
            .map(|i| {
                task(
                    PRIMES[i % 8],
                    rng.range(1, 59_000 / count as u64) as u16,
                    0,
                    1,
                )
            })
            .collect();
        // over the product of the primes, which has 127 bits
        let whole: u128 = PRIMES.iter().map(|&prime| u128::from(prime)).product();
        let share = |task: &Task| whole / u128::from(task.period) * u128::from(task.budget);
        let last = tasks.len() - 1;
        let others: u128 = tasks[..last].iter().map(share).sum();
        let fits = (whole - others) / (whole / u128::from(tasks[last].period));
        for (budget, above) in [(fits, false), (fits + 1, true)] {
            tasks[last].budget = budget as u16;
            let made = sheet(&tasks, &[core(59_000, 1)]);
            folder.write("a.tsh", made.by_number());
            let ran = folder.run(&["explain", "a.tsh"]).ends(1);
            let ran = ran.prints("refused 14 (Overload) at core 0");
            let words: Vec<&str> = ran.out.split_whitespace().collect();
            let words = words.join(" ");
            assert_eq!(words.contains("is more than there is"), above, "{ran}");
            assert_eq!(words.contains("not more than there is"), !above, "{ran}");
        }
    }
}

#[test]
fn numbers_that_stand_often() {
    let folder = Folder::new();
    let good = two_cores().by_core();
    for number in [0, 2, 4, 5, 200] {
        let mut bytes = good.clone();
        for position in [2, 3, 4] {
            bytes[task_at(position) + 4] = number;
        }
        folder.write("a.tsh", &bytes);
        let ran = folder.run(&["explain", "a.tsh"]).ends(1);
        let words: Vec<&str> = ran.out.split_whitespace().collect();
        let words = words.join(" ");
        let reason = words.split("what to do").next().unwrap_or_default();
        assert!(reason.contains("refused 23 (Order)"), "{ran}");
        assert!(!reason.contains("twice"), "it stands three times: {ran}");
        let told = reason.matches(&format!(" {number} stands")).count();
        assert!(told <= 1, "it is told once: {ran}");
    }
}
