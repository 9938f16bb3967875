//! Mistakes about version 2.

use reference::*;

/// The answer of a checker with one of these mistakes. 3: Order before Budget.
/// 4: equal periods by position. 5: a number may be there twice. 6: counts added
/// up in eight bits. 7: the place is the old number. 8: the count of a core is a
/// spare byte. 9: tasks without a core are 9.
pub fn checked(sheet: &[u8], wrong: fn(u32) -> bool) -> CheckAnswer {
    let answer = check(sheet);
    let refused = |refusal: u8, place: usize| CheckAnswer {
        refusal,
        place: place as u16,
        ..CheckAnswer::default()
    };
    let Some((n, c)) = counts(sheet) else {
        return answer;
    };
    let task = |position: usize| 8 + 10 * position;
    let numbers = |bytes: &[u8]| -> Vec<u8> { (0..n).map(|i| bytes[task(i) + 4]).collect() };
    let mut bytes = sheet.to_vec();
    match answer.refusal {
        8 if wrong(3) => {
            (0..n).for_each(|i| bytes[task(i) + 2..task(i) + 4].copy_from_slice(&[1, 0]));
            if check(&bytes).refusal == 23 {
                return refused(23, 0);
            }
        }
        23 if wrong(4) => {
            for (a, b) in (0..n).flat_map(|i| (1..n).map(move |b| (i, b))) {
                let (a, b) = (task(a.min(b)), task(b.max(a)));
                if bytes[a..a + 2] == bytes[b..b + 2] && bytes[a + 4] > bytes[b + 4] {
                    bytes.swap(a + 4, b + 4);
                }
            }
            return check(&bytes);
        }
        23 if wrong(5) => {
            let mut rest: Vec<u8> = (0..n as u8).collect();
            rest.retain(|number| !numbers(sheet).contains(number));
            for i in 0..n {
                let number = bytes[task(i) + 4];
                if (number as usize) < n && numbers(sheet)[..i].contains(&number) {
                    bytes[task(i) + 4] = rest.pop().expect("a number is missing for each twice");
                }
            }
            return check(&bytes);
        }
        23 if wrong(6) => {
            let cores: usize = (0..c).map(|k| sheet[task(n) + 8 * k + 2] as usize).sum();
            if cores != n && cores % 256 == n {
                return CheckAnswer {
                    tasks: n as u8,
                    cores: c as u8,
                    ..CheckAnswer::default()
                };
            }
        }
        12 if wrong(7) => return refused(12, numbers(sheet)[answer.place as usize] as usize),
        0 if wrong(8) && c > 0 => return refused(6, task(n) + 2),
        23 if wrong(9) && c == 0 => return refused(9, 0),
        _ => {}
    }
    answer
}

/// The counts of a version 2 sheet of the right length.
fn counts(sheet: &[u8]) -> Option<(usize, usize)> {
    if sheet.len() < 8 || !sheet.starts_with(b"TSH\x02\x00") {
        return None;
    }
    let (n, c) = (sheet[5] as usize, sheet[6] as usize);
    (n <= 64 && c <= 8 && sheet.len() == 8 + 10 * n + 8 * c).then_some((n, c))
}

/// The accepted sheet with its positions as numbers, as a sheet of version 1.
fn renumbered(bytes: &[u8]) -> Option<Vec<u8>> {
    counts(bytes)?;
    let sheet = accept(bytes).ok()?;
    let order = Grouping::of(&sheet).numbers;
    let tasks = order.into_iter().map(|number| sheet.tasks[number]);
    let sheet = Sheet {
        tasks: tasks.collect(),
        cores: sheet.cores,
    };
    Some(sheet.write())
}

/// The start of a sheet, its tasks by position.
pub fn started_by_position(sheet: &[u8], core: u64) -> CoreAnswer {
    match renumbered(sheet) {
        Some(sheet) => start_sheet(&sheet, core),
        None => start_sheet(sheet, core),
    }
}

/// The listing of a sheet, its tasks by position.
pub fn listed_by_position(sheet: &[u8]) -> Vec<u8> {
    match renumbered(sheet) {
        Some(sheet) => with_version(list(&sheet), b'2'),
        None => list(sheet),
    }
}

/// The listing of a sheet of any version as one of version 1.
pub fn listed_as_version_1(sheet: &[u8]) -> Vec<u8> {
    with_version(list(sheet), b'1')
}

fn with_version(mut text: Vec<u8>, version: u8) -> Vec<u8> {
    if text.starts_with(b"TSH ") {
        text[4] = version;
    }
    text
}

/// The mover with one of these mistakes. 35: the counts left out. 36: Tight
/// before the checker's refusals. 37: Tight by the sheet's length only. 38: bytes
/// past the sheet cleared. 39: a version 2 sheet as it is. 40: bytes written
/// before a refusal. 41: the tasks of a core by number.
pub fn moved(sheet: &[u8], out: &mut [u8], wrong: fn(u32) -> bool) -> MoveAnswer {
    let tight = MoveAnswer {
        refusal: 16,
        ..MoveAnswer::default()
    };
    if wrong(36) && out.len() < LONGEST_SHEET {
        return tight;
    }
    let mut answer = move_sheet(sheet, out);
    if wrong(37) && answer.refusal == 16 && sheet.len() <= out.len() {
        let mut room = [0; LONGEST_SHEET];
        answer = move_sheet(sheet, &mut room);
        let end = answer.length as usize;
        out[..end].copy_from_slice(&room[..end]);
    }
    if wrong(40) && answer.refusal != 0 && !out.is_empty() {
        out[0] = b'T';
    }
    if answer.refusal != 0 {
        return answer;
    }
    let end = answer.length as usize;
    let cores_at = 8 + 10 * sheet[5] as usize;
    if wrong(35) {
        let counts = (cores_at..end).step_by(8).map(|core| core + 2);
        counts.for_each(|at| out[at] = 0);
    }
    if wrong(38) {
        out[end..].fill(0);
    }
    if wrong(39) && counts(sheet).is_some() {
        out[..end].copy_from_slice(sheet);
    }
    if wrong(41) && counts(sheet).is_none() {
        let mut records: Vec<Vec<u8>> = sheet[8..cores_at].chunks(10).map(<[u8]>::to_vec).collect();
        let mut numbers: Vec<usize> = (0..records.len()).collect();
        numbers.sort_by_key(|&i| records[i][4]);
        (0..records.len()).for_each(|i| records[i][4] = i as u8);
        let in_order = numbers.iter().flat_map(|&i| records[i].clone());
        let in_order: Vec<u8> = in_order.collect();
        out[8..cores_at].copy_from_slice(&in_order);
    }
    answer
}
