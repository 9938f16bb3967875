//! Sheets of all versions: the checker, and whatever else reads a sheet.

use crate::order::{Grouped, REASONS};
use crate::session::{fail, hex, same, Kind, Session};
use crate::stroked::{self, Stroked};
use inputs::*;
use reference::CheckAnswer;

/// Rules 1 to 14 of version 1 at their places.
pub const RULES: [Kind; 18] = [
    (1, "place 0"),
    (2, "place 0"),
    (3, "place 0"),
    (4, "place 0"),
    (5, "place 0"),
    (6, "a byte"),
    (7, "a task above 0"),
    (8, "a task above 0"),
    (9, "a task above 0"),
    (10, "core 0"),
    (10, "a core above 0"),
    (11, "a task above 0"),
    (11, "core 0"),
    (11, "a core above 0"),
    (12, "a task above 0"),
    (13, "a task above 0"),
    (14, "core 0"),
    (14, "a core above 0"),
];

/// The rules of version 2 at their places, after those of the header.
pub const GROUPED_RULES: [Kind; 13] = [
    (6, "a byte"),
    (7, "a task above 0"),
    (8, "a task above 0"),
    (23, "place 0"),
    (10, "core 0"),
    (10, "a core above 0"),
    (11, "a task above 0"),
    (11, "core 0"),
    (11, "a core above 0"),
    (12, "a task above 0"),
    (13, "a task above 0"),
    (14, "core 0"),
    (14, "a core above 0"),
];

/// The rules of version 3 at their places, after those of the header.
pub const STROKE_RULES: [Kind; 14] = [
    (6, "a byte"),
    (7, "a task above 0"),
    (8, "a task above 0"),
    (25, "a task above 0"),
    (9, "a task above 0"),
    (10, "core 0"),
    (10, "a core above 0"),
    (11, "a task above 0"),
    (11, "core 0"),
    (11, "a core above 0"),
    (12, "a task above 0"),
    (13, "a task above 0"),
    (14, "core 0"),
    (14, "a core above 0"),
];

const NO_NUMBER: &str = "a position that is not its task's number";
const FIRST_POSITION: &str = "the first position, and not that of the lowest number";
const NO_ORDER: &str = "a sheet that is out of order too";
const STROKE_BEFORE: &str = "a stroke out of range of an earlier task too";
const CORE_BEFORE: &str = "a missing core of an earlier task too";
const BY_STROKES: &str = "no load above one, but too long a stroke";
const LOWER_CORE: &str = "a core before that whose load is above one";
const SHORT: &str = "tasks with strokes of one tick only";
const DELAYS: &str = "a stroke of several ticks below another task";
const NO_MORE: &str = "no room for strokes that are one tick longer";

pub fn must_have_seen(session: &Session) {
    let accepted = [(0, "no core"), (0, "one core"), (0, "cores")];
    session.must_have_seen("check", &RULES);
    session.must_have_seen("check", &accepted);
    session.must_have_seen("check of version 2", &GROUPED_RULES);
    session.must_have_seen("check of version 2", &accepted);
    session.must_have_seen("check of version 2", &REASONS);
    session.must_have_seen(
        "check of version 2",
        &[(6, NO_ORDER), (7, NO_ORDER), (8, NO_ORDER)],
    );
    session.must_have_seen("check of version 3", &STROKE_RULES);
    session.must_have_seen("check of version 3", &accepted);
    session.must_have_seen("check of version 3", &stroked::REASONS);
    session.must_have_seen(
        "check of version 3",
        &[(6, STROKE_BEFORE), (7, STROKE_BEFORE), (8, STROKE_BEFORE)],
    );
    session.must_have_seen(
        "check of version 3",
        &[(25, CORE_BEFORE), (14, BY_STROKES), (14, LOWER_CORE)],
    );
    session.must_have_seen(
        "check of version 3",
        &[(0, SHORT), (0, DELAYS), (0, NO_MORE)],
    );
    for rule in [7, 8, 11, 12, 13] {
        session.must_have_seen("check of version 2", &[(rule, NO_NUMBER)]);
    }
    for rule in [8, 11, 12] {
        session.must_have_seen("check of version 2", &[(rule, FIRST_POSITION)]);
    }
}

pub fn round(session: &mut Session, rng: &mut Rng) {
    for length in 0..=800 {
        let bytes = random_bytes(rng, length);
        sheet(session, rng, &bytes);
    }
    for turn in 0..48 {
        let bytes = match turn % 6 {
            0 => planned_sheet(rng),
            1..4 => handmade_sheet(rng),
            _ => likely_sheet(rng),
        };
        sheet(session, rng, &bytes);
        for kind in 0..SHEET_DAMAGES {
            let damaged = damaged_sheet(rng, &bytes, kind);
            sheet(session, rng, &damaged);
            if let Some(grouped) = regrouped(&damaged) {
                sheet(session, rng, &grouped);
            }
            if let Some(strokes) = with_short_strokes(&damaged) {
                sheet(session, rng, &strokes);
            }
        }
    }
    grouped_round(session, rng);
    stroke_round(session, rng);
}

/// Sheets of version 2.
fn grouped_round(session: &mut Session, rng: &mut Rng) {
    for length in 0..=800 {
        let bytes = random_grouped(rng, length);
        sheet(session, rng, &bytes);
    }
    for turn in 0..48 {
        let bytes = match turn % 6 {
            0..4 => grouped_sheet(rng),
            _ => likely_grouped(rng),
        };
        sheet(session, rng, &bytes);
        for kind in 0..GROUPED_DAMAGES {
            let damaged = damaged_grouped(rng, &bytes, kind);
            sheet(session, rng, &damaged);
        }
    }
}

/// Sheets of version 3.
fn stroke_round(session: &mut Session, rng: &mut Rng) {
    for length in 0..=800 {
        let bytes = random_strokes(rng, length);
        sheet(session, rng, &bytes);
    }
    for turn in 0..48 {
        let bytes = match turn % 6 {
            0..4 => stroke_sheet(rng),
            _ => likely_strokes(rng),
        };
        sheet(session, rng, &bytes);
        for kind in 0..STROKE_DAMAGES {
            let damaged = damaged_strokes(rng, &bytes, kind);
            sheet(session, rng, &damaged);
        }
    }
}

/// Compare all calls that read a sheet on these bytes.
fn sheet(session: &mut Session, rng: &mut Rng, bytes: &[u8]) {
    check(session, bytes);
    crate::dispatching::start(session, rng, bytes);
    crate::listing::list(session, rng, bytes);
    crate::moving::move_sheet(session, rng, bytes);
}

/// Compare the checker on these bytes.
pub fn check(session: &mut Session, bytes: &[u8]) -> CheckAnswer {
    let (reference, library) = (reference::check(bytes), binding::check(bytes));
    same("check", || hex(bytes), &reference, &library);
    let accepted = count_of_cores(reference.cores);
    session.case("check", reference.refusal, reference.place, accepted);
    if let Some(grouped) = Grouped::of(bytes) {
        grouped_check(session, bytes, &grouped, &library);
    }
    if let Some(stroked) = Stroked::of(bytes) {
        stroked_check(session, bytes, &stroked, &library);
    }
    library
}

/// The law of version 2: in order the refusal is that of the version 1 sheet,
/// and out of order it is 23 where 6, 7 and 8 do not apply.
fn grouped_check(session: &mut Session, bytes: &[u8], grouped: &Grouped, library: &CheckAnswer) {
    let call = "check of version 2";
    let (refusal, place) = (library.refusal, library.place as usize);
    session.case(call, refusal, library.place, count_of_cores(library.cores));
    let on_a_task = matches!(refusal, 7 | 8 | 11 | 12 | 13) && place < 64;
    if on_a_task && grouped.number(place) != place {
        session.saw(call, (refusal, NO_NUMBER));
    }
    let reasons = grouped.reasons();
    if reasons.is_empty() {
        let sheet = grouped.by_number();
        let by_number = binding::check(&sheet);
        let input = || format!("{} version 1 {}", hex(bytes), hex(&sheet));
        same(call, input, &by_number.refusal, &refusal);
        if on_a_task && grouped.number(place) != by_number.place as usize {
            session.saw(call, (refusal, FIRST_POSITION));
        }
    } else {
        same(
            call,
            || hex(bytes),
            &true,
            &matches!(refusal, 6 | 7 | 8 | 23),
        );
        match reasons[..] {
            [reason] if refusal == 23 => session.saw(call, (23, reason)),
            _ => session.saw(call, (refusal, NO_ORDER)),
        }
    }
}

/// The law of version 3: the answer is that of the version 1 sheet, but that 25
/// stands after 8, and that strokes may add 14 where no other refusal applies
/// or 14 does.
fn stroked_check(session: &mut Session, bytes: &[u8], stroked: &Stroked, library: &CheckAnswer) {
    let call = "check of version 3";
    let (refusal, place) = (library.refusal, library.place as usize);
    session.case(call, refusal, library.place, count_of_cores(library.cores));
    let sheet = stroked.by_version_1();
    let plain = binding::check(&sheet);
    let out_of_range = stroked.out_of_range();
    let input = || format!("{} version 1 {}", hex(bytes), hex(&sheet));
    let by_strokes = refusal == 14 && !stroked.only_short();
    match (plain.refusal, out_of_range) {
        (0 | 9.., Some((task, reason))) => {
            same(call, input, &(25, task), &(refusal, place));
            session.saw(call, (25, reason));
            if stroked.misplaced_before(task) {
                session.saw(call, (25, CORE_BEFORE));
            }
        }
        (0, None) if by_strokes => session.saw(call, (14, BY_STROKES)),
        (14, None) if by_strokes => {
            if place > plain.place as usize {
                fail(call, &input(), "the place is above that of version 1");
            }
            if place < plain.place as usize {
                session.saw(call, (14, LOWER_CORE));
            }
        }
        _ => same(call, input, &plain, library),
    }
    let before = |&(task, _): &(usize, &str)| refusal == 6 || task < place;
    if matches!(refusal, 6..=8) && out_of_range.as_ref().is_some_and(before) {
        session.saw(call, (refusal, STROKE_BEFORE));
    }
    if refusal == 0 {
        kinds_of_strokes(session, call, bytes, stroked);
    }
}

fn kinds_of_strokes(session: &mut Session, call: &'static str, bytes: &[u8], stroked: &Stroked) {
    let mut sheet = reference::accept(bytes).expect("the sheet is accepted");
    if sheet.tasks.is_empty() {
        return;
    }
    if stroked.only_short() {
        session.saw(call, (0, SHORT));
    } else if (0..sheet.tasks.len()).any(|i| sheet.blocking(i) > 0) {
        session.saw(call, (0, DELAYS));
        sheet.tasks.iter_mut().for_each(|task| task.stroke += 1);
        if (0..sheet.cores.len()).any(|core| !sheet.has_room(core)) {
            session.saw(call, (0, NO_MORE));
        }
    }
}

pub fn count_of_cores(cores: u8) -> &'static str {
    match cores {
        0 => "no core",
        1 => "one core",
        _ => "cores",
    }
}
