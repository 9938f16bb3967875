//! The mover, and a sheet beside its moved sheet.

use crate::checking::{check, GROUPED_RULES, RULES};
use crate::dispatching::start_sheet;
use crate::lent::{same_bytes, Lent};
use crate::listing::list_into;
use crate::session::{hex, same, Session};
use inputs::*;
use reference::MoveAnswer;

pub fn must_have_seen(session: &Session) {
    session.must_have_seen("move", &[(0, FROM_1), (0, FROM_2)]);
    session.must_have_seen("move", &[(0, EMPTY), (0, LONGEST), (0, TIED)]);
    session.must_have_seen("move", &[(16, FROM_1), (16, FROM_2)]);
    session.must_have_seen("move", &RULES);
    session.must_have_seen("move", &GROUPED_RULES);
    session.must_have_seen("move", &[(14, NO_ROOM), (23, NO_ROOM)]);
    session.must_have_seen(
        "move",
        &[(3, FROM_3), (3, NO_ROOM), (3, COUNTS), (3, LENGTH)],
    );
    session.must_have_seen("move", &[(3, REFUSED)]);
}

const FROM_1: &str = "a sheet of version 1";
const FROM_2: &str = "a sheet of version 2";
const FROM_3: &str = "an accepted sheet of version 3";
const COUNTS: &str = "version 3, and counts out of range";
const LENGTH: &str = "version 3, and another length";
const REFUSED: &str = "version 3, and a later refusal of the checker";
const EMPTY: &str = "a sheet without tasks";
const LONGEST: &str = "a sheet of 712 bytes";
const TIED: &str = "a sheet with equal periods on a core";
const NO_ROOM: &str = "a refused sheet, and an output too short";

pub fn round(session: &mut Session, rng: &mut Rng) {
    // outputs of every length, accepted sheets and refused ones
    let (sheet, grouped) = (handmade_sheet(rng), grouped_sheet(rng));
    let strokes = stroke_sheet(rng);
    for room in 0..=800 {
        let kind = rng.index(GROUPED_DAMAGES);
        let damaged = damaged_grouped(rng, &grouped, kind);
        for bytes in [&sheet, &grouped, &damaged, &strokes] {
            move_into(session, rng, bytes, room);
        }
    }
    for version in 1..=3 {
        let bytes = [b'T', b'S', b'H', version, 0, 0, 0, 0];
        move_into(session, rng, &bytes, 712);
    }
    for _ in 0..4 {
        let sheet = longest_sheet(rng);
        move_into(session, rng, &sheet, 712);
        let grouped = regrouped(&sheet).expect("the sheet is accepted");
        move_into(session, rng, &grouped, 712);
    }
}

/// Compare the mover on these bytes, now and then with a small output.
pub fn move_sheet(session: &mut Session, rng: &mut Rng, bytes: &[u8]) {
    let small = rng.range(0, 711);
    let room = rng.pick(&[712, 712, 712, 713, 800, 711, 0, small]) as usize;
    move_into(session, rng, bytes, room);
}

fn move_into(session: &mut Session, rng: &mut Rng, bytes: &[u8], room: usize) {
    let (answer, moved) = compared(session, rng, bytes, room);
    if answer.refusal == 0 {
        kinds_of_sheet(session, bytes);
        beside(session, rng, bytes, &moved);
    }
}

/// The answer and the moved sheet, compared; no bytes where it is refused.
fn compared(
    session: &mut Session,
    rng: &mut Rng,
    bytes: &[u8],
    room: usize,
) -> (MoveAnswer, Vec<u8>) {
    let mut ours = Lent::new(room, rng.byte());
    let mut theirs = ours.clone();
    let reference = reference::move_sheet(bytes, ours.lend());
    let library = binding::move_sheet(bytes, theirs.lend());
    let input = || format!("{} output of {room} bytes", hex(bytes));
    same("move", input, &reference, &library);
    same_bytes("move", input, &ours, &theirs);
    let from = match bytes.get(3) {
        Some(2) => FROM_2,
        _ => FROM_1,
    };
    let (refusal, place) = (reference.refusal, reference.place);
    session.case("move", refusal, place, from);
    match refusal {
        16 => session.saw("move", (16, from)),
        1.. if room < 712 => session.saw("move", (refusal, NO_ROOM)),
        3 if bytes[3..5] == [3, 0] => {
            let kind = match reference::check(bytes).refusal {
                0 => FROM_3,
                4 => COUNTS,
                5 => LENGTH,
                _ => REFUSED,
            };
            session.saw("move", (3, kind));
        }
        _ => {}
    }
    let moved = theirs.lend()[..library.length as usize].to_vec();
    (library, moved)
}

fn kinds_of_sheet(session: &mut Session, bytes: &[u8]) {
    let sheet = reference::accept(bytes).expect("what is moved is accepted");
    if sheet.tasks.is_empty() {
        session.saw("move", (0, EMPTY));
    }
    if bytes.len() == 712 {
        session.saw("move", (0, LONGEST));
    }
    let tied = |core: usize| {
        let order = sheet.by_priority(core);
        let period = |i: usize| sheet.tasks[i].period;
        order
            .windows(2)
            .any(|pair| period(pair[0]) == period(pair[1]))
    };
    if (0..sheet.cores.len()).any(tied) {
        session.saw("move", (0, TIED));
    }
}

/// A sheet and its moved sheet: both accepted, moved back to the same bytes,
/// started alike, and listed alike but for the version.
fn beside(session: &mut Session, rng: &mut Rng, bytes: &[u8], moved: &[u8]) {
    let input = || format!("{} moved {}", hex(bytes), hex(moved));
    let (before, after) = (check(session, bytes), check(session, moved));
    same("check of a moved sheet", input, &before, &after);

    let (answer, back) = compared(session, rng, moved, 712);
    same(
        "move back",
        input,
        &(0, bytes),
        &(answer.refusal, &back[..]),
    );

    for core in (0..=before.cores as u64).chain([u64::MAX]) {
        let mut start = |sheet: &[u8]| start_sheet(session, sheet, core);
        let (before, after) = (start(bytes), start(moved));
        same("start from a moved sheet", input, &before, &after);
    }

    let mut list = |sheet: &[u8]| list_into(session, rng, sheet, 8192);
    let (mut before, after) = (list(bytes), list(moved));
    // the digit after `TSH `
    before[4] = b'1' + b'2' - before[4];
    same("list of a moved sheet", input, &before, &after);
}
