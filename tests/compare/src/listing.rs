//! The listing.

use crate::lent::{same_bytes, Lent};
use crate::session::{hex, same, Session};
use crate::stroked::Stroked;
use inputs::Rng;
use reference::{accept, Fraction, LISTING_ROOM};

pub fn must_have_seen(session: &Session) {
    session.must_have_seen("list", &[(0, VERSION_1), (0, VERSION_2), (0, VERSION_3)]);
    session.must_have_seen("list", &[(0, REFUSED)]);
    session.must_have_seen("list", &[(0, WHOLE), (0, ROUNDED), (0, NEARLY_FULL)]);
    session.must_have_seen("list", &[(16, "place 0")]);
}

const VERSION_1: &str = "an accepted sheet of version 1";
const VERSION_2: &str = "an accepted sheet of version 2";
const VERSION_3: &str = "an accepted sheet of version 3";
const REFUSED: &str = "a refused sheet";
const WHOLE: &str = "a load of whole thousandths, below 1000";
const ROUNDED: &str = "a load rounded up to at most 999";
const NEARLY_FULL: &str = "a load rounded up to 1000";

/// What the listing does to a load below one.
fn rounding(load: Fraction) -> &'static str {
    let thousandths = load.times(1000);
    if thousandths.floor() == thousandths.ceil() {
        WHOLE
    } else if thousandths < Fraction::whole(999) {
        ROUNDED
    } else {
        NEARLY_FULL
    }
}

/// Compare the listing of these bytes, now and then with a small output.
pub fn list(session: &mut Session, rng: &mut Rng, sheet: &[u8]) {
    let small = rng.range(0, 8191);
    let room = rng.pick(&[8192, 8192, 8192, 8193, 9000, 8191, small]) as usize;
    list_into(session, rng, sheet, room);
}

/// The listing of these bytes, compared; nothing where it is refused.
pub fn list_into(session: &mut Session, rng: &mut Rng, bytes: &[u8], room: usize) -> Vec<u8> {
    let mut ours = Lent::new(room, rng.byte());
    let mut theirs = ours.clone();
    let reference = reference::list_into(bytes, ours.lend());
    let library = binding::list_into(bytes, theirs.lend());
    let input = || format!("{} output of {room} bytes", hex(bytes));
    same("list", input, &reference, &library);
    same_bytes("list", input, &ours, &theirs);
    let accepted = accept(bytes);
    let kind = match accepted {
        Ok(_) => match reference::version(bytes) {
            1 => VERSION_1,
            2 => VERSION_2,
            _ => VERSION_3,
        },
        Err(_) => REFUSED,
    };
    session.case("list", reference.refusal, reference.place, kind);
    if let (0, Ok(sheet)) = (reference.refusal, accepted) {
        let loads = (0..sheet.cores.len()).map(|k| sheet.load(k));
        loads
            .filter(|&load| load < Fraction::whole(1))
            .for_each(|load| session.saw("list", (0, rounding(load))));
    }
    let text = theirs.lend()[..library.length as usize].to_vec();
    if let (0, VERSION_3, Some(stroked)) = (library.refusal, kind, Stroked::of(bytes)) {
        stroked_list(session, &stroked, &text, input);
    }
    text
}

/// The listing of a version 3 sheet is that of its version 1 sheet but for the
/// version.
fn stroked_list(session: &mut Session, stroked: &Stroked, text: &[u8], input: impl Fn() -> String) {
    let mut out = [0; LISTING_ROOM];
    let answer = binding::list_into(&stroked.by_version_1(), &mut out);
    // the digit after `TSH `
    out[4] = b'3';
    let plain = &out[..answer.length as usize];
    same("list of version 3", input, &plain, &text);
    session.cases += 1;
}
