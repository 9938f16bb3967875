//! What may have happened to a refused sheet: which other header would suit its bytes. Whether it would be accepted with it, the library
//! says.

use super::rules::{Fault, MOST_CORES, MOST_TASKS};
use crate::fields::{Fields, Layout, Version, CORE_SIZE, HEADER_SIZE, TASK_SIZE};
use crate::list::FRONT;

#[derive(Clone, Debug, PartialEq, Eq)]
pub enum Guess {
    /// With the header of this layout the sheet would be accepted.
    Header(Layout),
    /// The bytes before those that are too many would be accepted.
    Front,
    /// With a zero in this spare byte the sheet would be accepted.
    Spare,
    /// Counts that give the length, where the header's do not.
    Counts(Vec<Layout>),
    Nothing,
}

pub fn guess(fields: &Fields, fault: &Fault) -> Guess {
    if let Fault::Version { found: 4..=255 } = fault {
        return Guess::Nothing; // it may be a newer version, whose bytes say something else
    }
    if let Some(layout) = with_other_header(fields) {
        return Guess::Header(layout);
    }
    match fault {
        Fault::Length { layout, .. } if is_accepted(fields.bytes.get(..layout.length())) => {
            Guess::Front
        }
        Fault::Spare { offset, .. } if with_zero(fields, *offset) => Guess::Spare,
        Fault::Count { .. } | Fault::Length { .. } => Guess::Counts(of_this_length(fields)),
        _ => Guess::Nothing,
    }
}

fn is_accepted(bytes: Option<&[u8]>) -> bool {
    bytes.is_some_and(|bytes| homvaits::check(bytes).is_ok())
}

fn with_zero(fields: &Fields, offset: usize) -> bool {
    let mut front = front(fields).to_vec();
    if let Some(byte) = front.get_mut(offset) {
        *byte = 0;
    }
    is_accepted(Some(&front))
}

/// As many bytes as the library needs.
fn front<'a>(fields: &Fields<'a>) -> &'a [u8] {
    &fields.bytes[..fields.bytes.len().min(FRONT)]
}

/// Layouts of the same version that are in range and have the length of the bytes: by the header, or with another number of tasks or of
/// cores than it says.
fn of_this_length(fields: &Fields) -> Vec<Layout> {
    let own = fields.layout;
    let found = fields.bytes.len();
    let task_bytes = own.core_offset(0) - HEADER_SIZE;
    let core_bytes = own.length() - own.core_offset(0);
    let layouts = [
        records(found, core_bytes, TASK_SIZE).map(|tasks| Layout { tasks, ..own }),
        records(found, task_bytes, CORE_SIZE).map(|cores| Layout { cores, ..own }),
    ];
    let mut layouts: Vec<Layout> = layouts.into_iter().flatten().collect();
    // that all tasks are too many is no likely guess
    layouts.retain(|layout| is_in_range(*layout) && (layout.tasks > 0 || *layout == own));
    layouts.dedup(); // where both are the header's own
    layouts
}

/// How many records of a size make up the length, with the header and so many bytes of other records; none if no number of them does.
fn records(length: usize, others: usize, size: usize) -> Option<u8> {
    let room = length.checked_sub(HEADER_SIZE + others)?;
    match room % size {
        0 => u8::try_from(room / size).ok(),
        _ => None,
    }
}

pub fn is_in_range(layout: Layout) -> bool {
    layout.tasks <= MOST_TASKS && layout.cores <= MOST_CORES
}

/// A layout with whose header the sheet would be accepted.
fn with_other_header(fields: &Fields) -> Option<Layout> {
    let records = front(fields).get(HEADER_SIZE..)?;
    let every_version = |layout: Layout| {
        let others = Version::ALL.into_iter();
        let others = others.filter(move |version| *version != layout.version);
        let others = others.map(move |version| Layout { version, ..layout });
        std::iter::once(layout).chain(others)
    };
    let mut layouts = of_this_length(fields).into_iter().flat_map(every_version);
    layouts.find(|layout| is_accepted(Some(&[&header(*layout), records].concat())))
}

fn header(layout: Layout) -> [u8; HEADER_SIZE] {
    let Layout { tasks, cores, .. } = layout;
    let version = layout.version.number();
    [b'T', b'S', b'H', version, 0, tasks, cores, 0]
}

/// The layout by which the records of a refused sheet are shown: one with which it would be accepted; else the header's, but where a count
/// of it is out of range another that suits the length, or as many records as the bytes reach.
pub fn shown(fields: &Fields) -> Layout {
    let own = fields.layout;
    if let Some(layout) = with_other_header(fields) {
        layout
    } else if is_in_range(own) {
        own
    } else {
        let suits = of_this_length(fields).first().copied();
        suits.unwrap_or_else(|| as_far_as_they_go(fields))
    }
}

fn as_far_as_they_go(fields: &Fields) -> Layout {
    let own = fields.layout;
    let reach = |from: usize, size: usize, most: u8| {
        let room = fields.bytes.len().saturating_sub(from);
        u8::try_from(room.div_ceil(size)).map_or(most, |reach| reach.min(most))
    };
    match own.tasks > MOST_TASKS {
        true => Layout {
            tasks: reach(HEADER_SIZE, TASK_SIZE, MOST_TASKS),
            cores: 0, // nobody knows where they stand
            ..own
        },
        false => Layout {
            cores: reach(own.core_offset(0), CORE_SIZE, MOST_CORES),
            ..own
        },
    }
}

#[cfg(test)]
mod tests {
    use super::super::rules::fault;
    use super::super::samples::{changed, Rng, FULL, GROUPED, STROKED};
    use super::*;

    /// The guess of bytes that are refused.
    fn of(bytes: &[u8]) -> Option<Guess> {
        let fields = Fields::new(bytes);
        let refusal = homvaits::check(front(&fields)).err()?;
        Some(guess(&fields, &fault(&fields, refusal)?))
    }

    #[test]
    fn a_damaged_header_is_found() {
        let mut rng = Rng(5);
        for _ in 0..500 {
            let sheet = rng.sheet();
            let layout = Fields::new(&sheet).layout;
            let at = rng.range(0, 7) as usize;
            let bytes = changed(&sheet, &[(at, rng.range(0, 255) as u8)]);
            if homvaits::check(&sheet).is_ok() && layout.tasks > 0 && bytes != sheet {
                let expected = match at == 3 && bytes[3] > 3 {
                    true => Guess::Nothing,
                    false => Guess::Header(layout),
                };
                assert_eq!(of(&bytes), Some(expected), "{bytes:?}");
                assert_eq!(shown(&Fields::new(&bytes)), layout);
            }
        }
    }

    #[test]
    fn what_stands_behind_a_sheet_is_found() {
        for length in [37, 52, 713, 100_000] {
            let mut bytes = FULL.to_vec();
            bytes.resize(length, 0);
            assert_eq!(of(&bytes), Some(Guess::Front));
            assert_eq!(shown(&Fields::new(&bytes)), Fields::new(&FULL).layout);
        }
    }

    #[test]
    fn other_guesses() {
        assert_eq!(of(&FULL[..35]), Some(Guess::Counts(Vec::new())));
        assert_eq!(of(&changed(&FULL, &[(13, 1)])), Some(Guess::Spare));
        assert_eq!(
            of(&changed(&FULL, &[(7, 1), (13, 1)])),
            Some(Guess::Nothing)
        );
        // both would be stroke lengths
        let stroked = Layout {
            version: Version::Strokes,
            ..Fields::new(&FULL).layout
        };
        assert_eq!(
            of(&changed(&FULL, &[(13, 1), (23, 1)])),
            Some(Guess::Header(stroked))
        );
        assert_eq!(of(&changed(&STROKED, &[(23, 0)])), Some(Guess::Nothing));
        assert_eq!(of(&changed(&FULL, &[(20, 8)])), Some(Guess::Nothing));
        // a core's record is cut away: the length is that of one core, but then there is no second one
        let own = Fields::new(&GROUPED).layout;
        let one_core = Layout { cores: 1, ..own };
        assert_eq!(of(&GROUPED[..66]), Some(Guess::Counts(vec![one_core])));
        assert_eq!(shown(&Fields::new(&GROUPED[..66])), own);
        // a header alone is no sheet without tasks
        let header = changed(&FULL[..8], &[(6, 0)]);
        assert_eq!(of(&header), Some(Guess::Counts(Vec::new())));
    }

    #[test]
    fn counts_out_of_range_are_shown_as_far_as_the_bytes_go() {
        let counts = |bytes: &[u8]| {
            let layout = shown(&Fields::new(bytes));
            (layout.tasks, layout.cores)
        };
        let overloaded = changed(&FULL, &[(20, 8)]);
        assert_eq!(counts(&changed(&overloaded, &[(5, 200)])), (2, 1)); // by the length
        assert_eq!(counts(&changed(&overloaded, &[(6, 200)])), (2, 1));
        assert_eq!(counts(&changed(&overloaded, &[(5, 200), (6, 200)])), (3, 0));
        let long = [&overloaded[..], &[0; 5000]].concat();
        assert_eq!(counts(&changed(&long, &[(5, 200)])), (64, 0));
        assert_eq!(counts(&changed(&long, &[(6, 200)])), (2, 8));
        assert_eq!(counts(&changed(&overloaded[..9], &[(6, 200)])), (2, 0));
    }
}
