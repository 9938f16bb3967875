use core::error::Error;
use core::fmt;

/// Why a call was refused: a word, which has a number, and a place.
///
/// Shown as text it is one line, such as
/// `refused 14 (Overload) at core 0: the core has more work than time`.
#[derive(Clone, Copy, Debug, PartialEq, Eq, Hash)]
pub struct Refusal {
    /// Which rule is broken.
    pub word: Word,
    /// Where it is broken first.
    pub place: Place,
}

/// Where a rule is broken. [`Place::number`] is the place as the library and the listing give it.
#[derive(Clone, Copy, Debug, PartialEq, Eq, Hash)]
#[non_exhaustive]
pub enum Place {
    /// No single place; number 0.
    Whole,
    /// A task, by its number; in a refused sheet of version 2 by its position.
    Task(u8),
    /// A core, by its number; 64 more in [`Place::number`].
    Core(u8),
    /// A byte of the sheet, by its offset.
    Offset(u16),
    /// A core of a row, by its position, from 0; from [`tick_row`](crate::tick_row) alone.
    Row(usize),
    /// A place that this crate cannot read, as the library gave it. It comes with a library of another version only.
    Other(u64),
}

impl Place {
    /// The place as a number: a task number or position, 64 plus a core number, a byte offset, a row position, or 0.
    #[must_use]
    pub const fn number(self) -> u64 {
        match self {
            Place::Whole => 0,
            Place::Task(task) => task as u64,
            Place::Core(core) => 64 + core as u64,
            Place::Offset(offset) => offset as u64,
            Place::Row(position) => position as u64,
            Place::Other(number) => number,
        }
    }
}

/// What the place of a word is.
enum Kind {
    Whole,
    Task,
    Core,
    TaskOrCore,
    Offset,
    Row,
    Unknown,
}

impl Kind {
    fn place(self, number: u64) -> Place {
        match (self, number) {
            (Kind::Whole, 0) => Place::Whole,
            (Kind::Offset, 0..=0xFFFF) => Place::Offset(number as u16),
            (Kind::Task | Kind::TaskOrCore, 0..=63) => Place::Task(number as u8),
            (Kind::Core | Kind::TaskOrCore, 64..=71) => Place::Core((number - 64) as u8),
            (Kind::Row, _) => usize::try_from(number).map_or(Place::Other(number), Place::Row),
            _ => Place::Other(number),
        }
    }
}

macro_rules! words {
    ($($number:literal $word:ident $name:literal $kind:ident $text:literal)+) => {
        /// The word of a refusal: the rule that is broken. `docs/SHEET.md`, section 9, has the table.
        #[derive(Clone, Copy, Debug, PartialEq, Eq, Hash)]
        #[non_exhaustive]
        pub enum Word {
            $(#[doc = concat!($number, " ", $name, ": ", $text, ".")] $word,)+
            /// A number that this crate does not know. It comes with a library of another version only.
            Other(u8),
        }

        impl Word {
            const fn of(number: u8) -> Word {
                match number {
                    $($number => Word::$word,)+
                    _ => Word::Other(number),
                }
            }

            /// The number of the word, 1 to 25.
            #[must_use]
            pub const fn number(self) -> u8 {
                match self {
                    $(Word::$word => $number,)+
                    Word::Other(number) => number,
                }
            }

            /// The word itself, such as `No fit`.
            #[must_use]
            pub const fn name(self) -> &'static str {
                match self {
                    $(Word::$word => $name,)+
                    Word::Other(_) => "unknown",
                }
            }

            /// What the word says, such as `the core has more work than time`.
            #[must_use]
            pub const fn text(self) -> &'static str {
                match self {
                    $(Word::$word => $text,)+
                    Word::Other(_) => "the library is of another version",
                }
            }

            const fn kind(self) -> Kind {
                match self {
                    $(Word::$word => Kind::$kind,)+
                    Word::Other(_) => Kind::Unknown,
                }
            }
        }
    };
}

words! {
    1 Stub "Stub" Whole "there are fewer than 8 bytes"
    2 Mark "Mark" Whole "the bytes do not begin with T S H"
    3 Version "Version" Whole "the version is not 1, 2 or 3, or it is 3 and the sheet was to be moved"
    4 Count "Count" Whole "there are over 64 tasks, over 8 cores or a core limit above 8"
    5 Length "Length" Whole "the length is not the one that the counts give"
    6 Spare "Spare" Offset "a spare byte is not zero"
    7 Period "Period" Task "the period is not 1 to 60,000"
    8 Budget "Budget" Task "the budget is 0 or above the period"
    9 Core "Core" Task "there is no such core"
    10 Bare "Bare" Core "the core has no task"
    11 Factor "Factor" TaskOrCore "a factor or divisor is not 1 to 120,000, or a pivot not 1 to 60,000"
    12 Stretch "Stretch" Task "the accelerated period is longer than the period"
    13 Chain "Chain" Task "the factor is no multiple of the one before it by priority"
    14 Overload "Overload" Core "the core has more work than time"
    15 NoFit "No fit" Task "the planner finds no core for the task"
    16 Tight "Tight" Whole "the output is too short"
    17 Unlisted "Unlisted" Whole "the core or the job list has no such task"
    18 Early "Early" Task "fewer ticks than its period since the task's last release"
    19 Late "Late" Task "the task's last job is still pending"
    20 Quiet "Quiet" Task "the task has no pending job"
    21 Foreign "Foreign" Whole "the state is damaged"
    22 Start "Start" Whole "the start is no position in the ring"
    23 Order "Order" Whole "the old numbers, the task counts or the order of a core's tasks are wrong"
    24 Row "Row" Whole "there are fewer answer bytes than core states"
    25 Stroke "Stroke" Task "the stroke length is 0 or above the budget"
}

impl Refusal {
    pub(crate) fn of(number: u8, place: u16) -> Refusal {
        let word = Word::of(number);
        Refusal {
            word,
            place: word.kind().place(u64::from(place)),
        }
    }

    /// A refusal of a row, where the place of a damaged state is its row position.
    pub(crate) fn of_row(number: u8, place: u64) -> Refusal {
        let word = Word::of(number);
        let kind = match word {
            Word::Foreign => Kind::Row,
            _ => word.kind(),
        };
        Refusal {
            word,
            place: kind.place(place),
        }
    }

    /// The refusal of an answer, if its number is not 0.
    pub(crate) fn unless_zero(number: u8, place: u16) -> Result<(), Refusal> {
        match number {
            0 => Ok(()),
            _ => Err(Refusal::of(number, place)),
        }
    }

    /// The number of the word, 1 to 25. The place's is [`Place::number`].
    #[must_use]
    pub const fn number(self) -> u8 {
        self.word.number()
    }
}

impl fmt::Display for Refusal {
    fn fmt(&self, f: &mut fmt::Formatter<'_>) -> fmt::Result {
        write!(f, "refused {} ({})", self.number(), self.word.name())?;
        match self.place {
            Place::Whole => {}
            Place::Task(task) => write!(f, " at task {task}")?,
            Place::Core(core) => write!(f, " at core {core}")?,
            Place::Offset(offset) => write!(f, " at byte {offset}")?,
            Place::Row(position) => write!(f, " at row position {position}")?,
            Place::Other(number) => write!(f, " at place {number}")?,
        }
        write!(f, ": {}", self.word.text())
    }
}

impl Error for Refusal {}

#[cfg(test)]
mod tests {
    use super::*;
    use std::string::ToString;

    #[test]
    fn every_number_and_place_of_any_library_is_kept() {
        for number in 1..=255 {
            for place in 0..=u16::MAX {
                let refusal = Refusal::of(number, place);
                let kept = (refusal.number(), refusal.place.number());
                assert_eq!(kept, (number, u64::from(place)));
            }
            for place in [0, 1, 63, 64, 72, 65_535, 65_536, u64::MAX] {
                let refusal = Refusal::of_row(number, place);
                assert_eq!((refusal.number(), refusal.place.number()), (number, place));
            }
            let known = !matches!(Word::of(number), Word::Other(_));
            assert_eq!(known, number <= 25);
        }
        assert_eq!(Refusal::unless_zero(0, 0), Ok(()));
    }

    #[test]
    fn what_only_another_library_gives_is_shown_as_it_came() {
        assert_eq!(
            Refusal::of(26, 70).to_string(),
            "refused 26 (unknown) at place 70: the library is of another version"
        );
        assert_eq!(Refusal::of(1, 70).place, Place::Other(70));
        assert_eq!(Refusal::of(23, 1).place, Place::Other(1));
        assert_eq!(Refusal::of(7, 64).place, Place::Other(64));
        assert_eq!(Refusal::of(25, 64).place, Place::Other(64));
        assert_eq!(Refusal::of(14, 72).place, Place::Other(72));
        assert_eq!(Refusal::of(14, 63).place, Place::Other(63));
        assert_eq!(Refusal::of(21, 1).place, Place::Other(1));
        assert_eq!(Refusal::of_row(24, 1).place, Place::Other(1));
        assert_eq!(Refusal::of_row(6, 65_536).place, Place::Other(65_536));
    }

    #[test]
    fn a_damaged_state_of_a_row_is_at_its_position() {
        assert_eq!(Refusal::of(21, 0).place, Place::Whole);
        assert_eq!(Refusal::of_row(21, 0).place, Place::Row(0));
        assert_eq!(Refusal::of_row(21, 65_536).place, Place::Row(65_536));
        assert_eq!(Refusal::of_row(24, 0).place, Place::Whole);
        assert_eq!(
            Refusal::of_row(21, 3).to_string(),
            "refused 21 (Foreign) at row position 3: the state is damaged"
        );
    }
}
