use core::fmt;

use crate::{check, Refusal, SHEET_MAX};

/// A sheet that was accepted: every core of it fits. It is made by [`Sheet::check`], by [`plan`](crate::plan) and by
/// [`move_sheet`](crate::move_sheet) only.
#[derive(Clone, PartialEq, Eq, Hash)]
pub struct Sheet {
    /// Zeros past the length.
    bytes: [u8; SHEET_MAX],
    length: usize,
}

/// A task of a sheet.
#[derive(Clone, Copy, Debug, PartialEq, Eq, Hash)]
#[non_exhaustive]
pub struct SheetTask {
    /// Its number: its position in the sheet of version 1, from 0.
    pub number: u8,
    /// Ticks from one release to the next, at least.
    pub period: u16,
    /// Ticks that a job of it needs, at most.
    pub budget: u16,
    /// The number of its core.
    pub core: u8,
    /// Its stroke length: once a job of it has a tick, it keeps the core for so many ticks in all, or until it ends. 1 in versions 1
    /// and 2.
    pub stroke: u8,
    /// Its factor M.
    pub factor: u32,
    /// Ticks after its release by which a job has ended, at the latest: the whole part of Q × M / D.
    pub within: u16,
}

/// A core of a sheet.
#[derive(Clone, Copy, Debug, PartialEq, Eq, Hash)]
#[non_exhaustive]
pub struct SheetCore {
    /// Its number: its position in the sheet, from 0.
    pub number: u8,
    /// Its pivot period Q.
    pub pivot: u16,
    /// Its divisor D.
    pub divisor: u32,
    /// Its load in thousandths, rounded up: 1 to 1000. At 1000 it may still be below one, by less than a thousandth. Strokes are not in it.
    pub load: u16,
}

impl Sheet {
    /// Checks bytes, and copies them where they are accepted.
    ///
    /// # Errors
    ///
    /// As [`check`].
    pub fn check(bytes: &[u8]) -> Result<Sheet, Refusal> {
        check(bytes)?;
        let mut sheet = Sheet {
            bytes: [0; SHEET_MAX],
            length: bytes.len(),
        };
        match sheet.bytes.get_mut(..bytes.len()) {
            Some(room) => room.copy_from_slice(bytes),
            // only a library of another version accepts so many bytes: no sheet has them (5, Length)
            None => return Err(Refusal::of(5, 0)),
        }
        Ok(sheet)
    }

    /// The sheet at the front of bytes, where zeros follow it.
    pub(crate) fn accepted(bytes: [u8; SHEET_MAX], length: u16) -> Sheet {
        let length = usize::from(length).min(SHEET_MAX);
        Sheet { bytes, length }
    }

    /// The bytes of the sheet.
    #[must_use]
    pub fn as_bytes(&self) -> &[u8] {
        &self.bytes[..self.length]
    }

    /// The version of the sheet: 1, 2 or 3.
    #[must_use]
    pub fn version(&self) -> u8 {
        self.byte(3)
    }

    /// The tasks by number, in every version.
    #[must_use]
    pub fn tasks(
        &self,
    ) -> impl ExactSizeIterator<Item = SheetTask> + DoubleEndedIterator + Clone + '_ {
        (0..self.task_count()).map(|number| self.task(number))
    }

    /// The cores by number.
    #[must_use]
    pub fn cores(
        &self,
    ) -> impl ExactSizeIterator<Item = SheetCore> + DoubleEndedIterator + Clone + '_ {
        (0..self.byte(6)).map(|number| self.core(number))
    }

    // On an accepted sheet Q and every period are 1 to 60,000, D and every factor 1 to 120,000. So no divisor below is 0, and Q × M,
    // Q × L and e × D are at most 7,200,000,000. Acceleration (Q × M ≤ p × D) makes `within` at most the period, and the exact load is
    // at most Q × L, each of its terms the more so. A thousand times that is far below 2^64, and the thousandths are at most 1000.

    fn task(&self, number: u8) -> SheetTask {
        self.at(match self.version() {
            // each number is there once
            2 => (0..self.task_count())
                .find(|&position| self.byte(8 + 10 * usize::from(position) + 4) == number)
                .unwrap_or(0),
            _ => number,
        })
    }

    /// The task at a position.
    fn at(&self, position: u8) -> SheetTask {
        let at = 8 + 10 * usize::from(position);
        let (number, core) = match self.version() {
            2 => (self.byte(at + 4), self.core_of(position)),
            _ => (position, self.byte(at + 4)),
        };
        let stroke = match self.version() {
            3 => self.byte(at + 5),
            _ => 1,
        };
        let factor = self.long(at + 6);
        let within =
            u64::from(self.pivot(core)) * u64::from(factor) / u64::from(self.divisor(core));
        SheetTask {
            number,
            period: self.word(at),
            budget: self.word(at + 2),
            core,
            stroke,
            factor,
            within: within as u16,
        }
    }

    /// The core of a position of version 2: the counts add up to the number of tasks.
    fn core_of(&self, position: u8) -> u8 {
        let mut end = 0;
        (0..self.byte(6))
            .find(|&core| {
                end += usize::from(self.byte(self.core_offset(core) + 2));
                usize::from(position) < end
            })
            .unwrap_or(0)
    }

    fn core(&self, number: u8) -> SheetCore {
        let (pivot, divisor) = (self.pivot(number), self.divisor(number));
        let own = (0..self.task_count())
            .map(|position| self.at(position))
            .filter(|task| task.core == number);
        // each factor is a multiple of the one before it by priority: the last one is the largest
        let last = own.clone().map(|task| task.factor).max().unwrap_or(1);
        let load: u64 = own
            .map(|task| u64::from(task.budget) * u64::from(divisor) * u64::from(last / task.factor))
            .sum();
        let full = u64::from(pivot) * u64::from(last);
        SheetCore {
            number,
            pivot,
            divisor,
            load: (1000 * load).div_ceil(full) as u16,
        }
    }

    fn task_count(&self) -> u8 {
        self.byte(5)
    }

    fn pivot(&self, core: u8) -> u16 {
        self.word(self.core_offset(core))
    }

    fn divisor(&self, core: u8) -> u32 {
        self.long(self.core_offset(core) + 4)
    }

    fn core_offset(&self, core: u8) -> usize {
        8 + 10 * usize::from(self.task_count()) + 8 * usize::from(core)
    }

    fn byte(&self, at: usize) -> u8 {
        self.bytes.get(at).copied().unwrap_or(0)
    }

    fn word(&self, at: usize) -> u16 {
        u16::from_le_bytes([self.byte(at), self.byte(at + 1)])
    }

    fn long(&self, at: usize) -> u32 {
        u32::from(self.word(at)) + 65_536 * u32::from(self.word(at + 2))
    }
}

impl TryFrom<&[u8]> for Sheet {
    type Error = Refusal;

    /// As [`Sheet::check`].
    fn try_from(bytes: &[u8]) -> Result<Sheet, Refusal> {
        Sheet::check(bytes)
    }
}

impl AsRef<[u8]> for Sheet {
    fn as_ref(&self) -> &[u8] {
        self.as_bytes()
    }
}

impl fmt::Debug for Sheet {
    fn fmt(&self, f: &mut fmt::Formatter<'_>) -> fmt::Result {
        f.debug_tuple("Sheet").field(&self.as_bytes()).finish()
    }
}
