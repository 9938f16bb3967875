/// An entry of a job list: a task to plan, which needs up to `budget` ticks in each `period`.
#[derive(Clone, Copy, Debug, PartialEq, Eq, Hash)]
pub struct Job {
    /// Ticks from one release to the next, at least: 1 to 60,000.
    pub period: u16,
    /// Ticks that a job needs, at most: 1 to the period.
    pub budget: u16,
}

impl Job {
    /// The entry as it stands in a job list: period and budget, low byte first.
    #[must_use]
    pub const fn to_bytes(self) -> [u8; 4] {
        let [p0, p1] = self.period.to_le_bytes();
        let [e0, e1] = self.budget.to_le_bytes();
        [p0, p1, e0, e1]
    }

    /// The entry that stands in these bytes.
    #[must_use]
    pub const fn from_bytes([p0, p1, e0, e1]: [u8; 4]) -> Job {
        Job {
            period: u16::from_le_bytes([p0, p1]),
            budget: u16::from_le_bytes([e0, e1]),
        }
    }

    pub(crate) fn list(jobs: &[Job]) -> List {
        let mut list = List {
            entries: [[0; 4]; ENTRIES],
            count: jobs.len().min(ENTRIES),
        };
        for (entry, job) in list.entries.iter_mut().zip(jobs) {
            *entry = job.to_bytes();
        }
        list
    }
}

/// One more than the library takes, so that it is the library that refuses a longer list.
const ENTRIES: usize = 65;

/// The first entries of a job list, as bytes.
pub(crate) struct List {
    entries: [[u8; 4]; ENTRIES],
    count: usize,
}

impl List {
    pub(crate) fn as_bytes(&self) -> &[u8] {
        self.entries[..self.count].as_flattened()
    }
}
