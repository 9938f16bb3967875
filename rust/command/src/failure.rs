//! How the command ends.

/// The exit status.
pub const WELL: u8 = 0;
pub const REFUSED: u8 = 1;
pub const FAILED: u8 = 2;

/// Why a command ends before its work is done: a sentence, and the exit status.
#[derive(Debug, PartialEq, Eq)]
pub struct Failure {
    pub status: u8,
    pub text: String,
}

impl Failure {
    /// Wrong use, or something that cannot be read or written.
    pub fn new(text: impl Into<String>) -> Failure {
        Failure {
            status: FAILED,
            text: text.into(),
        }
    }

    /// A sheet or a list that is refused.
    pub fn refused(text: impl Into<String>) -> Failure {
        Failure {
            status: REFUSED,
            text: text.into(),
        }
    }
}

/// What a command answers: its exit status, or why it ended early.
pub type Outcome = Result<u8, Failure>;
