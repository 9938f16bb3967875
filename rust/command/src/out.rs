//! Standard output.

use std::io::{self, ErrorKind, Write};

use crate::failure::Failure;
use crate::files::words;

/// Standard output. Once nobody reads it any more, what is written is dropped; any other error is told.
pub struct Out {
    buffer: Vec<u8>,
    closed: bool,
    error: Option<io::Error>,
}

const BUFFER: usize = 1 << 16;

impl Out {
    pub fn new() -> Out {
        Out {
            buffer: Vec::with_capacity(BUFFER),
            closed: false,
            error: None,
        }
    }

    pub fn write(&mut self, bytes: &[u8]) {
        self.buffer.extend_from_slice(bytes);
        if self.buffer.len() >= BUFFER {
            self.flush();
        }
    }

    pub fn line(&mut self, text: &str) {
        self.write(text.as_bytes());
        self.write(b"\n");
    }

    /// Hands on what was written.
    pub fn flush(&mut self) {
        if !self.closed && !self.buffer.is_empty() {
            let mut stdout = io::stdout().lock();
            let result = stdout.write_all(&self.buffer).and_then(|()| stdout.flush());
            if let Err(error) = result {
                self.closed = true;
                self.error = (error.kind() != ErrorKind::BrokenPipe).then_some(error);
            }
        }
        self.buffer.clear();
    }

    /// The end: whether all was written, or nobody wanted it.
    pub fn end(mut self) -> Result<(), Failure> {
        self.flush();
        match self.error {
            Some(error) => Err(Failure::new(format!(
                "homvaits: standard output: {}",
                words(&error)
            ))),
            None => Ok(()),
        }
    }
}
