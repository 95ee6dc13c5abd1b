//! Standard output: one reused buffer, written when it has 64 KiB. A quiet one writes nothing; both count.

use crate::stop::Stop;
use crate::text::{push_number, push_q};
use std::fs::File;
use std::io::{self, Write};
use std::os::fd::AsFd;

const FULL: usize = 64 * 1024;

/// How many lines of these kinds there are.
#[derive(Default)]
pub struct Counts {
    pub entries: u64,
    pub puts: u64,
    pub spawns: u64,
    pub events: u64,
    pub found: u64,
}

pub struct Trace {
    pub buffer: Vec<u8>,
    sink: File,
    /// Whether the buffer has to wait for the end of the entry.
    pub hold: bool,
    pub counts: Counts,
    pub quiet: bool,
}

impl Trace {
    pub fn new() -> Result<Trace, Stop> {
        let sink = io::stdout().as_fd().try_clone_to_owned().map_err(|_| Stop::Write)?;
        Ok(Trace { buffer: Vec::with_capacity(FULL + 8 * 1024), sink: sink.into(), hold: false, counts: Counts::default(), quiet: false })
    }

    #[inline]
    pub fn raw(&mut self, text: &[u8]) -> &mut Trace {
        if !self.quiet {
            self.buffer.extend_from_slice(text);
        }
        self
    }

    #[inline]
    pub fn q(&mut self, text: &[u8]) -> &mut Trace {
        if !self.quiet {
            push_q(&mut self.buffer, text);
        }
        self
    }

    #[inline]
    pub fn number(&mut self, number: u64) -> &mut Trace {
        if !self.quiet {
            push_number(&mut self.buffer, number);
        }
        self
    }

    /// Ends a line.
    #[inline]
    pub fn end(&mut self) -> Result<(), Stop> {
        if self.quiet {
            return Ok(());
        }
        self.buffer.push(b'\n');
        if self.buffer.len() >= FULL && !self.hold { self.flush() } else { Ok(()) }
    }

    /// A whole line.
    #[inline]
    pub fn line(&mut self, text: &[u8]) -> Result<(), Stop> {
        self.raw(text).end()
    }

    #[inline]
    pub fn flush_if_full(&mut self) -> Result<(), Stop> {
        if self.buffer.len() >= FULL { self.flush() } else { Ok(()) }
    }

    #[cold]
    pub fn flush(&mut self) -> Result<(), Stop> {
        self.sink.write_all(&self.buffer).map_err(|_| Stop::Write)?;
        self.buffer.clear();
        Ok(())
    }
}
