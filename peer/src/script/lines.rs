//! Lines of any input, in bounded memory.

use std::io::{self, BufRead, ErrorKind};

/// Longest line in bytes, its LF not counted.
pub const LINE_LIMIT: usize = 20_000;

#[derive(Debug, PartialEq, Eq)]
pub enum Line<'a> {
    Whole(&'a [u8]),
    OverLong,
}

pub struct Lines<R> {
    input: R,
    text: Vec<u8>,
    ended: bool,
}

impl<R: BufRead> Lines<R> {
    pub fn new(input: R) -> Lines<R> {
        Lines {
            input,
            text: Vec::with_capacity(LINE_LIMIT),
            ended: false,
        }
    }

    /// The next line without its LF. A last line without LF counts if it is not empty.
    #[allow(clippy::should_implement_trait)]
    pub fn next(&mut self) -> io::Result<Option<Line<'_>>> {
        self.text.clear();
        self.ended = false;
        let mut over_long = false;
        let mut any = false;
        loop {
            let chunk = match self.input.fill_buf() {
                Ok(chunk) => chunk,
                Err(error) if error.kind() == ErrorKind::Interrupted => continue,
                Err(error) => return Err(error),
            };
            if chunk.is_empty() {
                break;
            }
            any = true;
            let end = chunk.iter().position(|&byte| byte == b'\n');
            let part = chunk.get(..end.unwrap_or(chunk.len())).unwrap_or_default();
            over_long = over_long || self.text.len() + part.len() > LINE_LIMIT;
            if !over_long {
                self.text.extend_from_slice(part);
            }
            let used = part.len() + usize::from(end.is_some());
            self.input.consume(used);
            if end.is_some() {
                self.ended = true;
                break;
            }
        }
        Ok(match (any, over_long) {
            (false, _) => None,
            (true, true) => Some(Line::OverLong),
            (true, false) => Some(Line::Whole(&self.text)),
        })
    }

    /// Whether the line told last had its LF.
    pub fn ended(&self) -> bool {
        self.ended
    }
}
