//! A text that nobody edits: its segments by a table, found where the text is.
use crate::error::{checked, Error};
use crate::Table;
use rbbi_sys::rbbi_handle;
use std::ptr;

/// How many segments one call of the library gives.
const ROOM: usize = 512;

/// A segment of a text: where it begins and ends, in bytes, and the largest status of its end.
#[derive(Clone, Copy, Debug, PartialEq, Eq)]
pub struct Span {
    /// Where it begins.
    pub start: usize,
    /// Where it ends.
    pub end: usize,
    /// The largest status of its end.
    pub status: u32,
}

/// The segments of a text, or its words alone, in order. After an error nothing follows.
///
/// It refuses `Answer` with `RBBI_NOT_UTF8` where a search reads bytes that aren't UTF-8, `TooLong`
/// where one reads more than 16,777,216 characters, and `Memory`: each after all segments before that
/// search.
#[derive(Debug)]
pub struct Spans<'a> {
    table: &'a Table,
    text: &'a [u8],
    is_words: bool,
    starts: Box<[u64; ROOM]>,
    ends: Box<[u64; ROOM]>,
    statuses: Box<[u32; ROOM]>,
    next: usize,
    count: usize,
    /// Where the last segment that was given ends, if all are given.
    last: usize,
    resume: u64,
    /// What the last call answered.
    answer: Result<bool, Error>,
}

impl<'a> Spans<'a> {
    pub(crate) fn new(table: &'a Table, text: &'a [u8], is_words: bool) -> Spans<'a> {
        Spans {
            table,
            text,
            is_words,
            starts: Box::new([0; ROOM]),
            ends: Box::new([0; ROOM]),
            statuses: Box::new([0; ROOM]),
            next: 0,
            count: 0,
            last: 0,
            resume: 0,
            answer: Ok(!text.is_empty()),
        }
    }

    /// Asks for more segments. Whether there may be still more.
    fn fill(&mut self) -> Result<bool, Error> {
        let (handle, text): (*mut rbbi_handle, _) =
            (self.table.handle(), self.text.as_ptr().cast());
        let (ends, statuses) = (self.ends.as_mut_ptr(), self.statuses.as_mut_ptr());
        let (count, from) = (&mut self.count, self.resume);
        let resume = ptr::addr_of_mut!(self.resume);
        // SAFETY: a live text of this length, and rooms for so many; several threads may pass the handle.
        let answer = unsafe {
            let length = self.text.len();
            if self.is_words {
                let starts = self.starts.as_mut_ptr();
                rbbi_sys::rbbi_words(
                    handle, text, length, from, starts, ends, statuses, ROOM, count, resume,
                )
            } else {
                rbbi_sys::rbbi_breaks(
                    handle, text, length, from, ends, statuses, ROOM, count, resume,
                )
            }
        };
        self.next = 0;
        if answer == rbbi_sys::RBBI_ROOM {
            return Ok(true);
        }
        checked(answer).map(|()| false)
    }
}

impl Iterator for Spans<'_> {
    type Item = Result<Span, Error>;

    fn next(&mut self) -> Option<Result<Span, Error>> {
        while self.next == self.count {
            match std::mem::replace(&mut self.answer, Ok(false)) {
                Ok(true) => self.answer = self.fill(),
                Ok(false) => return None,
                Err(error) => return Some(Err(error)),
            }
        }
        let at = self.next;
        self.next += 1;
        let end = self.ends[at] as usize;
        let start = if self.is_words {
            self.starts[at] as usize
        } else {
            self.last
        };
        self.last = end;
        Some(Ok(Span {
            start,
            end,
            status: self.statuses[at],
        }))
    }
}
