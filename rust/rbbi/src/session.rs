//! A text with a table and a cursor.
use crate::error::{checked, checked_utf16, with_fault, Error};
use rbbi_sys::{rbbi_change, rbbi_handle, RBBI_INIT, RBBI_OK, RBBI_ROOM};
use std::ffi::c_int;
use std::ops::Range;

/// What places, lengths and numbers of a session count.
#[derive(Clone, Copy, Debug, PartialEq, Eq)]
#[repr(i32)]
pub enum Unit {
    /// Characters: code points.
    Chars = rbbi_sys::RBBI_CHARS,
    /// Bytes of UTF-8, as the places of a `str` do.
    Utf8 = rbbi_sys::RBBI_UTF8,
    /// 16-bit units of UTF-16.
    Utf16 = rbbi_sys::RBBI_UTF16,
}

/// The characters between two neighbouring boundaries, with the largest status of the later one.
#[derive(Clone, Copy, Debug, PartialEq, Eq)]
pub struct Segment {
    /// Where it begins.
    pub start: u32,
    /// Where it ends.
    pub end: u32,
    /// The largest status of its end.
    pub status: u32,
}

/// What an edit changed: outside of this range, boundaries and their statuses are the old ones. At
/// its ends they may differ.
#[derive(Clone, Copy, Debug, PartialEq, Eq)]
pub struct Change {
    /// Where it begins, in the old and in the new text.
    pub from: u32,
    /// Where it ended in the old text.
    pub old_to: u32,
    /// Where it ends in the new text.
    pub new_to: u32,
}

/// A text with a table and a cursor. Each answer is what a scan of the whole text as it is gives.
///
/// A question moves the cursor to the boundary that it finds. Where there is none it answers `None`,
/// and the cursor goes to the end of the text or to 0.
#[derive(Debug)]
pub struct Session {
    handle: rbbi_handle,
}

// SAFETY: the handle has no state of its thread, and each call takes `&mut`.
unsafe impl Send for Session {}

type Question = unsafe extern "C" fn(*mut rbbi_handle, *mut u32) -> c_int;
type QuestionAt = unsafe extern "C" fn(*mut rbbi_handle, u32, *mut u32) -> c_int;

impl Session {
    /// Opens a session by the table of a handle, which is a live one.
    pub(crate) fn open(table: *mut rbbi_handle, text: &str, unit: Unit) -> Result<Session, Error> {
        let mut session = Session { handle: RBBI_INIT };
        let (text, length) = (text.as_ptr().cast(), text.len());
        // SAFETY: two handles, of which the session's holds nothing, and a live text.
        checked(unsafe {
            let handle = &mut session.handle;
            rbbi_sys::rbbi_session_open(handle, table, text, length, unit as c_int)
        })?;
        Ok(session)
    }

    /// Opens one over a text in UTF-16.
    pub(crate) fn open_utf16(
        table: *mut rbbi_handle,
        text: &[u16],
        unit: Unit,
    ) -> Result<Session, Error> {
        let mut session = Session { handle: RBBI_INIT };
        let (units, length) = (text.as_ptr(), text.len());
        // SAFETY: as in `open`.
        checked_utf16(|lone| unsafe {
            let handle = &mut session.handle;
            rbbi_sys::rbbi_session_open_utf16(handle, table, units, length, unit as c_int, lone)
        })?;
        Ok(session)
    }

    /// A second session over a copy of the text as it is, with the same table, unit and cursor. From
    /// then on neither changes the other. It takes the time and the memory of one copy of the text.
    pub fn fork(&mut self) -> Result<Session, Error> {
        let mut copy = Session { handle: RBBI_INIT };
        // SAFETY: the handle holds a session, and that of the copy nothing.
        checked(unsafe { rbbi_sys::rbbi_session_fork(&mut self.handle, &mut copy.handle) })?;
        Ok(copy)
    }

    /// From now on a boundary after an abbreviation, such as `Mr.`, isn't reported. The cursor goes
    /// to 0. `abbreviations` is a file of them, one a line (docs/formats.md). From then on `fork`,
    /// `replace_changed`, `redraw`, `segment`, `boundaries`, `boundaries_before` and a second filter
    /// refuse `Filtered`.
    pub fn suppress(&mut self, abbreviations: &[u8]) -> Result<(), Error> {
        let (file, length) = (abbreviations.as_ptr().cast(), abbreviations.len());
        // SAFETY: the handle holds a session, and the file is live.
        with_fault(|fault| unsafe {
            rbbi_sys::rbbi_session_suppress(&mut self.handle, file, length, fault)
        })
    }

    /// From now on boundaries are those of the text with its characters mapped by pairs. `pairs` is a
    /// file of them, one a line (docs/formats.md). Else it is as `suppress`.
    pub fn tailor(&mut self, pairs: &[u8]) -> Result<(), Error> {
        let (file, length) = (pairs.as_ptr().cast(), pairs.len());
        // SAFETY: as in `suppress`.
        with_fault(|fault| unsafe {
            rbbi_sys::rbbi_session_tailor(&mut self.handle, file, length, fault)
        })
    }

    fn asked(&mut self, question: Question) -> Option<u32> {
        let mut number = 0;
        // SAFETY: the handle holds a session, and the number is live.
        let answer = unsafe { question(&mut self.handle, &mut number) };
        (answer == RBBI_OK).then_some(number)
    }

    fn asked_at(&mut self, question: QuestionAt, place: u32) -> Option<u32> {
        let mut number = 0;
        // SAFETY: as in `asked`.
        let answer = unsafe { question(&mut self.handle, place, &mut number) };
        (answer == RBBI_OK).then_some(number)
    }

    /// The first boundary, which is 0.
    pub fn first(&mut self) -> u32 {
        self.asked(rbbi_sys::rbbi_session_first).unwrap_or(0)
    }

    /// The last boundary, which is the length.
    pub fn last(&mut self) -> u32 {
        self.asked(rbbi_sys::rbbi_session_last).unwrap_or(0)
    }

    /// The boundary after the cursor.
    #[allow(clippy::should_implement_trait)]
    pub fn next(&mut self) -> Option<u32> {
        self.asked(rbbi_sys::rbbi_session_next)
    }

    /// The boundary before the cursor.
    pub fn previous(&mut self) -> Option<u32> {
        self.asked(rbbi_sys::rbbi_session_previous)
    }

    /// The first boundary after a place, which may be any.
    pub fn following(&mut self, place: u32) -> Option<u32> {
        self.asked_at(rbbi_sys::rbbi_session_following, place)
    }

    /// The last boundary before a place, which may be any.
    pub fn preceding(&mut self, place: u32) -> Option<u32> {
        self.asked_at(rbbi_sys::rbbi_session_preceding, place)
    }

    /// Whether a place is a boundary. The cursor goes to the first one that isn't before it.
    pub fn is_boundary(&mut self, place: u32) -> bool {
        self.asked_at(rbbi_sys::rbbi_session_is_boundary, place) == Some(1)
    }

    /// Where the cursor is.
    pub fn current(&mut self) -> u32 {
        self.asked(rbbi_sys::rbbi_session_current).unwrap_or(0)
    }

    /// The largest status of the boundary at the cursor.
    pub fn status(&mut self) -> u32 {
        self.asked(rbbi_sys::rbbi_session_status).unwrap_or(0)
    }

    /// All statuses of the boundary at the cursor, in increasing order.
    pub fn statuses(&mut self) -> Result<Vec<u32>, Error> {
        let (mut all, mut count) = (vec![0; 4], 0);
        loop {
            let room = all.as_mut_ptr();
            // SAFETY: the room has so many numbers.
            let answer = unsafe {
                rbbi_sys::rbbi_session_statuses(&mut self.handle, room, all.len(), &mut count)
            };
            all.resize(count, 0);
            if answer != RBBI_ROOM {
                return checked(answer).map(|()| all);
            }
        }
    }

    /// The length of the text, in the unit.
    pub fn length(&mut self) -> u32 {
        self.asked(rbbi_sys::rbbi_session_length).unwrap_or(0)
    }

    /// Replaces `remove` units from `at` on by a string, and sets the cursor to 0.
    ///
    /// Refuses `Outside` past the end, `Inside` where it begins or ends inside a character, and
    /// `TooLong` where the text would have more than 16,777,216 characters.
    pub fn replace(&mut self, at: u32, remove: u32, insert: &str) -> Result<(), Error> {
        let (text, length) = (insert.as_ptr().cast(), insert.len());
        // SAFETY: the handle holds a session, and the string is live.
        checked(unsafe {
            rbbi_sys::rbbi_session_replace(&mut self.handle, at, remove, text, length)
        })
    }

    /// The same edit, which also returns what it changed: the least range that has the edit in it and
    /// outside of which all boundaries are the old ones. At both of its ends they may differ: without
    /// the space in "The quick" the range is empty, and its segment is new. [`Session::redraw`] gives
    /// what is to be drawn again.
    pub fn replace_changed(&mut self, at: u32, remove: u32, insert: &str) -> Result<Change, Error> {
        let (text, length) = (insert.as_ptr().cast(), insert.len());
        let mut change = rbbi_change {
            from: 0,
            old_to: 0,
            new_to: 0,
        };
        // SAFETY: the handle holds a session, and the string and the change are live.
        checked(unsafe {
            let handle = &mut self.handle;
            rbbi_sys::rbbi_session_replace_changed(handle, at, remove, text, length, &mut change)
        })?;
        let rbbi_change {
            from,
            old_to,
            new_to,
        } = change;
        Ok(Change {
            from,
            old_to,
            new_to,
        })
    }

    /// What is to be drawn again after the edit of this change: the new text from the boundary before
    /// `from`, or from 0, to the one after `new_to`, or to the end. All segments that changed lie
    /// there. Ask before the next edit. The session's cursor stays.
    pub fn redraw(&mut self, change: &Change) -> Result<Range<u32>, Error> {
        let told = rbbi_change {
            from: change.from,
            old_to: change.old_to,
            new_to: change.new_to,
        };
        let (mut start, mut end) = (0, 0);
        // SAFETY: the handle holds a session, and the change and the numbers are live.
        checked(unsafe {
            let handle = &mut self.handle;
            rbbi_sys::rbbi_session_redraw(handle, &told, &mut start, &mut end)
        })?;
        Ok(start..end)
    }

    /// Replaces `remove` units from `at` on by a text in UTF-16, and sets the cursor to 0.
    ///
    /// Refuses `Lone` where a surrogate is in no pair, and the rest as [`Session::replace`] does.
    pub fn replace_utf16(&mut self, at: u32, remove: u32, insert: &[u16]) -> Result<(), Error> {
        let (units, length) = (insert.as_ptr(), insert.len());
        // SAFETY: the handle holds a session, and the units are live.
        checked_utf16(|lone| unsafe {
            let handle = &mut self.handle;
            rbbi_sys::rbbi_session_replace_utf16(handle, at, remove, units, length, lone)
        })
    }

    /// The text from a place to another.
    ///
    /// Refuses `Outside` where `to` is past the end or before `from`, and `Inside` where one of them
    /// is inside a character.
    pub fn text(&mut self, from: u32, to: u32) -> Result<String, Error> {
        let (mut bytes, mut length) = (Vec::new(), 0);
        loop {
            let room: *mut u8 = bytes.as_mut_ptr();
            // SAFETY: the handle holds a session, and the room has so many bytes.
            let answer = unsafe {
                let (handle, size) = (&mut self.handle, bytes.len());
                rbbi_sys::rbbi_session_text(handle, from, to, room.cast(), size, &mut length)
            };
            if answer != RBBI_ROOM {
                checked(answer)?;
                return Ok(String::from_utf8(bytes).unwrap_or_default());
            }
            bytes.resize(length, 0);
        }
    }

    /// The segment that holds the character after a place, as the word at an editor's cursor. None
    /// at the end of the text and past it. The session's cursor stays.
    ///
    /// Refuses `Filtered` where the session has a filter.
    pub fn segment(&mut self, place: u32) -> Result<Option<Segment>, Error> {
        let (mut start, mut end, mut status) = (0, 0, 0);
        // SAFETY: the handle holds a session, and the numbers are live.
        let answer = unsafe {
            let handle = &mut self.handle;
            rbbi_sys::rbbi_session_segment(handle, place, &mut start, &mut end, &mut status)
        };
        checked(answer)?;
        Ok((answer == RBBI_OK).then_some(Segment { start, end, status }))
    }

    /// The boundaries after `from`, up to and with `to`, in order, some thousand at a time. The
    /// session's cursor stays. This is the fast way to many boundaries.
    ///
    /// The one item is `Filtered` where the session has a filter.
    pub fn boundaries(&mut self, from: u32, to: u32) -> Chunks<'_> {
        Chunks::over(self, rbbi_sys::rbbi_session_boundaries, from, to)
    }

    /// The boundaries before `from`, down to and with `to`, the last one first, some thousand at a
    /// time. The session's cursor stays. It refuses as [`Session::boundaries`] does.
    pub fn boundaries_before(&mut self, from: u32, to: u32) -> Chunks<'_> {
        Chunks::over(self, rbbi_sys::rbbi_session_boundaries_before, from, to)
    }

    /// Each segment, from the start of the text on. It moves the cursor as it goes.
    pub fn segments(&mut self) -> Segments<'_> {
        let start = self.first();
        Segments {
            session: self,
            start,
        }
    }
}

impl Drop for Session {
    fn drop(&mut self) {
        // SAFETY: no copy of the handle was made.
        unsafe { rbbi_sys::rbbi_session_close(&mut self.handle) }
    }
}

/// The segments of a session's text, in order.
#[derive(Debug)]
pub struct Segments<'a> {
    session: &'a mut Session,
    start: u32,
}

impl Iterator for Segments<'_> {
    type Item = Segment;

    fn next(&mut self) -> Option<Segment> {
        let start = self.start;
        let end = self.session.next()?;
        self.start = end;
        Some(Segment {
            start,
            end,
            status: self.session.status(),
        })
    }
}

type Lists = unsafe extern "C" fn(
    *mut rbbi_handle,
    u32,
    u32,
    *mut u32,
    *mut u32,
    usize,
    *mut usize,
    *mut u32,
) -> c_int;

/// Boundaries, each with its largest status.
#[derive(Clone, Debug, Default, PartialEq, Eq)]
pub struct Boundaries {
    /// Where they are.
    pub places: Vec<u32>,
    /// The largest status of each.
    pub statuses: Vec<u32>,
}

/// How many boundaries a chunk has at most.
const CHUNK: usize = 4096;

/// Boundaries within a range, in chunks. No chunk is empty. A refusal is the last item.
#[derive(Debug)]
pub struct Chunks<'a> {
    session: &'a mut Session,
    call: Lists,
    from: u32,
    to: u32,
    more: bool,
}

impl Chunks<'_> {
    fn over(session: &mut Session, call: Lists, from: u32, to: u32) -> Chunks<'_> {
        Chunks {
            session,
            call,
            from,
            to,
            more: true,
        }
    }
}

impl Iterator for Chunks<'_> {
    type Item = Result<Boundaries, Error>;

    fn next(&mut self) -> Option<Result<Boundaries, Error>> {
        if !self.more {
            return None;
        }
        let (mut places, mut statuses) = (vec![0; CHUNK], vec![0; CHUNK]);
        let mut count = 0;
        // SAFETY: the handle holds a session, and both rooms have so many numbers.
        let answer = unsafe {
            (self.call)(
                &mut self.session.handle,
                self.from,
                self.to,
                places.as_mut_ptr(),
                statuses.as_mut_ptr(),
                CHUNK,
                &mut count,
                &mut self.from,
            )
        };
        self.more = answer == RBBI_ROOM;
        if !self.more {
            if let Err(error) = checked(answer) {
                return Some(Err(error));
            }
        }
        places.truncate(count);
        statuses.truncate(count);
        (count > 0).then_some(Ok(Boundaries { places, statuses }))
    }
}
