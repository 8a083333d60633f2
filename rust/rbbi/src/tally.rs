//! How many segments of a text have each status.
use crate::error::{checked, Error};
use crate::Unit;
use rbbi_sys::{rbbi_handle, RBBI_INIT, RBBI_ROOM};
use std::ffi::c_int;

/// How many segments of a text have each status, kept while the text is edited. A segment lies between
/// two neighbouring boundaries, and counts under the largest status of its end.
#[derive(Debug)]
pub struct Tally {
    handle: rbbi_handle,
}

// SAFETY: the handle has no state of its thread, and each call takes `&mut`.
unsafe impl Send for Tally {}

impl Tally {
    /// Opens a tally by the table of a handle, which is a live one.
    pub(crate) fn open(table: *mut rbbi_handle, text: &str, unit: Unit) -> Result<Tally, Error> {
        let mut tally = Tally { handle: RBBI_INIT };
        let (text, length) = (text.as_ptr().cast(), text.len());
        // SAFETY: two handles, of which the tally's holds nothing, and a live text.
        checked(unsafe {
            rbbi_sys::rbbi_tally_open(&mut tally.handle, table, text, length, unit as c_int)
        })?;
        Ok(tally)
    }

    /// Replaces `remove` units from `at` on by a string, and counts again what that touches.
    ///
    /// Refuses `Outside` past the end, `Inside` where it begins or ends inside a character, and
    /// `TooLong` where the text would have more than 16,777,216 characters.
    pub fn replace(&mut self, at: u32, remove: u32, insert: &str) -> Result<(), Error> {
        let (text, length) = (insert.as_ptr().cast(), insert.len());
        // SAFETY: the handle holds a tally, and the string is live.
        checked(unsafe { rbbi_sys::rbbi_tally_replace(&mut self.handle, at, remove, text, length) })
    }

    /// How many segments there are.
    pub fn segments(&mut self) -> u32 {
        let mut count = 0;
        // SAFETY: the handle holds a tally, and the number is live.
        unsafe { rbbi_sys::rbbi_tally_segments(&mut self.handle, &mut count) };
        count
    }

    /// How many segments have a status as their greatest one.
    pub fn count(&mut self, status: u32) -> u32 {
        let mut count = 0;
        // SAFETY: as in `segments`.
        unsafe { rbbi_sys::rbbi_tally_count(&mut self.handle, status, &mut count) };
        count
    }

    /// The statuses that some segment has as its greatest one, in order, each with its count.
    pub fn counts(&mut self) -> Result<Vec<(u32, u32)>, Error> {
        let (mut statuses, mut counts, mut count) = (vec![0; 8], vec![0; 8], 0);
        loop {
            // SAFETY: both rooms have so many numbers.
            let answer = unsafe {
                let (values, numbers) = (statuses.as_mut_ptr(), counts.as_mut_ptr());
                let room = statuses.len();
                rbbi_sys::rbbi_tally_each(&mut self.handle, values, numbers, room, &mut count)
            };
            statuses.resize(count, 0);
            counts.resize(count, 0);
            if answer != RBBI_ROOM {
                return checked(answer).map(|()| statuses.into_iter().zip(counts).collect());
            }
        }
    }
}

impl Drop for Tally {
    fn drop(&mut self) {
        // SAFETY: no copy of the handle was made.
        unsafe { rbbi_sys::rbbi_tally_close(&mut self.handle) }
    }
}
