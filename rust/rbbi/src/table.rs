//! Property files and tables.
use crate::error::{checked, with_fault, Error};
use crate::{Session, Spans, Tally, Unit};
use rbbi_sys::{rbbi_handle, RBBI_INIT};
use std::cell::UnsafeCell;
use std::ffi::{c_int, CString};
use std::ptr;

/// Property files: what `\p{NAME=VALUE}` of rules stands for, beside what is built in.
#[derive(Debug)]
pub struct Files {
    handle: rbbi_handle,
}

// SAFETY: the handle has no state of its thread, and each call takes `&mut`.
unsafe impl Send for Files {}

impl Files {
    /// A list of no files.
    pub fn new() -> Result<Files, Error> {
        let mut files = Files { handle: RBBI_INIT };
        // SAFETY: the handle holds nothing.
        checked(unsafe { rbbi_sys::rbbi_files_open(&mut files.handle) })?;
        Ok(files)
    }

    /// Adds the rows of a file of the Unicode Character Database, or of its form, under the name of
    /// its property, as `WB`.
    pub fn add(&mut self, property: &str, rows: &[u8]) -> Result<(), Error> {
        let property = CString::new(property).map_err(|_| Error::Zero)?;
        // SAFETY: the pointers are those of live values, with their lengths.
        with_fault(|fault| unsafe {
            let (rows, length) = (rows.as_ptr().cast(), rows.len());
            rbbi_sys::rbbi_files_add(&mut self.handle, property.as_ptr(), rows, length, fault)
        })
    }
}

impl Drop for Files {
    fn drop(&mut self) {
        // SAFETY: no copy of the handle was made.
        unsafe { rbbi_sys::rbbi_files_close(&mut self.handle) }
    }
}

/// A table of break rules. Sessions keep it in memory, and threads may share it.
#[derive(Debug)]
pub struct Table {
    handle: UnsafeCell<rbbi_handle>,
}

// SAFETY: the calls that take `&Table` are those to which `rbbi.h` lets several threads pass one
// handle at once; closing takes `&mut`.
unsafe impl Send for Table {}
unsafe impl Sync for Table {}

impl Table {
    fn closed() -> Table {
        Table {
            handle: UnsafeCell::new(RBBI_INIT),
        }
    }

    /// The table of the rules of a rule file, without property files.
    ///
    /// Refuses `Fault`, the first one of the rules.
    pub fn compile(rules: &str) -> Result<Table, Error> {
        Table::compiled(rules.as_bytes(), ptr::null_mut(), false)
    }

    /// The table of the rules of a rule file, with property files. If `ignore_dictionary`,
    /// `$dictionary` of the rules is ignored.
    pub fn compile_with(
        rules: &[u8],
        files: &mut Files,
        ignore_dictionary: bool,
    ) -> Result<Table, Error> {
        Table::compiled(rules, &mut files.handle, ignore_dictionary)
    }

    fn compiled(rules: &[u8], files: *mut rbbi_handle, ignored: bool) -> Result<Table, Error> {
        let mut table = Table::closed();
        let (bytes, length) = (rules.as_ptr().cast(), rules.len());
        // SAFETY: the handle holds nothing, and the pointers are those of live values, or NULL.
        with_fault(|fault| unsafe {
            let handle = table.handle.get_mut();
            rbbi_sys::rbbi_table_compile(handle, files, bytes, length, c_int::from(ignored), fault)
        })?;
        Ok(table)
    }

    /// The table of a table file, as [`Table::write`] gives it.
    ///
    /// Refuses `Fault` where the bytes are no valid table file.
    pub fn load(bytes: &[u8]) -> Result<Table, Error> {
        let mut table = Table::closed();
        // SAFETY: as in `compiled`.
        with_fault(|fault| unsafe {
            let (file, length) = (bytes.as_ptr().cast(), bytes.len());
            rbbi_sys::rbbi_table_load(table.handle.get_mut(), file, length, fault)
        })?;
        Ok(table)
    }

    /// A table that is in the library: `grapheme`, `word` or `sentence` by UAX #29 of Unicode 18.0, or
    /// `line` by the rules of UAX #14 of 17.0 over the data of 18.0; lines as CSS tailors them are
    /// `line-strict`, `line-normal`, `line-loose`, `line-cj`, `line-normal-cj` and `line-loose-cj`.
    ///
    /// Refuses `Name` for any other name.
    pub fn named(name: &str) -> Result<Table, Error> {
        let mut table = Table::closed();
        let name = CString::new(name).map_err(|_| Error::Name)?;
        // SAFETY: as in `compiled`, and the name ends with a zero.
        checked(unsafe { rbbi_sys::rbbi_table_named(table.handle.get_mut(), name.as_ptr()) })?;
        Ok(table)
    }

    /// One more owner of the same table in memory.
    pub fn share(&self) -> Result<Table, Error> {
        let mut other = Table::closed();
        // SAFETY: two handles; several threads may pass that of `self`.
        checked(unsafe { rbbi_sys::rbbi_table_share(other.handle.get_mut(), self.handle.get()) })?;
        Ok(other)
    }

    /// The bytes of the table's file.
    pub fn write(&self) -> Result<Vec<u8>, Error> {
        let (mut file, mut length) = (Vec::new(), 0);
        loop {
            let room: *mut u8 = file.as_mut_ptr();
            // SAFETY: the room has so many bytes; several threads may pass the handle.
            let answer = unsafe {
                let handle = self.handle.get();
                rbbi_sys::rbbi_table_write(handle, room.cast(), file.len(), &mut length)
            };
            if answer != rbbi_sys::RBBI_ROOM {
                return checked(answer).map(|()| file);
            }
            file.resize(length, 0);
        }
    }

    /// The handle, which several threads may pass to the calls that `rbbi.h` names.
    pub(crate) fn handle(&self) -> *mut rbbi_handle {
        self.handle.get()
    }

    /// The segments of a text that nobody edits, each with its place in bytes and its status. The text is
    /// searched where it is, and may have any length. [`Spans`] says what is refused.
    pub fn spans<'a>(&'a self, text: &'a [u8]) -> Spans<'a> {
        Spans::new(self, text, false)
    }

    /// Those with a letter or a digit of any script.
    pub fn word_spans<'a>(&'a self, text: &'a [u8]) -> Spans<'a> {
        Spans::new(self, text, true)
    }

    /// The segments of a text, each with the byte where it begins.
    ///
    /// # Panics
    ///
    /// Where memory runs out, or a search reads more than 16,777,216 characters; [`Table::spans`] has
    /// these as errors.
    pub fn segment_indices<'a>(&'a self, text: &'a str) -> impl Iterator<Item = (usize, &'a str)> {
        let spans = self
            .spans(text.as_bytes())
            .map(|span| span.expect("a segment"));
        spans.map(move |span| (span.start, &text[span.start..span.end]))
    }

    /// The segments of a text, which together are the text. Panics as [`Table::segment_indices`] does.
    pub fn segments<'a>(&'a self, text: &'a str) -> impl Iterator<Item = &'a str> {
        self.segment_indices(text).map(|(_, segment)| segment)
    }

    /// The words of a text: its segments with a letter or a digit of any script. Panics as
    /// [`Table::segment_indices`] does.
    pub fn words<'a>(&'a self, text: &'a str) -> impl Iterator<Item = &'a str> {
        let spans = self
            .word_spans(text.as_bytes())
            .map(|span| span.expect("a word"));
        spans.map(move |span| &text[span.start..span.end])
    }

    /// The boundaries of a text after 0, in bytes. Panics as [`Table::segment_indices`] does.
    pub fn boundaries<'a>(&'a self, text: &'a str) -> impl Iterator<Item = usize> + 'a {
        let spans = self.spans(text.as_bytes());
        spans.map(|span| span.expect("a boundary").end)
    }

    /// A session over a text, with places in a unit. The cursor is at 0.
    ///
    /// Refuses `TooLong` where the text has more than 16,777,216 characters.
    pub fn session(&self, text: &str, unit: Unit) -> Result<Session, Error> {
        Session::open(self.handle.get(), text, unit)
    }

    /// A session over a text in UTF-16, with places in a unit. The cursor is at 0.
    ///
    /// Refuses `Lone` where a surrogate is in no pair, and `TooLong` as [`Table::session`] does.
    pub fn session_utf16(&self, text: &[u16], unit: Unit) -> Result<Session, Error> {
        Session::open_utf16(self.handle.get(), text, unit)
    }

    /// How many segments of a text have each status, with the places of edits in a unit.
    ///
    /// Refuses `TooLong` where the text has more than 16,777,216 characters.
    pub fn tally(&self, text: &str, unit: Unit) -> Result<Tally, Error> {
        Tally::open(self.handle.get(), text, unit)
    }
}

impl Drop for Table {
    fn drop(&mut self) {
        // SAFETY: no copy of the handle was made.
        unsafe { rbbi_sys::rbbi_table_close(self.handle.get_mut()) }
    }
}
