//! Text boundaries (characters, words, sentences, lines) by break rules, found again while the text
//! is edited, over the C library of rbbi.
//!
//! ```
//! # fn main() -> Result<(), rbbi::Error> {
//! let table = rbbi::Table::named("word")?;
//! let words: Vec<&str> = table.words("can't 32.3.").collect();
//! assert_eq!(words, ["can't", "32.3"]);
//! # Ok(())
//! # }
//! ```
//!
//! A text that is edited has a session:
//!
//! ```
//! use rbbi::{Table, Unit};
//!
//! # fn main() -> Result<(), rbbi::Error> {
//! let table = Table::named("word")?;
//! let mut session = table.session("can't 32.3.", Unit::Utf8)?;
//! let ends: Vec<u32> = session.segments().map(|segment| segment.end).collect();
//! assert_eq!(ends, [5, 6, 10, 11]);
//! session.replace(3, 1, "no")?; // the user typed
//! assert_eq!(session.segment(4)?.map(|word| word.end), Some(6));
//! # Ok(())
//! # }
//! ```
//!
//! A [`Table`] may be used by several threads at once. A [`Session`] or a [`Tally`] is used by one at a
//! time, which `&mut` sees to, and may move to another.

mod error;
mod scan;
mod session;
mod table;
mod tally;

pub use error::{Error, Fault};
pub use scan::{Span, Spans};
pub use session::{Boundaries, Change, Chunks, Segment, Segments, Session, Unit};
pub use table::{Files, Table};
pub use tally::Tally;

use std::ffi::{c_char, CStr};

/// A string of the library's, which stays as it is.
fn text_of(text: *const c_char) -> &'static str {
    // SAFETY: the library gives constants that end with a zero.
    unsafe { CStr::from_ptr(text) }.to_str().unwrap_or("")
}

/// The version of the C library.
pub fn version() -> &'static str {
    // SAFETY: the call takes nothing.
    text_of(unsafe { rbbi_sys::rbbi_version() })
}

/// The version of Unicode whose data is in the library.
pub fn unicode_version() -> &'static str {
    // SAFETY: the call takes nothing.
    text_of(unsafe { rbbi_sys::rbbi_unicode_version() })
}
