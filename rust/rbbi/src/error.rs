//! Why a call is refused.
use rbbi_sys::rbbi_fault;
use std::ffi::{c_int, CStr};
use std::fmt;

/// A fault of rules, a property file or a table file.
#[derive(Clone, Debug, PartialEq, Eq)]
pub struct Fault {
    /// Its name, as `UnknownProperty`; docs/rules.md and docs/formats.md list all.
    pub name: String,
    /// Its line, from 1.
    pub line: Option<u32>,
    /// Its column, in characters from 1.
    pub column: Option<u32>,
    /// Its byte, from 0; of rules with a line and a column, the byte there.
    pub byte: Option<u32>,
    /// What it is, as `this quote isn't closed in its line`.
    pub sentence: &'static str,
}

impl fmt::Display for Fault {
    fn fmt(&self, f: &mut fmt::Formatter<'_>) -> fmt::Result {
        match (self.line, self.column, self.byte) {
            (Some(line), Some(column), _) => write!(f, "{line}:{column}: ")?,
            (Some(line), None, _) => write!(f, "{line}: ")?,
            (None, _, Some(byte)) => write!(f, "byte {byte}: ")?,
            _ => (),
        }
        write!(f, "{}: {}", self.name, self.sentence)
    }
}

/// Why a call is refused. What it was to change is as it was.
#[derive(Clone, Debug, PartialEq, Eq)]
#[non_exhaustive]
pub enum Error {
    /// Rules, a property file or a table file have this fault.
    Fault(Fault),
    /// The library has no table of this name.
    Name,
    /// The name of a property has a zero in it.
    Zero,
    /// An edit reaches past the end of the text.
    Outside,
    /// An edit begins or ends inside a character.
    Inside,
    /// A text would have more than 16,777,216 characters, or a file is too long.
    TooLong,
    /// A surrogate of a text in UTF-16 is in no pair: the number of the first such unit.
    Lone(u32),
    /// Memory ran out.
    Memory,
    /// The session has a filter, which the call doesn't serve.
    Filtered,
    /// Another answer of the library, by its number in `rbbi.h`.
    Answer(c_int),
}

impl Error {
    /// What an answer that is neither `RBBI_OK` nor `RBBI_DONE` says.
    pub(crate) fn of(answer: c_int) -> Error {
        match answer {
            rbbi_sys::RBBI_NAME => Error::Name,
            rbbi_sys::RBBI_OUTSIDE => Error::Outside,
            rbbi_sys::RBBI_INSIDE => Error::Inside,
            rbbi_sys::RBBI_TOO_LONG => Error::TooLong,
            rbbi_sys::RBBI_MEMORY => Error::Memory,
            rbbi_sys::RBBI_FILTERED => Error::Filtered,
            _ => Error::Answer(answer),
        }
    }
}

impl fmt::Display for Error {
    fn fmt(&self, f: &mut fmt::Formatter<'_>) -> fmt::Result {
        let answer = match self {
            Error::Fault(fault) => return fault.fmt(f),
            Error::Zero => return f.write_str("the name of a property has a zero in it"),
            Error::Name => rbbi_sys::RBBI_NAME,
            Error::Outside => rbbi_sys::RBBI_OUTSIDE,
            Error::Inside => rbbi_sys::RBBI_INSIDE,
            Error::TooLong => rbbi_sys::RBBI_TOO_LONG,
            Error::Lone(_) => rbbi_sys::RBBI_LONE,
            Error::Memory => rbbi_sys::RBBI_MEMORY,
            Error::Filtered => rbbi_sys::RBBI_FILTERED,
            Error::Answer(answer) => *answer,
        };
        // SAFETY: every number has a message.
        f.write_str(crate::text_of(unsafe { rbbi_sys::rbbi_message(answer) }))
    }
}

impl std::error::Error for Error {}

/// Refuses an answer that is an error.
pub(crate) fn checked(answer: c_int) -> Result<(), Error> {
    match answer {
        rbbi_sys::RBBI_OK | rbbi_sys::RBBI_DONE => Ok(()),
        _ => Err(Error::of(answer)),
    }
}

/// Refuses an answer that is an error, of a call that takes UTF-16 and may report a lone surrogate.
pub(crate) fn checked_utf16(call: impl FnOnce(*mut u32) -> c_int) -> Result<(), Error> {
    let mut lone = 0;
    match call(&mut lone) {
        rbbi_sys::RBBI_LONE => Err(Error::Lone(lone)),
        answer => checked(answer),
    }
}

/// Makes a call that may write a fault, and refuses an answer that is an error.
pub(crate) fn with_fault(call: impl FnOnce(*mut rbbi_fault) -> c_int) -> Result<(), Error> {
    let mut fault = rbbi_fault {
        name: [0; 40],
        line: 0,
        column: 0,
        byte: u32::MAX,
    };
    let answer = call(&mut fault);
    if answer != rbbi_sys::RBBI_FAULT {
        return checked(answer);
    }
    // SAFETY: the library ends the name of a fault that it writes with a zero.
    let name = unsafe { CStr::from_ptr(fault.name.as_ptr()) }
        .to_string_lossy()
        .into_owned();
    Err(Error::Fault(Fault {
        name,
        line: Some(fault.line).filter(|line| *line > 0),
        column: Some(fault.column).filter(|column| *column > 0),
        byte: Some(fault.byte).filter(|byte| *byte < u32::MAX),
        // SAFETY: the fault is a live one, and each has a sentence.
        sentence: crate::text_of(unsafe { rbbi_sys::rbbi_fault_message(&fault) }),
    }))
}
