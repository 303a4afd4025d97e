//! Lowers queries to typed plans by a proved library.
//!
//! ```
//! # let query = r#"{"tables":[],"plan":{"empty":[]}}"#;
//! match lowerq::lower(query) {
//!     Ok(report) => print!("{report}"),
//!     Err(lowerq::Refusal::Refused { kind, place }) => println!("{kind} at node {place}"),
//!     Err(other) => println!("{other}"),
//! }
//! ```
//!
//! The repository's `docs/library.md` says what is proved of the library, and how much stack a call needs: its end is
//! a segmentation fault. Of this crate nothing is proved; it is tested.

use std::error::Error;
use std::fmt;

extern "C" {
    fn lowerq_lower(
        query: *const u8,
        query_length: usize,
        buffer: *mut u8,
        buffer_length: usize,
        written: *mut usize,
    ) -> u8;
}

const LOWERED: u8 = 0;
const REFUSED: u8 = 1;
const BAD_QUERY: u8 = 3;
const OUT_OF_MEMORY: u8 = 6;
const TOO_LONG: u8 = 7;

/// The most bytes that a query may have.
pub const LONGEST: usize = 1 << 24;

/// Room for the text in a first call, besides as many bytes as the query has.
const SPARE_ROOM: usize = 4096;

/// An enum whose variants are written as their names.
macro_rules! named {
    ($(#[$about:meta])* $name:ident { $($(#[$meaning:meta])* $variant:ident,)+ }) => {
        $(#[$about])*
        #[derive(Debug, Clone, Copy, PartialEq, Eq, Hash)]
        #[non_exhaustive]
        pub enum $name { $($(#[$meaning])* $variant,)+ }

        impl $name {
            fn of(name: &str) -> Option<Self> {
                match name {
                    $(stringify!($variant) => Some(Self::$variant),)+
                    _ => None,
                }
            }
        }

        impl fmt::Display for $name {
            fn fmt(&self, formatter: &mut fmt::Formatter<'_>) -> fmt::Result {
                fmt::Debug::fmt(self, formatter)
            }
        }
    };
}

named! {
    /// Which rule a plan breaks.
    Kind {
        /// A name or a place of a column that the frame doesn't have.
        ColumnNotFound,
        /// Two columns of one name.
        Duplicate,
        /// Operands, answers or inputs without a common type.
        SchemaMismatch,
        /// Something that isn't done with these types.
        InvalidOperation,
        /// A wrong number of flags, inputs, keys or predicates, or a repeated name.
        ComputeError,
    }
}

named! {
    /// Why a text is no query.
    Fault {
        /// It is no JSON.
        NotJson,
        /// The value has another form than is wanted.
        Shape,
        /// The number isn't whole, or no type of whole numbers has it.
        Float,
        /// The table's name is declared already, or isn't declared.
        Name,
    }
}

/// Why a query wasn't lowered. It is written as the line that the program prints, without the newline.
#[derive(Debug, Clone, PartialEq, Eq)]
pub enum Refusal {
    /// The plan breaks a rule.
    Refused {
        /// The rule.
        kind: Kind,
        /// The plan's node that breaks it: `.` for the top, and `.0` for its only input.
        place: String,
    },
    /// The text is no query.
    BadQuery {
        /// What is wrong.
        kind: Fault,
        /// Where, as a JSON pointer; of what is no JSON there is none.
        path: Option<String>,
    },
    /// The query has more than [`LONGEST`] bytes.
    TooLong,
    /// There was too little memory.
    OutOfMemory,
}

impl Refusal {
    /// The refusal of a status and its text.
    fn of(status: u8, text: &str) -> Option<Self> {
        let line = text.strip_suffix('\n').unwrap_or(text);
        match status {
            REFUSED => {
                let (kind, place) = line.strip_prefix("refused ")?.split_once(' ')?;
                Some(Self::Refused { kind: Kind::of(kind)?, place: place.to_owned() })
            }
            BAD_QUERY => {
                let told = line.strip_prefix("bad query ")?;
                let (kind, path) = match told.split_once(' ') {
                    Some((kind, path)) => (kind, Some(path.to_owned())),
                    None => (told, None),
                };
                Some(Self::BadQuery { kind: Fault::of(kind)?, path })
            }
            TOO_LONG => Some(Self::TooLong),
            OUT_OF_MEMORY => Some(Self::OutOfMemory),
            _ => None,
        }
    }
}

impl fmt::Display for Refusal {
    fn fmt(&self, formatter: &mut fmt::Formatter<'_>) -> fmt::Result {
        match self {
            Self::Refused { kind, place } => write!(formatter, "refused {kind} {place}"),
            Self::BadQuery { kind, path: Some(path) } => write!(formatter, "bad query {kind} {path}"),
            Self::BadQuery { kind, path: None } => write!(formatter, "bad query {kind}"),
            Self::TooLong => write!(formatter, "too long"),
            Self::OutOfMemory => write!(formatter, "out of memory"),
        }
    }
}

impl Error for Refusal {}

/// One call: the status, and the text's length, which may be more than the buffer has room for.
fn call(query: &[u8], buffer: &mut [u8]) -> (u8, usize) {
    let mut written = 0;
    // SAFETY: the pointers of slices and references aren't null, and what lies behind them is as long as is said. The
    // borrows keep it there and from other threads during the call, after which the library keeps none of it.
    let status = unsafe { lowerq_lower(query.as_ptr(), query.len(), buffer.as_mut_ptr(), buffer.len(), &mut written) };
    (status, written)
}

/// The status of a query and its text, with a first buffer of that room. None where there is no memory for the text.
fn answer(query: &[u8], first_room: usize) -> Option<(u8, Vec<u8>)> {
    let mut room = first_room;
    let mut buffer = Vec::new();
    loop {
        buffer.try_reserve_exact(room - buffer.len()).ok()?;
        buffer.resize(room, 0);
        let (status, written) = call(query, &mut buffer);
        if written <= room {
            buffer.truncate(written);
            return Some((status, buffer));
        }
        room = written;
    }
}

/// Lowers a query, and gives the report of the lowered plan, as `docs/report-format.md` has it.
///
/// # Errors
///
/// Where the text is no query, is too long, or its plan breaks a rule; and where there is too little memory.
///
/// # Panics
///
/// Where the library's answer isn't one that this crate knows, as that of a newer library may be.
pub fn lower(query: &str) -> Result<String, Refusal> {
    let room = query.len().min(LONGEST) + SPARE_ROOM;
    let (status, text) = answer(query.as_bytes(), room).ok_or(Refusal::OutOfMemory)?;
    let text = String::from_utf8(text).expect("the library writes UTF-8");
    if status == LOWERED {
        return Ok(text);
    }
    Err(Refusal::of(status, &text).unwrap_or_else(|| panic!("the library answered status {status} and {text:?}")))
}

#[cfg(test)]
mod tests;
