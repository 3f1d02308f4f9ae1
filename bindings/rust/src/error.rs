//! Why there is no text.

use crate::raw::{
    Reply, CONFLICT, DOCUMENT, FORM, MISSING, MORE, NO_MEMORY, NO_PATCHES, PATCH, PENDING, POINTER,
    REFUSED, TOO_LARGE,
};
use crate::{places::places_of, DocumentCause, FormCause, PointerCause, RefusedCause};
use std::{fmt, mem::take};

/// Why there is no text. Patches and operations are numbered from 0. What is shown is the `line` of those that have one, which has places
/// as JSON strings.
#[derive(Clone, Debug, PartialEq, Eq)]
#[non_exhaustive]
pub enum Error {
    /// Patches conflict.
    Conflict {
        /// The numbers of the two, of a list: the second is the least number of a patch that conflicts with an earlier one,
        /// and the first the least of those. [`Replica`](crate::Replica) and [`Patches`](crate::Patches) keep no numbers.
        patches: Option<(usize, usize)>,
        /// The places at which they conflict, as JSON Pointers, in the order of paths: all of them, or as many of the first as
        /// the limit allows.
        places: Vec<String>,
        /// How many places there are in all, as far as they were looked at.
        total: usize,
        /// Whether there are more than that: [`Patches`](crate::Patches) holds the first places of its conflict, up to 64 kB, and
        /// [`Replica`](crate::Replica) knows none if memory ran out for them.
        more: bool,
        /// What is shown.
        line: String,
    },
    /// There are no patches to join.
    NoPatches,
    /// An operation of the JSON Patch is refused.
    Refused {
        /// Its number.
        operation: usize,
        /// The first cause that is true.
        cause: RefusedCause,
        /// What is shown.
        line: String,
    },
    /// The document has no part there.
    Missing,
    /// The document, or the start, is not one.
    Document {
        /// Why it is not one.
        cause: DocumentCause,
        /// Where it has the first number that is not whole, or the first part that is too deep, as a JSON Pointer.
        place: Option<String>,
        /// What is shown.
        line: String,
    },
    /// A patch is not a document.
    Patch {
        /// Its number; 0 of a single patch.
        number: usize,
        /// Why it is not one.
        cause: DocumentCause,
        /// As of a document.
        place: Option<String>,
        /// What is shown.
        line: String,
    },
    /// The document that is given as a JSON Patch is not one.
    Form {
        /// The number of what is not an operation; 0 if the document is not an array.
        operation: usize,
        /// Why it is not one.
        cause: FormCause,
        /// What is shown.
        line: String,
    },
    /// The text is not a JSON Pointer.
    Pointer {
        /// Where it goes wrong, in bytes.
        offset: usize,
        /// Why it is not one.
        cause: PointerCause,
        /// What is shown.
        line: String,
    },
    /// The text is not the kept form of patches.
    NotKept,
    /// A patch was received, and memory ran out before it can be shown. The next call tries again; nothing is lost.
    Pending,
    /// The result, or something on the way to it, is larger than the limit that was set.
    TooLarge {
        /// Of a JSON Patch the number of the operation whose result weighs more; of a rewriting how many of its operations fit; and
        /// else 0.
        number: usize,
    },
    /// Memory ran out.
    NoMemory,
    /// What a later library may report.
    Unknown {
        /// The status.
        status: u32,
        /// The text of the reply.
        line: String,
    },
}

impl Error {
    /// Why a call with this reply and this text has no result.
    pub(crate) fn of(reply: &Reply, text: String) -> Self {
        let (mut line, places) = line_and_places(reply, text);
        Self::known(reply, &mut line, places).unwrap_or(Error::Unknown {
            status: reply.status,
            line,
        })
    }

    /// It takes the line if the error is known.
    fn known(reply: &Reply, line: &mut String, places: Vec<String>) -> Option<Self> {
        let (number, place, words) = (reply.first, places.first().cloned(), words_of(line));
        Some(match reply.status {
            CONFLICT => Error::Conflict {
                patches: (number < reply.second).then_some((number, reply.second)),
                places,
                total: reply.total,
                more: reply.flags & MORE != 0,
                line: take(line),
            },
            NO_PATCHES => Error::NoPatches,
            REFUSED => Error::Refused {
                operation: number,
                cause: RefusedCause::of(words)?,
                line: take(line),
            },
            MISSING => Error::Missing,
            DOCUMENT if words == "not kept patches" => Error::NotKept,
            DOCUMENT => Error::Document {
                cause: DocumentCause::of(words)?,
                place,
                line: take(line),
            },
            PATCH => Error::Patch {
                number,
                cause: DocumentCause::of(words)?,
                place,
                line: take(line),
            },
            FORM => Error::Form {
                operation: number,
                cause: FormCause::of(words)?,
                line: take(line),
            },
            POINTER => Error::Pointer {
                offset: number,
                cause: PointerCause::of(words)?,
                line: take(line),
            },
            NO_MEMORY => Error::NoMemory,
            PENDING => Error::Pending,
            TOO_LARGE => Error::TooLarge { number },
            _ => return None,
        })
    }
}

/// The line of a reply without a result, and the places of the array that its text has after it. A conflict has no text if memory ran
/// out for it.
pub(crate) fn line_and_places(reply: &Reply, mut text: String) -> (String, Vec<String>) {
    let length = text.len().saturating_sub(reply.places);
    let places = places_of(&text[length..]).unwrap_or_default();
    text.truncate(length);
    text.shrink_to_fit();
    if text.is_empty() && reply.status == CONFLICT {
        text.push_str("conflict: two patches");
    }
    (text, places)
}

/// The words of a line between what is wrong and where.
fn words_of(line: &str) -> &str {
    let words = line.split_once(": ").map_or(line, |(_, words)| words);
    words.split_once(" at ").map_or(words, |(words, _)| words)
}

impl fmt::Display for Error {
    fn fmt(&self, to: &mut fmt::Formatter<'_>) -> fmt::Result {
        to.write_str(match self {
            Error::Conflict { line, .. }
            | Error::Refused { line, .. }
            | Error::Document { line, .. }
            | Error::Patch { line, .. }
            | Error::Form { line, .. }
            | Error::Pointer { line, .. } => line,
            Error::NoPatches => "no patches",
            Error::Missing => "missing",
            Error::NotKept => "not kept patches",
            Error::Pending => "pending",
            Error::TooLarge { .. } => "too large",
            Error::NoMemory => "out of memory",
            Error::Unknown { status, line } => return write!(to, "status {status}: {line}"),
        })
    }
}

// `source` gives nothing: what an error shows has the words of its cause, which a report of all sources would show again.
impl std::error::Error for Error {}
