//! A patch log that stays in memory.

use crate::calls::{guess_after, reply_of, result_of, text_of};
use crate::error::line_and_places;
use crate::places::pairs_of;
use crate::raw::{self, Handle, Reply, CONFLICT, MISSING, MORE, NO_MEMORY, REFUSED, RESULT};
use crate::Error;
use std::fmt;

/// Who made a patch, and the sender's number for it. Identities are ordered by the sender, and then by the number. A sender
/// gives each of its patches for one start a number of its own.
#[repr(C)]
#[derive(Clone, Copy, Debug, PartialEq, Eq, PartialOrd, Ord, Hash)]
pub struct Identity {
    /// The sender that made the patch.
    pub sender: u64,
    /// The sender's number for the patch.
    pub number: u64,
}

/// A replica that keeps the patches themselves, each under its identity, also those that conflict: it has a start with its
/// number, the epoch, and shows what the start and the patches that conflict with no other make. Once it is decided which
/// patches the start ends with, it begins the next.
///
/// Receiving a patch costs what the patch costs, unless it conflicts with others: then it may cost what is stored.
///
/// ```
/// use mergejoin::{Arrival, DecideError, Error, Identity, PatchLog};
///
/// let (ada, bob) = (Identity { sender: 1, number: 1 }, Identity { sender: 2, number: 1 });
/// let mut log = PatchLog::new(7, r#"{"title":"Notes"}"#)?;
/// assert_eq!(log.receive(7, ada, r#"{"author":"Ada"}"#)?, Arrival::Stored);
/// assert_eq!(log.receive(7, ada, r#"{"author":"Ada"}"#)?, Arrival::Repeat);
/// assert_eq!(log.receive(7, bob, r#"{"author":"Bob"}"#)?, Arrival::Stored);
/// assert_eq!(log.document()?, r#"{"title":"Notes"}"#);
/// let pair = &log.conflicts()?[0];
/// assert_eq!((pair.first, pair.second, pair.places[0].as_str()), (ada, bob, "/author"));
///
/// let both = log.decide(&[ada, bob]);
/// assert!(matches!(both, Err(DecideError::Conflict { first, second, .. }) if (first, second) == (ada, bob)));
/// assert_eq!(log.decide(&[bob]), Ok(()));
/// assert_eq!(log.document()?, r#"{"author":"Bob","title":"Notes"}"#);
/// assert_eq!(log.receive(7, ada, r#"{"author":"Ada"}"#)?, Arrival::Late);
/// # Ok::<(), Error>(())
/// ```
///
/// A patch log may move to another thread, and serves one thread at a time: it is `Send`, and not `Sync`.
///
/// ```compile_fail,E0277
/// fn is_shared<T: Sync>() {}
/// is_shared::<mergejoin::PatchLog>();
/// ```
pub struct PatchLog {
    held: Handle,
    /// The bytes that the document's text had when it was last read, or the start's.
    shown: usize,
    /// Those that the text of the conflicts had.
    listed: usize,
    limit: usize,
}

/// Two patches that conflict.
#[derive(Clone, Debug, PartialEq, Eq, Hash)]
pub struct ConflictingPair {
    /// The lower identity of the two.
    pub first: Identity,
    /// The other.
    pub second: Identity,
    /// The places at which they conflict, as JSON Pointers, in the order of paths.
    pub places: Vec<String>,
}

/// What became of a message.
#[derive(Clone, Copy, Debug, PartialEq, Eq, Hash)]
pub enum Arrival {
    /// Its patch is stored, whether it conflicts with others or not.
    Stored,
    /// A patch with its identity is stored already.
    Repeat,
    /// It is of an earlier start, and is dropped.
    Late,
    /// It is of a later start: the caller keeps it until that is begun.
    Early,
}

/// Why no new start is begun.
#[derive(Clone, Debug, PartialEq, Eq)]
#[non_exhaustive]
pub enum DecideError {
    /// No number is left for a start.
    LastEpoch,
    /// Under this identity, which was chosen, no patch is stored.
    NotReceived(Identity),
    /// Two of the chosen patches conflict: the first two, in the order of [`PatchLog::conflicts`].
    Conflict {
        /// The lower identity of the two.
        first: Identity,
        /// The other.
        second: Identity,
        /// The places at which they conflict, as JSON Pointers, in the order of paths: all of them, or as many of the first as
        /// the limit allows.
        places: Vec<String>,
        /// How many places there are in all.
        total: usize,
        /// What is shown, with the numbers of the two among the chosen.
        line: String,
    },
    /// Memory ran out.
    NoMemory,
    /// What a later library may report.
    Unknown {
        /// The status.
        status: u32,
        /// The text of the reply.
        line: String,
    },
}

impl PatchLog {
    /// Makes a log that begins with this document, as the start of this number, and to which nothing has arrived.
    ///
    /// # Errors
    ///
    /// [`Error::Document`] if the text is not a document, or [`Error::NoMemory`].
    pub fn new(epoch: u64, start: impl AsRef<[u8]>) -> Result<Self, Error> {
        let start = start.as_ref();
        let mut log = PatchLog {
            held: Handle::new(),
            shown: start.len(),
            listed: 0,
            limit: usize::MAX,
        };
        let (held, bytes, length) = (&mut log.held, start.as_ptr(), start.len());
        // SAFETY: `held` is as the header's {0}, and no other call has it; the text is borrowed for the call, and no pointer of a
        // slice is null; the call writes its text alone. It is made again if the text is no document, and then changes nothing.
        unsafe {
            text_of(0, |out, capacity| {
                raw::mergejoin_patch_log_start(held, epoch, bytes, length, out, capacity, usize::MAX)
            })
        }?;
        Ok(log)
    }

    /// From now on a text that is longer than so many bytes is [`Error::TooLarge`].
    pub fn set_limit(&mut self, limit: usize) {
        self.limit = limit;
    }

    /// Receives a message: a patch with its identity, made for the start of this number. The patch is read first, whichever
    /// start it is for.
    ///
    /// # Errors
    ///
    /// [`Error::Patch`] if the text is not a document, or [`Error::NoMemory`]. Nothing is changed then.
    pub fn receive(
        &mut self,
        epoch: u64,
        identity: Identity,
        patch: impl AsRef<[u8]>,
    ) -> Result<Arrival, Error> {
        let (held, Identity { sender, number }, patch) = (&mut self.held, identity, patch.as_ref());
        let (bytes, length) = (patch.as_ptr(), patch.len());
        // SAFETY: as of `new`, of a log. The word for a message fits, so that it is not received twice.
        let word = unsafe {
            text_of(0, |out, capacity| {
                raw::mergejoin_patch_log_receive(
                    held, epoch, sender, number, bytes, length, out, capacity, usize::MAX,
                )
            })
        }?;
        match word.as_str() {
            "stored" => Ok(Arrival::Stored),
            "repeat" => Ok(Arrival::Repeat),
            "late" => Ok(Arrival::Late),
            "early" => Ok(Arrival::Early),
            _ => Err(unknown(word)),
        }
    }

    /// Gives the text of the document: what [`replay`](crate::replay) gives of the start and of the patches that conflict with
    /// no other.
    ///
    /// # Errors
    ///
    /// [`Error::NoMemory`], or [`Error::TooLarge`].
    pub fn document(&mut self) -> Result<String, Error> {
        let (held, limit) = (&mut self.held, self.limit);
        // SAFETY: `held` is a log, and no other call has it; the call writes its text alone, and changes nothing.
        let text = unsafe {
            text_of(guess_after(self.shown).min(limit), |out, capacity| {
                raw::mergejoin_patch_log_document(held, out, capacity, limit)
            })
        }?;
        self.shown = text.len();
        Ok(text)
    }

    /// Gives each two patches that conflict, once, in the order of their identities.
    ///
    /// # Errors
    ///
    /// [`Error::NoMemory`], or [`Error::TooLarge`].
    pub fn conflicts(&mut self) -> Result<Vec<ConflictingPair>, Error> {
        match self.first_conflicts()? {
            (pairs, false) => Ok(pairs),
            (_, true) => Err(Error::TooLarge { number: 0 }),
        }
    }

    /// Gives the pairs that come first, as many as the limit allows, and whether a pair or a place is left out.
    /// A pair counts 64 bytes and its places, and a place 128, 8 for each token, and its bytes; the last pair may have the first
    /// of its places alone.
    ///
    /// ```
    /// # use mergejoin::{Error, Identity, PatchLog};
    /// let mut log = PatchLog::new(7, "{}")?;
    /// for sender in 1..4 {
    ///     log.receive(7, Identity { sender, number: 1 }, format!(r#"{{"a":{sender}}}"#))?;
    /// }
    /// log.set_limit(250);
    /// let (first, more) = log.first_conflicts()?;
    /// assert_eq!((first.len(), first[0].second.sender, more), (1, 2, true));
    /// assert_eq!(log.conflicts(), Err(Error::TooLarge { number: 0 }));
    /// # Ok::<(), Error>(())
    /// ```
    ///
    /// # Errors
    ///
    /// [`Error::NoMemory`], or [`Error::TooLarge`] if the limit is less than two bytes.
    pub fn first_conflicts(&mut self) -> Result<(Vec<ConflictingPair>, bool), Error> {
        let (held, limit) = (&mut self.held, self.limit);
        // SAFETY: as of `document`.
        let (reply, text) = unsafe {
            reply_of(guess_after(self.listed).min(limit), |out, capacity| {
                raw::mergejoin_patch_log_conflicts(held, out, capacity, limit)
            })
        }?;
        self.listed = text.len();
        pairs_in(&reply, text)
    }

    /// Gives the same of the pairs with one identity: with which others its patch conflicts. There are none if no patch is
    /// stored under it.
    ///
    /// ```
    /// # use mergejoin::{Error, Identity, PatchLog};
    /// let mut log = PatchLog::new(7, "{}")?;
    /// for sender in 1..4 {
    ///     log.receive(7, Identity { sender, number: 1 }, format!(r#"{{"a":{}}}"#, sender / 2))?;
    /// }
    /// let (of_two, more) = log.conflicts_of(Identity { sender: 2, number: 1 })?;
    /// assert_eq!((of_two.len(), of_two[0].first.sender, more), (1, 1, false));
    /// # Ok::<(), Error>(())
    /// ```
    ///
    /// # Errors
    ///
    /// As of [`first_conflicts`](PatchLog::first_conflicts).
    pub fn conflicts_of(
        &mut self,
        identity: Identity,
    ) -> Result<(Vec<ConflictingPair>, bool), Error> {
        let (held, limit, Identity { sender, number }) = (&mut self.held, self.limit, identity);
        // SAFETY: as of `document`.
        let (reply, text) = unsafe {
            reply_of(guess_after(0).min(limit), |out, capacity| {
                raw::mergejoin_patch_log_conflicts_of(held, sender, number, out, capacity, limit)
            })
        }?;
        pairs_in(&reply, text)
    }

    /// Gives how many patches are stored. What a log takes, and what its calls cost, is bounded by this and by the lengths of the
    /// patches.
    ///
    /// # Errors
    ///
    /// [`Error::NoMemory`].
    pub fn count(&mut self) -> Result<usize, Error> {
        let held = &mut self.held;
        // SAFETY: as of `document`.
        let text = unsafe {
            text_of(0, |out, capacity| {
                raw::mergejoin_patch_log_count(held, out, capacity, usize::MAX)
            })
        }?;
        text.parse().map_err(|_| unknown(text))
    }

    /// Ends the start by the patches with these identities: what they make of it is the new start, whose number is the next.
    /// All patches are forgotten. Neither order nor repetition counts. A decision is of one start, so it is handed on once,
    /// while that is the start.
    ///
    /// # Errors
    ///
    /// [`DecideError::LastEpoch`], [`DecideError::NotReceived`] and [`DecideError::Conflict`] are looked for in this order; or
    /// [`DecideError::NoMemory`]. Nothing is changed then.
    pub fn decide(&mut self, chosen: &[Identity]) -> Result<(), DecideError> {
        let (held, limit, identities) = (&mut self.held, self.limit, chosen.as_ptr());
        // SAFETY: as of `receive`; the identities are borrowed for the call. It is made again if the places of a conflict did not
        // fit, after which nothing is changed.
        let answer = unsafe {
            reply_of(0, |out, capacity| {
                raw::mergejoin_patch_log_decide(held, identities, chosen.len(), out, capacity, limit)
            })
        };
        match answer {
            Ok((reply, _)) if reply.status == RESULT => Ok(()),
            Ok((reply, text)) => Err(DecideError::of(&reply, text, chosen)),
            Err(_) => Err(DecideError::NoMemory),
        }
    }
}

/// The pairs of a reply, and whether a pair or a place is left out.
fn pairs_in(reply: &Reply, text: String) -> Result<(Vec<ConflictingPair>, bool), Error> {
    let text = result_of(reply, text)?;
    let pairs = pairs_of(&text).ok_or_else(|| unknown(text))?;
    Ok((pairs, reply.flags & MORE != 0))
}

/// What a later library may give.
fn unknown(line: String) -> Error {
    let status = RESULT;
    Error::Unknown { status, line }
}

impl DecideError {
    /// Why a decision with this reply and this text began nothing. The reply numbers the chosen identities.
    fn of(reply: &Reply, text: String, chosen: &[Identity]) -> Self {
        let (line, places) = line_and_places(reply, text);
        let of_chosen = |number| chosen.get(number).copied();
        match (reply.status, of_chosen(reply.first), of_chosen(reply.second)) {
            (CONFLICT, Some(first), Some(second)) => DecideError::Conflict {
                first,
                second,
                places,
                total: reply.total,
                line,
            },
            (REFUSED, ..) => DecideError::LastEpoch,
            (MISSING, Some(identity), _) => DecideError::NotReceived(identity),
            (NO_MEMORY, ..) => DecideError::NoMemory,
            (status, ..) => DecideError::Unknown { status, line },
        }
    }
}

impl fmt::Display for Identity {
    fn fmt(&self, to: &mut fmt::Formatter<'_>) -> fmt::Result {
        write!(to, "{}:{}", self.sender, self.number)
    }
}

impl fmt::Display for DecideError {
    fn fmt(&self, to: &mut fmt::Formatter<'_>) -> fmt::Result {
        to.write_str(match self {
            DecideError::LastEpoch => "no number is left for a start",
            DecideError::NotReceived(_) => "missing",
            DecideError::Conflict { line, .. } => line,
            DecideError::NoMemory => "out of memory",
            DecideError::Unknown { status, line } => return write!(to, "status {status}: {line}"),
        })
    }
}

impl std::error::Error for DecideError {}

raw::holds!(PatchLog, mergejoin_patch_log_free);
