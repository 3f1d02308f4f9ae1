//! A replica that stays in memory.

use crate::calls::{guess_after, text_of};
use crate::raw::{self, Handle, OfHandle, OfText};
use crate::Error;

/// The guess for a part. One that is longer is written twice.
const PART: usize = 4096;

/// A replica of one document: it starts from a document and receives merge patches, in any order and with any repeats, and
/// shows what they make of the start.
///
/// Receiving a patch costs what the patch costs, however long the document is and however many patches were received. The
/// start and the patches are not kept: what is held is the document, and the join of what was received.
///
/// ```
/// use mergejoin::{Error, Received, Replica};
///
/// let mut replica = Replica::new(r#"{"title":"Notes"}"#)?;
/// assert_eq!(replica.receive(r#"{"author":"Ada"}"#)?, Received::Taken);
/// assert_eq!(replica.receive(r#"{"title":null}"#)?, Received::Taken);
/// assert_eq!(replica.document()?, r#"{"author":"Ada"}"#);
/// assert_eq!(replica.joined()?, r#"{"author":"Ada","title":null}"#);
/// assert_eq!(replica.get("/author")?, r#""Ada""#);
///
/// let refused = replica.receive(r#"{"author":"Bob"}"#);
/// assert!(matches!(refused, Err(Error::Conflict { places, .. }) if places == ["/author"]));
/// # Ok::<(), Error>(())
/// ```
///
/// If memory runs out before a patch is shown, it is *pending*: it is received, and each later call first tries again.
/// So the calls that read take `&mut self` too.
///
/// A replica may move to another thread, and serves one thread at a time: it is `Send`, and not `Sync`.
///
/// ```
/// # use mergejoin::Replica;
/// let mut replica = Replica::new("{}")?;
/// let other = std::thread::spawn(move || replica.receive(r#"{"a":1}"#).and_then(|_| replica.document()));
/// assert_eq!(other.join().unwrap()?, r#"{"a":1}"#);
/// # Ok::<(), mergejoin::Error>(())
/// ```
///
/// ```compile_fail,E0277
/// fn is_shared<T: Sync>() {}
/// is_shared::<mergejoin::Replica>();
/// ```
pub struct Replica {
    held: Handle,
    /// The bytes that the document's text had when it was last read, or the start's.
    shown: usize,
    /// Those that the join's text had.
    joined: usize,
    limit: usize,
}

/// What became of a patch that a replica has received.
#[derive(Clone, Copy, Debug, PartialEq, Eq, Hash)]
pub enum Received {
    /// It is received, and shown.
    Taken,
    /// It is received; memory ran out before it is shown. Each later call tries again.
    Pending,
}

impl Replica {
    /// Makes a replica that begins with this document, and has received nothing.
    ///
    /// # Errors
    ///
    /// [`Error::Document`] if the text is not a document, or [`Error::NoMemory`].
    pub fn new(start: impl AsRef<[u8]>) -> Result<Self, Error> {
        let start = start.as_ref();
        let mut replica = Replica {
            held: Handle::new(),
            shown: start.len(),
            joined: 0,
            limit: usize::MAX,
        };
        replica.call(raw::mergejoin_replica_start, start, 0)?;
        Ok(replica)
    }

    /// From now on a text that is longer than so many bytes is [`Error::TooLarge`].
    pub fn set_limit(&mut self, limit: usize) {
        self.limit = limit;
    }

    /// Receives a patch. If an earlier one is pending, that is made good first.
    ///
    /// # Errors
    ///
    /// The patch is not received, and nothing is changed, if the error is
    ///
    /// - [`Error::Patch`]: the text is not a document;
    /// - [`Error::Conflict`]: the patch conflicts, at these places, with what was received before;
    /// - [`Error::NoMemory`].
    pub fn receive(&mut self, patch: impl AsRef<[u8]>) -> Result<Received, Error> {
        let patch = patch.as_ref();
        // What is said of a patch that is refused has its places twice, and they are mostly no longer than the patch.
        match self.call(raw::mergejoin_replica_receive, patch, patch.len().saturating_mul(2)) {
            Ok(_) => Ok(Received::Taken),
            Err(Error::Pending) => Ok(Received::Pending),
            Err(why) => Err(why),
        }
    }

    /// Gives the text of the document that is shown.
    ///
    /// # Errors
    ///
    /// [`Error::Pending`] if a patch is pending and memory runs out again, [`Error::NoMemory`], or [`Error::TooLarge`].
    pub fn document(&mut self) -> Result<String, Error> {
        let text = self.read(raw::mergejoin_replica_document, self.shown)?;
        self.shown = text.len();
        Ok(text)
    }

    /// Gives the text of the join of all patches that were received.
    ///
    /// # Errors
    ///
    /// [`Error::Pending`] if a patch is pending and memory runs out again, [`Error::NoPatches`] if none was received,
    /// [`Error::NoMemory`], or [`Error::TooLarge`].
    pub fn joined(&mut self) -> Result<String, Error> {
        let text = self.read(raw::mergejoin_replica_joined, self.joined)?;
        self.joined = text.len();
        Ok(text)
    }

    /// Gives the text of the part of the document that the JSON Pointer names.
    ///
    /// # Errors
    ///
    /// [`Error::Pointer`], [`Error::Pending`] and [`Error::Missing`] are looked for in this order; or [`Error::NoMemory`], or
    /// [`Error::TooLarge`].
    pub fn get(&mut self, pointer: impl AsRef<str>) -> Result<String, Error> {
        let pointer = pointer.as_ref().as_bytes();
        self.call(raw::mergejoin_replica_get, pointer, PART.min(self.limit))
    }

    /// Makes one of the header's calls of a replica with a text.
    fn call(&mut self, call: OfText, text: &[u8], guess: usize) -> Result<String, Error> {
        let (held, limit) = (&mut self.held, self.limit);
        // SAFETY: `held` is as the header has it, and no other call has it; the text is borrowed for the call, and no pointer of a
        // slice is null; the call writes its text alone. It is made again for a part, for places, or for words
        // with a long place, after which nothing is changed: all other texts fit.
        unsafe {
            text_of(guess, |out, capacity| {
                call(held, text.as_ptr(), text.len(), out, capacity, limit)
            })
        }
    }

    /// Makes one of the header's calls that read a replica, for a text that had so many bytes before.
    fn read(&mut self, call: OfHandle, length: usize) -> Result<String, Error> {
        let (held, limit) = (&mut self.held, self.limit);
        let guess = guess_after(length).min(limit);
        // SAFETY: `held` is a replica, and no other call has it; the call writes its text alone, and changes at most that nothing
        // is pending any more.
        unsafe {
            text_of(guess, |out, capacity| call(held, out, capacity, limit))
        }
    }
}

raw::holds!(Replica, mergejoin_replica_free);
