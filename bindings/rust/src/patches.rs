//! Patches that are gathered without a start.

use crate::calls::{guess_after, reply_of, text_of};
use crate::raw::{self, Handle, OfHandle, OfText, Reply, CONFLICT, PENDING, RESULT};
use crate::Error;

/// The limit of a call that takes patches. If two conflict, no place is wanted, and there may be very many.
const NO_PLACES: usize = 0;

/// Merge patches that are gathered without a start, for a reduce, a combiner or an aggregate: nothing yet, their join, or
/// that two of them conflict, with the places of the first conflict that was seen.
///
/// What adding a patch costs depends on the patch, and hardly on how many were taken. The patches are not kept. Whatever the order, the
/// groups and the repeats, the text is the same.
///
/// ```
/// use mergejoin::{Added, Error, Patches};
///
/// let (mut here, mut there) = (Patches::new(), Patches::new());
/// assert_eq!(here.add(r#"{"author":"Ada"}"#)?, Added::Joined);
/// there.add(r#"{"title":null}"#)?;
/// here.combine(&mut there)?;
/// assert_eq!(here.text()?, r#"{"author":"Ada","title":null}"#);
/// assert_eq!(there.text(), Err(Error::NoPatches));
///
/// assert_eq!(here.add(r#"{"author":"Bob"}"#)?, Added::Conflict);
/// assert!(matches!(here.text(), Err(Error::Conflict { places, .. }) if places == ["/author"]));
/// # Ok::<(), Error>(())
/// ```
///
/// That two conflict is a state: it takes, and reads, all further patches, so that a text that is not a document is an error
/// in every order.
///
/// If memory runs out before a patch is joined, it is *pending*: it is taken, and each later call first tries again. So the
/// calls that read take `&mut self` too.
///
/// It may move to another thread, and serves one thread at a time: it is `Send`, and not `Sync`.
///
/// ```compile_fail,E0277
/// fn is_shared<T: Sync>() {}
/// is_shared::<mergejoin::Patches>();
/// ```
pub struct Patches {
    held: Handle,
    /// The bytes that the text had when it was last read, or a kept form that was taken.
    length: usize,
    limit: usize,
}

/// What became of patches that were taken.
#[derive(Clone, Copy, Debug, PartialEq, Eq, Hash)]
pub enum Added {
    /// They are taken, and joined.
    Joined,
    /// They are taken, and two of all that was taken conflict, now or since earlier. [`Patches::text`] reports where.
    Conflict,
    /// They are taken; memory ran out before they are joined. Each later call tries again.
    Pending,
}

impl Patches {
    /// Gives no patches.
    #[must_use]
    pub const fn new() -> Self {
        Patches {
            held: Handle::new(),
            length: 0,
            limit: usize::MAX,
        }
    }

    /// From now on a text that is longer than so many bytes is [`Error::TooLarge`].
    pub fn set_limit(&mut self, limit: usize) {
        self.limit = limit;
    }

    /// Takes one more patch. If an earlier one is pending, that is made good first.
    ///
    /// # Errors
    ///
    /// The patch is not taken, and nothing is changed, if the error is [`Error::Patch`], since the text is not a document, or
    /// [`Error::NoMemory`].
    pub fn add(&mut self, patch: impl AsRef<[u8]>) -> Result<Added, Error> {
        self.take(raw::mergejoin_patches_add, patch.as_ref())
    }

    /// Takes all that another has taken, and leaves that one without patches. What it holds is moved: its patches are not
    /// joined again one by one.
    ///
    /// # Errors
    ///
    /// [`Error::NoMemory`]: neither has changed.
    pub fn combine(&mut self, other: &mut Patches) -> Result<Added, Error> {
        let (held, others) = (&mut self.held, &mut other.held);
        // SAFETY: no other call has either, and two mutable borrows are of two; the call writes its text alone. What it says fits,
        // so that it is made once.
        let answer = unsafe {
            reply_of(0, |out, capacity| {
                raw::mergejoin_patches_combine(held, others, out, capacity, NO_PLACES)
            })
        };
        added_of(answer)
    }

    /// Gives the text of the join of all patches that were taken, as [`join`](crate::join) does.
    ///
    /// # Errors
    ///
    /// [`Error::Conflict`] if two conflict, with the places at which this was seen first, which may be others in another
    /// order; [`Error::Pending`] if a patch is pending and memory runs out again; [`Error::NoPatches`] if none was taken;
    /// [`Error::NoMemory`]; or [`Error::TooLarge`].
    pub fn text(&mut self) -> Result<String, Error> {
        self.read(raw::mergejoin_patches_text)
    }

    /// Gives the kept form, to store or to send: the empty text if nothing was taken, the text of the join, or the first places of a
    /// conflict as a JSON array, behind `!` if these are all and behind `!+` if there are more. [`Patches::from_kept`] takes it.
    ///
    /// ```
    /// # use mergejoin::Patches;
    /// let mut patches = Patches::new();
    /// patches.add(r#"{"a":1}"#)?;
    /// patches.add(r#"{"a":2}"#)?;
    /// assert_eq!(patches.kept()?, r#"!["/a"]"#);
    /// # Ok::<(), mergejoin::Error>(())
    /// ```
    ///
    /// # Errors
    ///
    /// [`Error::Pending`] if a patch is pending and memory runs out again, [`Error::NoMemory`], or [`Error::TooLarge`].
    pub fn kept(&mut self) -> Result<String, Error> {
        self.read(raw::mergejoin_patches_kept)
    }

    /// Makes the patches of a kept form: they have taken what was taken where it was made. A document is the kept form of
    /// itself, as one patch.
    ///
    /// # Errors
    ///
    /// [`Error::Document`] if the text, or what follows its `!` or `!+`, is not a document; [`Error::NotKept`] if what follows is not an
    /// array of JSON Pointers, or is an empty one after `!`; or [`Error::NoMemory`].
    pub fn from_kept(kept: impl AsRef<[u8]>) -> Result<Self, Error> {
        let (mut patches, kept) = (Patches::new(), kept.as_ref());
        patches.take(raw::mergejoin_patches_from_kept, kept)?;
        patches.length = kept.len();
        Ok(patches)
    }

    /// Makes one of the header's calls that give patches a text.
    fn take(&mut self, call: OfText, text: &[u8]) -> Result<Added, Error> {
        let held = &mut self.held;
        // SAFETY: no other call has `held`; the text is borrowed for the call, and no pointer of a slice is null; the call writes its
        // text alone. It is made again if that is a long line, of a text that is no document, after which nothing is changed.
        let answer = unsafe {
            reply_of(0, |out, capacity| {
                call(held, text.as_ptr(), text.len(), out, capacity, NO_PLACES)
            })
        };
        added_of(answer)
    }

    /// Makes one of the header's calls that read patches.
    fn read(&mut self, call: OfHandle) -> Result<String, Error> {
        let (held, limit) = (&mut self.held, self.limit);
        let guess = guess_after(self.length).min(limit);
        // SAFETY: no other call has `held`; the call writes its text alone, and changes at most that nothing is pending any more.
        let text = unsafe { text_of(guess, |out, capacity| call(held, out, capacity, limit)) }?;
        self.length = text.len();
        Ok(text)
    }
}

fn added_of(answer: Result<(Reply, String), Error>) -> Result<Added, Error> {
    let (reply, text) = answer?;
    match reply.status {
        RESULT => Ok(Added::Joined),
        CONFLICT => Ok(Added::Conflict),
        PENDING => Ok(Added::Pending),
        _ => Err(Error::of(&reply, text)),
    }
}

impl Default for Patches {
    fn default() -> Self {
        Patches::new()
    }
}

raw::holds!(Patches, mergejoin_patches_free);
