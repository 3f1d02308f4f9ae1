//! The six functions over texts, with a limit and without.

use crate::calls::text_of;
use crate::raw::{self, OnPatches, OnTexts, Text};
use crate::Error;

/// A rewriting has a test and an edit for each member of the patch, each with its path: about so many bytes for a byte of the
/// patch, in addition to the values of the document that are tested.
const REWRITTEN: usize = 16;

/// The six functions, each within a limit; [`within`] gives them.
#[derive(Clone, Copy, Debug)]
pub struct Within {
    limit: usize,
}

/// Gives the six functions within a limit in bytes. It bounds the text of a result; the weight of what each operation of a JSON Patch
/// leaves, and of a rewriting, which is about what they take in memory; and the places that are reported of a conflict. If the result, or
/// something on the way to it, is larger, that is [`Error::TooLarge`]; of a conflict the first places are reported, and how many there are.
///
/// ```
/// use mergejoin::{within, Error};
///
/// let copy = r#"[{"op":"copy","from":"","path":"/a"}]"#;
/// assert_eq!(within(2_500).patch("{}", copy)?, r#"{"a":{}}"#);
/// assert_eq!(within(5).patch("{}", copy), Err(Error::TooLarge { number: 0 }));
/// # Ok::<(), Error>(())
/// ```
#[must_use]
pub const fn within(limit: usize) -> Within {
    Within { limit }
}

/// Without a limit.
const FREE: Within = within(usize::MAX);

/// Gives the join of merge patches: one patch with the effect of all, in any order and with any repeats.
///
/// It may be given in the place of the patches, to this function again too.
///
/// ```
/// let patches = vec![String::from(r#"{"author":"Ada"}"#), String::from(r#"{"title":null}"#)];
/// assert_eq!(mergejoin::join(&patches)?, r#"{"author":"Ada","title":null}"#);
/// assert_eq!(mergejoin::join(patches.iter().rev())?, r#"{"author":"Ada","title":null}"#);
/// # Ok::<(), mergejoin::Error>(())
/// ```
///
/// # Errors
///
/// [`Error::Patch`], [`Error::NoPatches`] and [`Error::Conflict`] are looked for in this order.
pub fn join<T>(patches: impl IntoIterator<Item = T>) -> Result<String, Error>
where
    T: AsRef<[u8]>,
{
    FREE.join(patches)
}

/// Gives the document that merge patches, no two of which conflict, make of the start, in any order and with any repeats.
///
/// Of no patches it is the start.
///
/// ```
/// let patches = [br#"{"author":"Ada"}"#.as_slice(), br#"{"title":null}"#];
/// assert_eq!(mergejoin::replay(r#"{"title":"Notes"}"#, patches)?, r#"{"author":"Ada"}"#);
/// # Ok::<(), mergejoin::Error>(())
/// ```
///
/// # Errors
///
/// [`Error::Document`], [`Error::Patch`] and [`Error::Conflict`] are looked for in this order.
pub fn replay<T>(
    start: impl AsRef<[u8]>,
    patches: impl IntoIterator<Item = T>,
) -> Result<String, Error>
where
    T: AsRef<[u8]>,
{
    FREE.replay(start, patches)
}

/// Gives the document after the merge patches, each applied to what the earlier ones left. If two conflict, their order
/// decides.
///
/// ```
/// let patches = [r#"{"title":"Draft"}"#, r#"{"title":"Book"}"#];
/// assert_eq!(mergejoin::merge(r#"{"title":"Notes"}"#, patches)?, r#"{"title":"Book"}"#);
/// # Ok::<(), mergejoin::Error>(())
/// ```
///
/// # Errors
///
/// [`Error::Document`] and [`Error::Patch`] are looked for in this order.
pub fn merge<T>(
    document: impl AsRef<[u8]>,
    patches: impl IntoIterator<Item = T>,
) -> Result<String, Error>
where
    T: AsRef<[u8]>,
{
    FREE.merge(document, patches)
}

/// Gives the merge patch as a JSON Patch for the document: tests of what it changes and the document has, and then the
/// edits.
///
/// ```
/// let json_patch = mergejoin::rewrite(r#"{"a":1}"#, r#"{"a":null}"#)?;
/// assert_eq!(json_patch, r#"[{"op":"test","path":"/a","value":1},{"op":"remove","path":"/a"}]"#);
/// # Ok::<(), mergejoin::Error>(())
/// ```
///
/// # Errors
///
/// [`Error::Document`] and [`Error::Patch`] are looked for in this order.
pub fn rewrite(document: impl AsRef<[u8]>, patch: impl AsRef<[u8]>) -> Result<String, Error> {
    FREE.rewrite(document, patch)
}

/// Gives the document after the JSON Patch.
///
/// ```
/// let patch = r#"[{"op":"add","path":"/-","value":2}]"#;
/// assert_eq!(mergejoin::patch("[1]", patch)?, "[1,2]");
/// # Ok::<(), mergejoin::Error>(())
/// ```
///
/// # Errors
///
/// [`Error::Document`], [`Error::Patch`], [`Error::Form`] and [`Error::Refused`] are looked for in this order.
pub fn patch(document: impl AsRef<[u8]>, json_patch: impl AsRef<[u8]>) -> Result<String, Error> {
    FREE.patch(document, json_patch)
}

/// Gives the part of the document that the JSON Pointer names.
///
/// ```
/// assert_eq!(mergejoin::get(r#"{"a":[5]}"#, "/a/0")?, "5");
/// # Ok::<(), mergejoin::Error>(())
/// ```
///
/// # Errors
///
/// [`Error::Document`], [`Error::Pointer`] and [`Error::Missing`] are looked for in this order.
pub fn get(document: impl AsRef<[u8]>, pointer: impl AsRef<str>) -> Result<String, Error> {
    FREE.get(document, pointer)
}

impl Within {
    /// As [`join`], with the limit.
    ///
    /// # Errors
    ///
    /// As of [`join`]; or [`Error::TooLarge`].
    pub fn join<T>(self, patches: impl IntoIterator<Item = T>) -> Result<String, Error>
    where
        T: AsRef<[u8]>,
    {
        let kept: Vec<T> = patches.into_iter().collect();
        let texts = borrowed(&kept);
        // SAFETY: as of `on_patches`.
        unsafe {
            text_of(length(&texts).min(self.limit), |out, capacity| {
                raw::mergejoin_join(texts.as_ptr(), texts.len(), out, capacity, self.limit)
            })
        }
    }

    /// As [`replay`], with the limit.
    ///
    /// # Errors
    ///
    /// As of [`replay`]; or [`Error::TooLarge`].
    pub fn replay<T>(
        self,
        start: impl AsRef<[u8]>,
        patches: impl IntoIterator<Item = T>,
    ) -> Result<String, Error>
    where
        T: AsRef<[u8]>,
    {
        self.on_patches(raw::mergejoin_replay, start.as_ref(), patches)
    }

    /// As [`merge`], with the limit.
    ///
    /// # Errors
    ///
    /// As of [`merge`]; or [`Error::TooLarge`].
    pub fn merge<T>(
        self,
        document: impl AsRef<[u8]>,
        patches: impl IntoIterator<Item = T>,
    ) -> Result<String, Error>
    where
        T: AsRef<[u8]>,
    {
        self.on_patches(raw::mergejoin_merge, document.as_ref(), patches)
    }

    /// As [`rewrite`], with the limit.
    ///
    /// # Errors
    ///
    /// As of [`rewrite`]; or [`Error::TooLarge`].
    pub fn rewrite(
        self,
        document: impl AsRef<[u8]>,
        patch: impl AsRef<[u8]>,
    ) -> Result<String, Error> {
        self.on_texts(
            raw::mergejoin_rewrite,
            document.as_ref(),
            patch.as_ref(),
            REWRITTEN,
        )
    }

    /// As [`patch`], with the limit.
    ///
    /// # Errors
    ///
    /// As of [`patch`]; or [`Error::TooLarge`].
    pub fn patch(
        self,
        document: impl AsRef<[u8]>,
        json_patch: impl AsRef<[u8]>,
    ) -> Result<String, Error> {
        self.on_texts(
            raw::mergejoin_patch,
            document.as_ref(),
            json_patch.as_ref(),
            1,
        )
    }

    /// As [`get`], with the limit.
    ///
    /// # Errors
    ///
    /// As of [`get`]; or [`Error::TooLarge`].
    pub fn get(
        self,
        document: impl AsRef<[u8]>,
        pointer: impl AsRef<str>,
    ) -> Result<String, Error> {
        self.on_texts(
            raw::mergejoin_get,
            document.as_ref(),
            pointer.as_ref().as_bytes(),
            1,
        )
    }

    fn on_patches<T>(
        self,
        call: OnPatches,
        document: &[u8],
        patches: impl IntoIterator<Item = T>,
    ) -> Result<String, Error>
    where
        T: AsRef<[u8]>,
    {
        let kept: Vec<T> = patches.into_iter().collect();
        let texts = borrowed(&kept);
        let guess = document.len().saturating_add(length(&texts));
        // SAFETY: the document is borrowed for the call; `texts` has `len` texts, which `kept` keeps; no pointer of a slice is
        // null; and the call writes its text alone, and keeps nothing.
        unsafe {
            text_of(guess.min(self.limit), |out, capacity| {
                call(
                    document.as_ptr(),
                    document.len(),
                    texts.as_ptr(),
                    texts.len(),
                    out,
                    capacity,
                    self.limit,
                )
            })
        }
    }

    /// The answer is likely to have the bytes of the document, and so many for each byte of the text.
    fn on_texts(
        self,
        call: OnTexts,
        document: &[u8],
        text: &[u8],
        times: usize,
    ) -> Result<String, Error> {
        let guess = document
            .len()
            .saturating_add(text.len().saturating_mul(times));
        // SAFETY: both texts are borrowed for the call; no pointer of a slice is null; and the call writes its text alone, and
        // keeps nothing.
        unsafe {
            text_of(guess.min(self.limit), |out, capacity| {
                call(
                    document.as_ptr(),
                    document.len(),
                    text.as_ptr(),
                    text.len(),
                    out,
                    capacity,
                    self.limit,
                )
            })
        }
    }
}

/// Borrows texts, which their caller keeps.
fn borrowed<T: AsRef<[u8]>>(texts: &[T]) -> Vec<Text<'_>> {
    texts.iter().map(|text| Text::of(text.as_ref())).collect()
}

fn length(texts: &[Text<'_>]) -> usize {
    texts.iter().map(Text::len).fold(0, usize::saturating_add)
}

#[cfg(test)]
mod tests {
    use super::{raw, FREE, REWRITTEN};
    use std::sync::atomic::{AtomicUsize, Ordering};

    static CALLS: AtomicUsize = AtomicUsize::new(0);

    unsafe extern "C" fn counted(
        document: *const u8,
        document_length: usize,
        patch: *const u8,
        length: usize,
        out: *mut u8,
        capacity: usize,
        limit: usize,
    ) -> raw::Reply {
        CALLS.fetch_add(1, Ordering::Relaxed);
        // SAFETY: as of `on_texts`, which passes these on.
        unsafe {
            raw::mergejoin_rewrite(
                document,
                document_length,
                patch,
                length,
                out,
                capacity,
                limit,
            )
        }
    }

    fn members(prefix: &str, value: u8) -> String {
        let member = |name| format!("\"{prefix}{name}\":{value}");
        let members: Vec<_> = (0..100).map(member).collect();
        format!("{{{}}}", members.join(","))
    }

    #[test]
    fn a_rewriting_is_made_once() {
        let mut made = 0;
        for prefix in ["", "service", "a rather long name"] {
            let (one, other) = (members(prefix, 1), members(prefix, 2));
            let nested = [&one, &other].map(|it| format!("{{\"services\":{it}}}"));
            for (document, patch) in [("{}", &one), (&one, &other), (&nested[0], &nested[1])] {
                FREE.on_texts(counted, document.as_bytes(), patch.as_bytes(), REWRITTEN)
                    .unwrap();
                made += 1;
                assert_eq!(CALLS.load(Ordering::Relaxed), made, "{document} {patch}");
            }
        }
    }
}
