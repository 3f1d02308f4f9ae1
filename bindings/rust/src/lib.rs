//! JSON Merge Patches (RFC 7396), JSON Pointers (RFC 6901) and JSON Patches (RFC 6902) over texts, and replicas of one JSON
//! document that exchange merge patches.
//!
//! Two patches conflict if both say something of one place and say different things. As long as no two conflict, replicas
//! end with the same document, in whatever order each receives the patches and with any repeats. The join of patches is one
//! merge patch with the effect of all.
//!
//! ```
//! use mergejoin::{join, replay, Error};
//!
//! let patches = [r#"{"author":"Ada"}"#, r#"{"title":null}"#];
//! assert_eq!(replay(r#"{"title":"Notes"}"#, patches)?, r#"{"author":"Ada"}"#);
//! assert_eq!(join(patches)?, r#"{"author":"Ada","title":null}"#);
//!
//! let other = join([patches[0], r#"{"author":"Bob"}"#]);
//! assert!(matches!(other, Err(Error::Conflict { patches: Some((0, 1)), places, .. }) if places == ["/author"]));
//! # Ok::<(), Error>(())
//! ```
//!
//! [`join`], [`replay`], [`merge`], [`rewrite`], [`patch`] and [`get`] read all texts anew. [`Replica`] and [`Patches`] stay in
//! memory, and receive each patch at the cost of the patch. A [`PatchLog`] stays in memory too, and keeps patches that conflict
//! until it is decided which of them count.
//!
//! Each document and each patch is a JSON text of its own: a `&str`, a `String`, a `&[u8]` or a `Vec<u8>` of UTF-8. Patches are an
//! array, a slice or any iterator of them. Results are compact, with names in the order of their UTF-8 bytes. Numbers are
//! whole, from -2^63 to 2^64 - 1, and a document has at most 126 levels.
//!
//! A call needs 256 KiB of stack. It takes mostly 10 to 100 bytes of memory for each byte that it reads, and never more than
//! 360, in addition to what copies and the answer take. If memory runs out in the library, the error is [`Error::NoMemory`].
//!
//! A short text can ask for all memory: a JSON Patch doubles a document with each `copy`, and two patches may conflict at very many
//! places. So call with the texts of strangers by [`within`] a limit: no result of an operation, no rewriting, no list of places and
//! no answer then takes more.
//!
//! What a call answers is proved down to the exports of the library that this crate calls. The crate itself is tested alone.
#![warn(missing_docs, unsafe_op_in_unsafe_fn)]

mod calls;
mod causes;
mod error;
mod patch_log;
mod patches;
mod places;
mod raw;
mod replica;
mod texts;

pub use causes::{DocumentCause, FormCause, PointerCause, RefusedCause};
pub use error::Error;
pub use patch_log::{Arrival, ConflictingPair, DecideError, Identity, PatchLog};
pub use patches::{Added, Patches};
pub use replica::{Received, Replica};
pub use texts::{get, join, merge, patch, replay, rewrite, within, Within};

#[cfg(doctest)]
#[doc = include_str!("../README.md")]
struct Readme;
