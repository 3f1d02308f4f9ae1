//! Why a text is refused, cause by cause, each with the words that the library has for it.

use std::fmt;

/// Makes the type of some causes of the table of their words.
macro_rules! causes {
    ($(#[$about:meta])* $name:ident { $($(#[$means:meta])* $cause:ident = $words:literal,)* }) => {
        $(#[$about])*
        #[derive(Clone, Copy, Debug, PartialEq, Eq, Hash)]
        #[non_exhaustive]
        pub enum $name {
            $($(#[$means])* #[doc = concat!("`", $words, "`.")] $cause,)*
        }

        impl $name {
            /// The words of the cause, which the program's lines have too.
            #[must_use]
            pub const fn as_str(self) -> &'static str {
                match self {
                    $(Self::$cause => $words,)*
                }
            }

            /// The cause of these words.
            pub(crate) fn of(words: &str) -> Option<Self> {
                match words {
                    $($words => Some(Self::$cause),)*
                    _ => None,
                }
            }
        }

        impl fmt::Display for $name {
            fn fmt(&self, to: &mut fmt::Formatter<'_>) -> fmt::Result {
                to.pad(self.as_str())
            }
        }

        impl std::error::Error for $name {}
    };
}

causes! {
    /// Why a text is not a document.
    DocumentCause {
        /// It is not JSON, or not UTF-8:
        NotJson = "not JSON",
        /// It has a number that is not whole, or not from -2^63 to 2^64 - 1:
        NotWhole = "number not whole",
        /// It has more than 126 levels:
        TooDeep = "too deep",
    }
}

causes! {
    /// Why an operation of a JSON Patch is refused.
    RefusedCause {
        /// A value would be moved into a part of itself:
        IntoItself = "into itself",
        /// The whole document would be removed:
        RemoveOfRoot = "remove of root",
        /// The document has no part there:
        Missing = "missing",
        /// The document has no place there, to which a value could be added:
        NoPlace = "no place",
        /// The document would have more than 126 levels:
        TooDeep = "too deep",
        /// The part is another than the tested value:
        TestFailed = "test failed",
    }
}

causes! {
    /// Why a document is not a JSON Patch.
    FormCause {
        /// The document is not an array:
        NotAnArray = "not an array",
        /// The element is not an object:
        NotAnObject = "not an object",
        /// It has no string `op`:
        NoOp = "no op",
        /// Its `op` is none of the six:
        UnknownOp = "unknown op",
        /// It has no string `path`:
        NoPath = "no path",
        /// It has no string `from`, which its `op` needs:
        NoFrom = "no from",
        /// Its `path` or its `from` is not a JSON Pointer:
        BadPointer = "bad pointer",
        /// It has no `value`, which its `op` needs:
        NoValue = "no value",
    }
}

causes! {
    /// Why a text is not a JSON Pointer.
    PointerCause {
        /// It is not empty, and does not begin with a slash:
        NoSlash = "no slash",
        /// A tilde is followed neither by 0 nor by 1:
        BadTilde = "bad tilde",
    }
}
