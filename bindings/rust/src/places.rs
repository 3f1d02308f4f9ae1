//! Places, and pairs of patches, which are read from the compact JSON that the library writes.

use crate::{ConflictingPair, Identity};
use std::str::Chars;

/// The places of the array at the end of a text, which may have none.
pub(crate) fn places_of(array: &str) -> Option<Vec<String>> {
    match array {
        "" => Some(Vec::new()),
        array => Written(array).array(Written::string),
    }
}

/// The pairs of a patch log.
pub(crate) fn pairs_of(text: &str) -> Option<Vec<ConflictingPair>> {
    Written(text).array(|it| {
        it.skip(r#"{"first":"#)?;
        let first = it.identity()?;
        it.skip(r#","second":"#)?;
        let second = it.identity()?;
        it.skip(r#","places":"#)?;
        let places = it.array(Written::string)?;
        it.skip("}")?;
        Some(ConflictingPair {
            first,
            second,
            places,
        })
    })
}

/// What is left of a text. It gives nothing where the text is another than the library writes.
struct Written<'a>(&'a str);

impl Written<'_> {
    fn skip(&mut self, words: &str) -> Option<()> {
        self.0 = self.0.strip_prefix(words)?;
        Some(())
    }

    fn array<T>(&mut self, read: impl Fn(&mut Self) -> Option<T>) -> Option<Vec<T>> {
        let mut elements = Vec::new();
        self.skip("[")?;
        while self.skip("]").is_none() {
            self.skip(",");
            elements.push(read(self)?);
        }
        Some(elements)
    }

    fn identity(&mut self) -> Option<Identity> {
        match self.array(Self::number)?[..] {
            [sender, number] => Some(Identity { sender, number }),
            _ => None,
        }
    }

    fn number(&mut self) -> Option<u64> {
        let end = self.0.find(|it: char| !it.is_ascii_digit())?;
        let (digits, rest) = self.0.split_at(end);
        self.0 = rest;
        digits.parse().ok()
    }

    fn string(&mut self) -> Option<String> {
        let mut string = String::new();
        self.skip("\"")?;
        let mut rest = self.0.chars();
        loop {
            match rest.next()? {
                '"' => break,
                '\\' => string.push(escaped_in(&mut rest)?),
                plain => string.push(plain),
            }
        }
        self.0 = rest.as_str();
        Some(string)
    }
}

/// The character that is written after a backslash.
fn escaped_in(rest: &mut Chars<'_>) -> Option<char> {
    Some(match rest.next()? {
        'b' => '\u{8}',
        'f' => '\u{c}',
        'n' => '\n',
        'r' => '\r',
        't' => '\t',
        'u' => {
            let digits: String = rest.take(4).collect();
            char::from_u32(u32::from_str_radix(&digits, 16).ok()?)?
        }
        itself => itself,
    })
}
