//! The one place that calls with a buffer.

use crate::raw::{Reply, RESULT};
use crate::Error;

/// A buffer has so many bytes more than the guess. No text is longer than this but a result, a kept form, and a line that has places.
const LEAST: usize = 128;

/// The guess for a text of what stays in memory is half as many bytes again as it had when it was last read, and these. What was
/// received since is not counted: repeats change no text.
const SPARE: usize = 65_536;

/// Gives the guess for a text that had so many bytes when it was last read.
pub(crate) fn guess_after(length: usize) -> usize {
    length.saturating_add(length / 2).saturating_add(SPARE)
}

/// Calls with a buffer of so many bytes and a few more, and once more if the text is longer. It gives the text of a
/// result, or why there is none.
///
/// # Safety
///
/// With a buffer and its capacity the call writes the first `length` bytes of its reply's text, as many as fit, and
/// nothing else. It may be made again if they did not fit.
pub(crate) unsafe fn text_of(
    guess: usize,
    call: impl FnMut(*mut u8, usize) -> Reply,
) -> Result<String, Error> {
    // SAFETY: the call is as this one wants it.
    let (reply, text) = unsafe { reply_of(guess, call) }?;
    result_of(&reply, text)
}

/// So does this, and gives the reply with its text. An error is that of a buffer.
///
/// # Safety
///
/// As of [`text_of`].
pub(crate) unsafe fn reply_of(
    guess: usize,
    mut call: impl FnMut(*mut u8, usize) -> Reply,
) -> Result<(Reply, String), Error> {
    let most = guess.saturating_add(LEAST);
    let mut buffer = buffer_of(most).or_else(|_| buffer_of(LEAST))?; // the text may be shorter than the guess
    loop {
        let reply = call(buffer.as_mut_ptr(), buffer.capacity());
        if reply.length <= buffer.capacity() {
            // SAFETY: the call has written so many bytes, and the buffer has them.
            unsafe { buffer.set_len(reply.length) };
            let text = String::from_utf8(buffer).expect("the library writes UTF-8");
            return Ok((reply, text));
        }
        drop(buffer);
        buffer = buffer_of(reply.length)?;
    }
}

fn buffer_of(capacity: usize) -> Result<Vec<u8>, Error> {
    let mut buffer = Vec::new();
    let reserved = buffer.try_reserve_exact(capacity);
    reserved.map(|()| buffer).map_err(|_| Error::NoMemory)
}

/// Gives the text of a result, or why there is none.
pub(crate) fn result_of(reply: &Reply, mut text: String) -> Result<String, Error> {
    if reply.status != RESULT {
        return Err(Error::of(reply, text));
    }
    if text.capacity() / 2 > text.len() {
        text.shrink_to_fit();
    }
    Ok(text)
}
