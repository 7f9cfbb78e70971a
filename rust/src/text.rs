//! Texts that are allocated: written by a call into a buffer of the thread, and copied out of it.
use crate::Error;
use std::borrow::Cow;
use std::cell::Cell;
use std::fmt::Write;
use std::str;

type Result<T> = std::result::Result<T, Error>;

// Where a text does not fit, it is asked for again with a buffer so many times as long. The thread keeps one of this length at most: what is kept and lent
// is filled with zeros by a refused call. To measure the text first takes longer, as a rule, and has no limit (docs/BENCHMARKS.md has figures).
const FIRST_BUFFER: usize = 1 << 12;
const GROWTH: usize = 4;
const KEPT_BUFFER: usize = 1 << 16;

thread_local! {
    // Taken while it is in use: a writer that asks for a text inside another has a new one.
    static BUFFER: Cell<Vec<u8>> = const { Cell::new(Vec::new()) };
}

/// What is made of a text, which is written into a buffer that is long enough for it, up to the limit.
pub fn of<T>(limit: usize, call: impl Fn(&mut [u8]) -> Result<usize>, made_of: impl FnOnce(&[u8]) -> T) -> Result<T> {
    let mut buffer = BUFFER.try_with(Cell::take).unwrap_or_default();
    if buffer.is_empty() {
        buffer = vec![0; FIRST_BUFFER];
    }
    let answer = loop {
        let room = buffer.len().min(limit);
        match call(&mut buffer[..room]) {
            Err(Error::NoRoom) if room < limit => buffer = vec![0; room.saturating_mul(GROWTH).min(limit)],
            answer => break answer,
        }
    };
    let made = answer.map(|text_len| made_of(&buffer[..text_len]));
    if buffer.len() <= KEPT_BUFFER {
        // a thread that ends has no place to keep it any more
        let _ = BUFFER.try_with(|kept| kept.set(buffer));
    }
    made
}

/// The text. All that a `String` is made of is UTF-8: names of records as they are shown, and a name that is given as a `str`.
pub fn into_string(text: &[u8]) -> String {
    as_str(text).into_owned()
}

/// Writes the text out.
pub fn write_text(w: &mut impl Write, text: &[u8]) -> Result<()> {
    Ok(w.write_str(&as_str(text))?)
}

// Looked at as a whole first: that is faster than part by part.
fn as_str(text: &[u8]) -> Cow<'_, str> {
    str::from_utf8(text).map_or_else(|_| String::from_utf8_lossy(text), Cow::Borrowed)
}
