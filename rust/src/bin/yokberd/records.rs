//! The kinds of records, read off the heads of a stream that was accepted.

const HEADER: usize = 56;
const FIRST_ID_KIND: u16 = 0x1601;
const LAST_ID_KIND: u16 = 0x1607;
const FUNCTION_ID: u16 = 0x1601;
const MEMBER_FUNCTION_ID: u16 = 0x1602;

/// The kind of each record.
pub fn kinds(stream: &[u8]) -> impl Iterator<Item = u16> + '_ {
    let half = |at: usize| stream.get(at..at + 2).map(|bytes| u16::from_le_bytes([bytes[0], bytes[1]]));
    let end = stream.len().min(HEADER + record_bytes(stream));
    let mut at = HEADER;
    std::iter::from_fn(move || {
        let (len, kind) = (half(at).filter(|_| at < end)?, half(at + 2)?);
        at += 2 + usize::from(len);
        Some(kind)
    })
}

fn record_bytes(stream: &[u8]) -> usize {
    stream.get(16..20).map_or(0, |bytes| u32::from_le_bytes([bytes[0], bytes[1], bytes[2], bytes[3]]) as usize)
}

/// Whether a record of this kind is the id of a function or a member function.
pub fn is_function(kind: u16) -> bool {
    kind == FUNCTION_ID || kind == MEMBER_FUNCTION_ID
}

/// What a stream holds, by the kinds of its records.
#[derive(Clone, Copy, PartialEq, Eq)]
pub enum Held {
    Nothing,
    Ids,
    Types,
    Both,
}

/// What a stream holds.
pub fn held(stream: &[u8]) -> Held {
    let is_id = |kind: u16| (FIRST_ID_KIND..=LAST_ID_KIND).contains(&kind);
    match (kinds(stream).any(is_id), kinds(stream).any(|kind| !is_id(kind))) {
        (false, false) => Held::Nothing,
        (true, false) => Held::Ids,
        (false, true) => Held::Types,
        (true, true) => Held::Both,
    }
}
